//! Colour fills and the numbers of a `D3DCOLOR`, which is hexadecimal AARRGGBB.

use alloc::vec::Vec;
use core::fmt;

use crate::ffi;
use crate::format::{Named, names_where};
use crate::refusal::{Call, Refused, accepted};

pub use crate::shapes::FillPixel;

impl FillPixel {
    /// The texel's bytes alone.
    ///
    /// ```
    /// use wentuqis::convert::try_d3dcolor_fill_pixel_bytes;
    /// use wentuqis::format::D3DFMT_A8;
    ///
    /// assert_eq!(try_d3dcolor_fill_pixel_bytes(0x8000_0000, D3DFMT_A8)?.as_slice(), [0x80]);
    /// # Ok::<(), wentuqis::Refused>(())
    /// ```
    #[must_use]
    pub fn as_slice(&self) -> &[u8] {
        &self.bytes[..self.bytes.len().min(self.length as usize)]
    }
}

/// The bytes with which `ColorFill` fills one texel; `None` for a format that has no fill.
///
/// X keeps the colour's own alpha bits. [`try_d3dcolor_fill_pixel_bytes`] needs no allocation.
///
/// ```
/// use wentuqis::convert::d3dcolor_fill_pixel_bytes;
/// use wentuqis::format::{D3DFMT_D16, D3DFMT_R5G6B5};
///
/// assert_eq!(d3dcolor_fill_pixel_bytes(0xdead_beef, D3DFMT_R5G6B5), Some(vec![0xfd, 0xad]));
/// assert_eq!(d3dcolor_fill_pixel_bytes(0xdead_beef, D3DFMT_D16), None);
/// ```
#[must_use]
pub fn d3dcolor_fill_pixel_bytes(color: u32, d3d_format: u32) -> Option<Vec<u8>> {
    try_d3dcolor_fill_pixel_bytes(color, d3d_format)
        .ok()
        .map(|fill| fill.as_slice().to_vec())
}

/// [`d3dcolor_fill_pixel_bytes`], with the reason if it refuses.
///
/// # Errors
/// [`Refusal::NoFill`](crate::Refusal::NoFill).
///
/// ```
/// use wentuqis::convert::try_d3dcolor_fill_pixel_bytes;
/// use wentuqis::format::{D3DFMT_D16, D3DFMT_L8};
///
/// assert_eq!(try_d3dcolor_fill_pixel_bytes(0xffff_0000, D3DFMT_L8)?.as_slice(), [54]);
/// assert_eq!(try_d3dcolor_fill_pixel_bytes(0xffff_0000, D3DFMT_D16).unwrap_err().number(), 5);
/// # Ok::<(), wentuqis::Refused>(())
/// ```
pub fn try_d3dcolor_fill_pixel_bytes(color: u32, d3d_format: u32) -> Result<FillPixel, Refused> {
    let mut fill = FillPixel {
        bytes: [0; 16],
        length: 0,
    };
    let reply = ffi::wentuqis_d3dcolor_fill_pixel_bytes(color, d3d_format, &mut fill);
    accepted(reply, || Call::Fill(FillCall { format: d3d_format }))?;
    Ok(fill)
}

/// Repeats `pixel` over all of `dst`: byte `i` becomes `pixel[i % pixel.len()]`.
///
/// Never refuses; an empty `pixel` changes no byte.
///
/// ```
/// use wentuqis::convert::splat_pixel_pattern;
///
/// let mut row = [0; 5];
/// splat_pixel_pattern(&mut row, &[0xfd, 0xad]);
/// assert_eq!(row, [0xfd, 0xad, 0xfd, 0xad, 0xfd]);
/// splat_pixel_pattern(&mut row, &[]);
/// assert_eq!(row[0], 0xfd);
/// ```
pub fn splat_pixel_pattern(dst: &mut [u8], pixel: &[u8]) {
    ffi::splat_pixel_pattern(dst, pixel);
}

/// The bits of the binary16 number nearest to `value`, ties to even.
///
/// Never refuses. Magnitudes up to 2^-25 give zero with their sign, those above it and below 2^-24
/// the smallest subnormal, magnitudes from 65520 infinity; a NaN gives 7E00 with its sign.
///
/// ```
/// use wentuqis::convert::f32_to_f16_bits;
///
/// assert_eq!(f32_to_f16_bits(1.0), 0x3c00);
/// assert_eq!(f32_to_f16_bits(65519.0), 0x7bff);
/// assert_eq!(f32_to_f16_bits(65520.0), 0x7c00);
/// assert_eq!(f32_to_f16_bits(-4e-8), 0x8001);
/// ```
#[must_use]
pub fn f32_to_f16_bits(value: f32) -> u16 {
    ffi::wentuqis_f32_to_f16_bits(value.to_bits())
}

/// Red, green, blue and alpha of a `D3DCOLOR`, each divided by 255.
///
/// Never refuses.
///
/// ```
/// use wentuqis::convert::d3dcolor_to_rgba_f32;
///
/// assert_eq!(d3dcolor_to_rgba_f32(0xff00_3300), [0.0, 0.2, 0.0, 1.0]);
/// ```
#[must_use]
pub fn d3dcolor_to_rgba_f32(color: u32) -> [f32; 4] {
    let mut rgba = [0.0; 4];
    ffi::wentuqis_d3dcolor_to_rgba_f32(color, &mut rgba);
    rgba
}

/// The argument of a refused fill.
#[derive(Clone, Copy, Debug, PartialEq, Eq, Hash)]
pub(crate) struct FillCall {
    format: u32,
}

impl FillCall {
    /// Writes what to mend.
    pub(crate) fn explain(&self, f: &mut fmt::Formatter<'_>) -> fmt::Result {
        let all = names_where(|code| try_d3dcolor_fill_pixel_bytes(0, code).is_ok());
        write!(
            f,
            "{} has no fill; the formats that have one are {all}",
            Named(self.format)
        )
    }
}
