//! Packed depth pixels and the two planes, depth and stencil, that they are unpacked into.
//!
//! A depth plane holds a binary32 number for each pixel, a stencil plane a byte. Packing takes the
//! nearest code, so unpacking and then packing the untouched planes, with the same format and layout,
//! restores every pixel of D16 and D24S8, whatever the packed pitches. Refused, a call leaves every
//! byte it was lent.

use core::fmt;

use crate::ffi;
use crate::format::{D3DFMT_D16, D3DFMT_D24S8, D3DFMT_D24X8, Named};
use crate::refusal::{Call, Refusal, Refused, accepted};

pub use crate::shapes::PlaneLayout;

/// A packed depth format. Its methods are plain Rust: tested, not proved.
///
/// ```
/// use wentuqis::depth_texture::PackedDepth;
/// use wentuqis::format::D3DFMT_D24S8;
///
/// let format = PackedDepth::from_d3d(D3DFMT_D24S8).unwrap();
/// assert_eq!(format, PackedDepth::D24S8);
/// assert_eq!(format.code(), D3DFMT_D24S8);
/// ```
#[derive(Clone, Copy, Debug, PartialEq, Eq, Hash)]
pub enum PackedDepth {
    /// A 16-bit code.
    D16,
    /// A 24-bit code below an X byte, against its name; packing writes X as 0.
    D24X8,
    /// A stencil byte, then a 24-bit code.
    D24S8,
}

impl PackedDepth {
    /// The packed depth format with this code; `None` for every other code.
    ///
    /// ```
    /// use wentuqis::depth_texture::PackedDepth;
    /// use wentuqis::format::{D3DFMT_D16, D3DFMT_L8};
    ///
    /// assert_eq!(PackedDepth::from_d3d(D3DFMT_D16), Some(PackedDepth::D16));
    /// assert_eq!(PackedDepth::from_d3d(D3DFMT_L8), None);
    /// ```
    #[must_use]
    pub const fn from_d3d(format: u32) -> Option<Self> {
        match format {
            D3DFMT_D16 => Some(Self::D16),
            D3DFMT_D24X8 => Some(Self::D24X8),
            D3DFMT_D24S8 => Some(Self::D24S8),
            _ => None,
        }
    }

    /// The format's code.
    ///
    /// ```
    /// use wentuqis::depth_texture::PackedDepth;
    ///
    /// assert_eq!(PackedDepth::D24X8.code(), wentuqis::format::D3DFMT_D24X8);
    /// ```
    #[must_use]
    pub const fn code(&self) -> u32 {
        match self {
            Self::D16 => D3DFMT_D16,
            Self::D24X8 => D3DFMT_D24X8,
            Self::D24S8 => D3DFMT_D24S8,
        }
    }

    /// Packed bytes of a pixel.
    ///
    /// ```
    /// use wentuqis::depth_texture::PackedDepth;
    ///
    /// assert_eq!(PackedDepth::D16.bytes_per_pixel(), 2);
    /// assert_eq!(PackedDepth::D24S8.bytes_per_pixel(), 4);
    /// ```
    #[must_use]
    pub const fn bytes_per_pixel(&self) -> usize {
        match self {
            Self::D16 => 2,
            Self::D24X8 | Self::D24S8 => 4,
        }
    }

    /// Whether a stencil plane belongs to the format.
    ///
    /// ```
    /// use wentuqis::depth_texture::PackedDepth;
    ///
    /// assert!(PackedDepth::D24S8.has_stencil());
    /// assert!(!PackedDepth::D24X8.has_stencil());
    /// ```
    #[must_use]
    pub const fn has_stencil(&self) -> bool {
        matches!(self, Self::D24S8)
    }
}

impl PlaneLayout {
    /// A layout whose rows are aligned; an alignment below 4 counts as 4.
    ///
    /// `None` for a width or height of 0, for an alignment that is no power of two, and where a
    /// plane has more bytes than 64 bits count. [`try_new`](Self::try_new) says which.
    ///
    /// ```
    /// use wentuqis::depth_texture::PlaneLayout;
    ///
    /// assert_eq!(PlaneLayout::new(5, 3, 0).unwrap().depth_pitch, 20);
    /// assert!(PlaneLayout::new(5, 3, 6).is_none());
    /// ```
    #[must_use]
    pub fn new(width: u32, height: u32, alignment: u32) -> Option<Self> {
        Self::try_new(width, height, alignment).ok()
    }

    /// [`new`](Self::new), with the reason if it refuses.
    ///
    /// # Errors
    /// [`Refusal::ZeroSize`], [`Refusal::NoPowerOfTwo`] and [`Refusal::Over64Bits`]; of several the
    /// first.
    ///
    /// ```
    /// use wentuqis::depth_texture::PlaneLayout;
    ///
    /// assert_eq!(PlaneLayout::try_new(5, 3, 8)?.stencil_pitch, 8);
    /// assert_eq!(
    ///     PlaneLayout::try_new(5, 3, 6).unwrap_err().to_string(),
    ///     "no power of two: the alignment is 6; 4 and 8 are powers of two"
    /// );
    /// # Ok::<(), wentuqis::Refused>(())
    /// ```
    pub fn try_new(width: u32, height: u32, alignment: u32) -> Result<Self, Refused> {
        let mut layout = Self {
            width: 0,
            height: 0,
            depth_pitch: 0,
            stencil_pitch: 0,
        };
        let reply = ffi::wentuqis_plane_layout(width, height, alignment, &mut layout);
        accepted(reply, || {
            Call::Planes(PlanesCall {
                width,
                height,
                alignment,
            })
        })?;
        Ok(layout)
    }

    /// Unpacks `packed` into the two planes; false if refused, and both planes are then as they were.
    ///
    /// Without a stencil its plane is neither read nor written, and may be empty.
    /// [`try_unpack`](Self::try_unpack) says why it refuses.
    ///
    /// ```
    /// use wentuqis::depth_texture::{PackedDepth, PlaneLayout};
    ///
    /// let layout = PlaneLayout::new(1, 1, 4).unwrap();
    /// let (mut depth, mut stencil) = ([0; 4], [0; 4]);
    /// let packed = [7, 0xff, 0xff, 0xff];
    /// assert!(layout.unpack(&PackedDepth::D24S8, &packed, 4, &mut depth, &mut stencil));
    /// assert_eq!((f32::from_le_bytes(depth), stencil[0]), (1.0, 7));
    /// ```
    pub fn unpack(
        &self,
        format: &PackedDepth,
        packed: &[u8],
        packed_pitch: usize,
        depth: &mut [u8],
        stencil: &mut [u8],
    ) -> bool {
        ffi::unpack(depth, stencil, packed, packed_pitch, format.code(), self) == 0
    }

    /// [`unpack`](Self::unpack) for a format code, with the reason if it refuses.
    ///
    /// # Errors
    /// [`Refusal::NotPackedDepth`], [`Refusal::BadLayout`], [`Refusal::ShortPacked`],
    /// [`Refusal::ShortDepth`] and [`Refusal::ShortStencil`]; of several the first. Both planes are
    /// then as they were.
    ///
    /// ```
    /// use wentuqis::depth_texture::PlaneLayout;
    /// use wentuqis::format::D3DFMT_D16;
    ///
    /// let layout = PlaneLayout::try_new(2, 1, 4)?;
    /// let mut depth = [0; 8];
    /// layout.try_unpack(D3DFMT_D16, &[0, 0, 0xff, 0xff], 4, &mut depth, &mut [])?;
    /// assert_eq!(depth[4..], 1.0_f32.to_le_bytes());
    ///
    /// let refused = layout.try_unpack(D3DFMT_D16, &[0, 0, 0xff], 4, &mut depth, &mut []).unwrap_err();
    /// assert_eq!(
    ///     refused.to_string(),
    ///     "short packed rows: the packed buffer has 3 bytes, 1 row at pitch 4 needs 4"
    /// );
    /// # Ok::<(), wentuqis::Refused>(())
    /// ```
    pub fn try_unpack(
        &self,
        format: u32,
        packed: &[u8],
        packed_pitch: usize,
        depth: &mut [u8],
        stencil: &mut [u8],
    ) -> Result<(), Refused> {
        let reply = ffi::unpack(depth, stencil, packed, packed_pitch, format, self);
        accepted(reply, || {
            self.pack_call(format, packed, packed_pitch, depth, stencil)
        })
    }

    /// Packs the two planes into `packed`; false if refused, and `packed` is then as it was.
    ///
    /// A depth is clamped to 0..1, NaN counts as 0, and the nearest code is taken, ties to even. Row
    /// padding is kept. [`try_pack`](Self::try_pack) says why it refuses.
    ///
    /// ```
    /// use wentuqis::depth_texture::{PackedDepth, PlaneLayout};
    ///
    /// let layout = PlaneLayout::new(1, 1, 4).unwrap();
    /// let mut packed = [0; 2];
    /// assert!(layout.pack(&PackedDepth::D16, &0.5_f32.to_le_bytes(), &[], &mut packed, 2));
    /// assert_eq!(u16::from_le_bytes(packed), 32768);
    /// ```
    pub fn pack(
        &self,
        format: &PackedDepth,
        depth: &[u8],
        stencil: &[u8],
        packed: &mut [u8],
        packed_pitch: usize,
    ) -> bool {
        ffi::pack(packed, packed_pitch, depth, stencil, format.code(), self) == 0
    }

    /// [`pack`](Self::pack) for a format code, with the reason if it refuses.
    ///
    /// # Errors
    /// Those of [`try_unpack`](Self::try_unpack); `packed` is then as it was.
    ///
    /// ```
    /// use wentuqis::depth_texture::PlaneLayout;
    /// use wentuqis::format::{D3DFMT_D24S8, D3DFMT_D24X8};
    ///
    /// let layout = PlaneLayout::try_new(1, 1, 4)?;
    /// let depth = 0.5_f32.to_le_bytes();
    /// let mut packed = [9; 4];
    /// let refused = layout.try_pack(D3DFMT_D24S8, &depth, &[], &mut packed, 4).unwrap_err();
    /// assert_eq!((refused.number(), packed), (13, [9; 4]));
    ///
    /// layout.try_pack(D3DFMT_D24X8, &depth, &[], &mut packed, 4)?;
    /// assert_eq!(packed, [0x00, 0x00, 0x80, 0]);
    /// # Ok::<(), wentuqis::Refused>(())
    /// ```
    pub fn try_pack(
        &self,
        format: u32,
        depth: &[u8],
        stencil: &[u8],
        packed: &mut [u8],
        packed_pitch: usize,
    ) -> Result<(), Refused> {
        let reply = ffi::pack(packed, packed_pitch, depth, stencil, format, self);
        accepted(reply, || {
            self.pack_call(format, packed, packed_pitch, depth, stencil)
        })
    }

    fn pack_call(
        &self,
        format: u32,
        packed: &[u8],
        packed_pitch: usize,
        depth: &[u8],
        stencil: &[u8],
    ) -> Call {
        Call::Pack(PackCall {
            format,
            layout: *self,
            packed_len: packed.len(),
            packed_pitch,
            depth_len: depth.len(),
            stencil_len: stencil.len(),
        })
    }
}

/// The arguments of a refused plane layout.
#[derive(Clone, Copy, Debug, PartialEq, Eq, Hash)]
pub(crate) struct PlanesCall {
    width: u32,
    height: u32,
    alignment: u32,
}

impl PlanesCall {
    /// Writes what to mend.
    pub(crate) fn explain(&self, refusal: Refusal, f: &mut fmt::Formatter<'_>) -> fmt::Result {
        match refusal {
            Refusal::ZeroSize => sizes_from_one(self.width as usize, self.height as usize, f),
            Refusal::NoPowerOfTwo => self.explain_alignment(f),
            _ => {
                let alignment = u64::from(self.alignment.max(4));
                let pitch = (4 * u64::from(self.width)).next_multiple_of(alignment);
                over_64_bits("depth", pitch as usize, self.height as usize, f)
            }
        }
    }

    fn explain_alignment(&self, f: &mut fmt::Formatter<'_>) -> fmt::Result {
        let below = 1_u32 << self.alignment.max(4).ilog2();
        write!(f, "the alignment is {}; ", self.alignment)?;
        match below.checked_mul(2) {
            Some(above) => write!(f, "{below} and {above} are powers of two"),
            None => write!(f, "{below} is the largest power of two"),
        }
    }
}

/// The arguments of a refused unpack or pack.
#[derive(Clone, Copy, Debug, PartialEq, Eq, Hash)]
pub(crate) struct PackCall {
    format: u32,
    layout: PlaneLayout,
    packed_len: usize,
    packed_pitch: usize,
    depth_len: usize,
    stencil_len: usize,
}

impl PackCall {
    /// Writes what to mend.
    pub(crate) fn explain(&self, refusal: Refusal, f: &mut fmt::Formatter<'_>) -> fmt::Result {
        let PlaneLayout {
            height,
            depth_pitch,
            stencil_pitch,
            ..
        } = self.layout;
        match refusal {
            Refusal::NotPackedDepth => {
                write!(
                    f,
                    "{} has no depth planes; use D16, D24X8 or D24S8",
                    Named(self.format)
                )
            }
            Refusal::BadLayout => self.explain_layout(f),
            Refusal::ShortPacked => self.explain_packed(f),
            Refusal::ShortDepth => short(
                "depth plane",
                self.depth_len,
                height,
                depth_pitch,
                depth_pitch,
                f,
            ),
            _ => short(
                "stencil plane",
                self.stencil_len,
                height,
                stencil_pitch,
                stencil_pitch,
                f,
            ),
        }
    }

    fn explain_layout(&self, f: &mut fmt::Formatter<'_>) -> fmt::Result {
        let PlaneLayout {
            width,
            height,
            depth_pitch,
            stencil_pitch,
        } = self.layout;
        let row = 4 * width as u128;
        if width == 0 || height == 0 {
            sizes_from_one(width, height, f)
        } else if (depth_pitch as u128) < row {
            write!(f, "the depth pitch {depth_pitch} is below 4 x width, {row}")
        } else if stencil_pitch < width {
            write!(
                f,
                "the stencil pitch {stencil_pitch} is below the width, {width}"
            )
        } else if depth_pitch.checked_mul(height).is_none() {
            over_64_bits("depth", depth_pitch, height, f)
        } else {
            over_64_bits("stencil", stencil_pitch, height, f)
        }
    }

    fn explain_packed(&self, f: &mut fmt::Formatter<'_>) -> fmt::Result {
        let PlaneLayout { width, height, .. } = self.layout;
        let bytes = PackedDepth::from_d3d(self.format).map_or(4, |format| format.bytes_per_pixel());
        let (row, pitch) = (width * bytes, self.packed_pitch);
        if pitch < row {
            write!(
                f,
                "the packed pitch {pitch} is below a row of {width} pixels, {row} bytes"
            )
        } else {
            short("packed buffer", self.packed_len, height, pitch, row, f)
        }
    }
}

/// Says that a buffer is too short for its rows, the last of which needs `row` bytes.
fn short(
    what: &str,
    len: usize,
    height: usize,
    pitch: usize,
    row: usize,
    f: &mut fmt::Formatter<'_>,
) -> fmt::Result {
    let needed = (height.max(1) as u128 - 1) * pitch as u128 + row as u128;
    let (rows, need) = if height == 1 {
        ("row", "needs")
    } else {
        ("rows", "need")
    };
    write!(
        f,
        "the {what} has {len} bytes, {height} {rows} at pitch {pitch} {need} {needed}"
    )
}

fn sizes_from_one(width: usize, height: usize, f: &mut fmt::Formatter<'_>) -> fmt::Result {
    write!(
        f,
        "the planes would be {width} x {height}; both sizes are at least 1"
    )
}

fn over_64_bits(
    plane: &str,
    pitch: usize,
    height: usize,
    f: &mut fmt::Formatter<'_>,
) -> fmt::Result {
    let bytes = pitch as u128 * height as u128;
    write!(
        f,
        "the {plane} plane would have {height} rows of {pitch} bytes, {bytes} in all; \
         at this pitch the height is at most {}",
        usize::MAX / pitch
    )
}
