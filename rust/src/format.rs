//! `D3DFORMAT` codes, named as in Direct3D 9.
//!
//! A name lists its lanes from the top bit down, but for D24X8; texels are little-endian. Any other
//! number is a legal argument of every call, and is refused where a format is needed.
//!
//! ```
//! use wentuqis::format::{D3DFMT_A8R8G8B8, D3DFMT_YUY2};
//!
//! assert_eq!(D3DFMT_A8R8G8B8, 21);
//! assert_eq!(D3DFMT_YUY2.to_le_bytes(), *b"YUY2");
//! ```

use alloc::borrow::ToOwned;
use alloc::format;
use alloc::string::String;
use alloc::vec::Vec;
use core::fmt;

/// Declares each code as a constant and lists all of them with their names.
macro_rules! codes {
    ($($(#[$doc:meta])* $constant:ident $name:literal $code:expr;)*) => {
        $($(#[$doc])* pub const $constant: u32 = $code;)*

        /// Every code of this module with its name.
        const CODES: &[(u32, &str)] = &[$(($constant, $name)),*];
    };
}

codes! {
    /// 24 bits: blue, green, red.
    D3DFMT_R8G8B8 "R8G8B8" 20;
    /// 32 bits: blue, green, red, alpha.
    D3DFMT_A8R8G8B8 "A8R8G8B8" 21;
    /// 32 bits: blue, green, red, X.
    D3DFMT_X8R8G8B8 "X8R8G8B8" 22;
    /// 16 bits: 5 red, 6 green, 5 blue.
    D3DFMT_R5G6B5 "R5G6B5" 23;
    /// 16 bits: X, 5 red, 5 green, 5 blue.
    D3DFMT_X1R5G5B5 "X1R5G5B5" 24;
    /// 16 bits: 1 alpha, 5 red, 5 green, 5 blue.
    D3DFMT_A1R5G5B5 "A1R5G5B5" 25;
    /// 16 bits: 4 alpha, 4 red, 4 green, 4 blue.
    D3DFMT_A4R4G4B4 "A4R4G4B4" 26;
    /// 8 bits of alpha.
    D3DFMT_A8 "A8" 28;
    /// 32 bits: 2 alpha, 10 blue, 10 green, 10 red.
    D3DFMT_A2B10G10R10 "A2B10G10R10" 31;
    /// 32 bits: red, green, blue, alpha.
    D3DFMT_A8B8G8R8 "A8B8G8R8" 32;
    /// 32 bits: red, green, blue, X.
    D3DFMT_X8B8G8R8 "X8B8G8R8" 33;
    /// 32 bits: 16 red, 16 green.
    D3DFMT_G16R16 "G16R16" 34;
    /// 32 bits: 2 alpha, 10 red, 10 green, 10 blue.
    D3DFMT_A2R10G10B10 "A2R10G10B10" 35;
    /// 64 bits: red, green, blue, alpha of 16 each.
    D3DFMT_A16B16G16R16 "A16B16G16R16" 36;
    /// 8 bits of luminance.
    D3DFMT_L8 "L8" 50;
    /// 16 bits: luminance, alpha.
    D3DFMT_A8L8 "A8L8" 51;
    /// 16 bits: signed U, V.
    D3DFMT_V8U8 "V8U8" 60;
    /// 32 bits: signed U, V, W, Q.
    D3DFMT_Q8W8V8U8 "Q8W8V8U8" 63;
    /// 32 bits: signed U, V of 16 each.
    D3DFMT_V16U16 "V16U16" 64;
    /// 32 bits: the stencil byte, then a 24-bit depth code.
    D3DFMT_D24S8 "D24S8" 75;
    /// 32 bits: a 24-bit depth code, then X, against its name.
    D3DFMT_D24X8 "D24X8" 77;
    /// A 16-bit depth code.
    D3DFMT_D16 "D16" 80;
    /// 16 bits of luminance.
    D3DFMT_L16 "L16" 81;
    /// 64 bits: signed U, V, W, Q of 16 each.
    D3DFMT_Q16W16V16U16 "Q16W16V16U16" 110;
    /// Red as binary16.
    D3DFMT_R16F "R16F" 111;
    /// Red, green as binary16.
    D3DFMT_G16R16F "G16R16F" 112;
    /// Red, green, blue, alpha as binary16.
    D3DFMT_A16B16G16R16F "A16B16G16R16F" 113;
    /// Red as binary32.
    D3DFMT_R32F "R32F" 114;
    /// Red, green as binary32.
    D3DFMT_G32R32F "G32R32F" 115;
    /// Red, green, blue, alpha as binary32.
    D3DFMT_A32B32G32R32F "A32B32G32R32F" 116;
    /// Packed 4:2:2 YUV: Y U Y V for two texels.
    D3DFMT_YUY2 "YUY2" u32::from_le_bytes(*b"YUY2");
    /// Packed 4:2:2 YUV: U Y V Y for two texels.
    D3DFMT_UYVY "UYVY" u32::from_le_bytes(*b"UYVY");
    /// Planar 4:2:0 YUV: luma rows, a V plane, a U plane.
    D3DFMT_YV12 "YV12" u32::from_le_bytes(*b"YV12");
    /// Planar 4:2:0 YUV: luma rows, one plane of U and V in pairs.
    D3DFMT_NV12 "NV12" u32::from_le_bytes(*b"NV12");
}

/// Shows a code by its name; a code without one by its four letters, or as a number.
pub(crate) struct Named(pub(crate) u32);

impl Named {
    /// The code as four ASCII letters, digits or trailing spaces, the lowest byte first.
    fn letters(&self) -> Option<String> {
        let bytes = self.0.to_le_bytes();
        let used = bytes.trim_ascii_end();
        let are_letters = !used.is_empty() && used.iter().all(u8::is_ascii_alphanumeric);
        let text = || bytes.iter().copied().map(char::from).collect();
        (are_letters && bytes[used.len()..].iter().all(|byte| *byte == b' ')).then(text)
    }
}

impl fmt::Display for Named {
    fn fmt(&self, f: &mut fmt::Formatter<'_>) -> fmt::Result {
        if let Some((_, name)) = CODES.iter().find(|(code, _)| *code == self.0) {
            return f.write_str(name);
        }
        match self.letters() {
            Some(letters) => write!(f, "format '{letters}'"),
            None => write!(f, "format {}", self.0),
        }
    }
}

/// The names of the codes that satisfy a test, as "A, B and C".
pub(crate) fn names_where(test: impl Fn(u32) -> bool) -> String {
    let chosen: Vec<&str> = CODES
        .iter()
        .filter(|(code, _)| test(*code))
        .map(|(_, name)| *name)
        .collect();
    match chosen.as_slice() {
        [] => "none".to_owned(),
        [only] => (*only).to_owned(),
        [first @ .., last] => format!("{} and {last}", first.join(", ")),
    }
}

/// Whether `code` is one of the two packed 4:2:2 formats.
pub(crate) const fn is_packed_yuv(code: u32) -> bool {
    matches!(code, D3DFMT_YUY2 | D3DFMT_UYVY)
}

/// Whether `code` is one of the two planar 4:2:0 formats.
pub(crate) const fn is_planar_yuv(code: u32) -> bool {
    matches!(code, D3DFMT_YV12 | D3DFMT_NV12)
}

/// Bytes of a texel of a format that takes part in conversions and is not YUV.
pub(crate) const fn bytes_per_texel(code: u32) -> u64 {
    match code {
        D3DFMT_L8 | D3DFMT_A8 => 1,
        D3DFMT_R5G6B5 | D3DFMT_X1R5G5B5 | D3DFMT_A1R5G5B5 | D3DFMT_A4R4G4B4 | D3DFMT_A8L8
        | D3DFMT_V8U8 | D3DFMT_L16 => 2,
        D3DFMT_R8G8B8 => 3,
        D3DFMT_A16B16G16R16 => 8,
        D3DFMT_A32B32G32R32F => 16,
        _ => 4,
    }
}
