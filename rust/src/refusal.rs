//! Why a call was refused: the reason as an enum, and an error whose text says what to mend.

use core::{error, fmt};

use crate::convert::FillCall;
use crate::depth_texture::{PackCall, PlanesCall};
use crate::pixel_convert::{ConvertCall, SetCall};
use crate::planar_yuv::PlanarCall;

/// The reason of a refusal. Later versions may add cases.
///
/// Where several apply to a call, the one with the lowest number is given, but that
/// [`IllegalSet`](Self::IllegalSet), 15, comes between 2 and 3. Its `Display` is the short name with
/// which every [`Refused`] begins.
///
/// ```
/// use wentuqis::Refusal;
///
/// assert_eq!(Refusal::SourceOutside.number(), 3);
/// assert_eq!(Refusal::from_number(3), Some(Refusal::SourceOutside));
/// assert_eq!(Refusal::SourceOutside.to_string(), "source outside");
/// ```
#[derive(Clone, Copy, Debug, PartialEq, Eq, Hash)]
#[non_exhaustive]
#[repr(u32)]
pub enum Refusal {
    /// Conversion: `can_convert` is false for the two formats.
    UnsupportedPair = 1,
    /// Conversion: a planar source with a depth other than 1, a source pitch of 0 or below, or a
    /// source slice pitch that is no multiple of it.
    PlanarShape = 2,
    /// Conversion: a texel needs a byte outside the source, past its end or below byte 0, lies outside
    /// its planar layout, or has a column or row above 4294967295; or no planar layout exists.
    SourceOutside = 3,
    /// Conversion: a texel needs a byte outside the destination, past its end or below byte 0, or has
    /// a column or row above 4294967295.
    DestinationOutside = 4,
    /// Fill: the format has none.
    NoFill = 5,
    /// Plane layout: width or height is 0.
    ZeroSize = 6,
    /// Plane layout: the alignment, raised to at least 4, is no power of two.
    NoPowerOfTwo = 7,
    /// Plane layout: pitch times height of a plane exceeds 64 bits.
    Over64Bits = 8,
    /// Unpack and pack: the format is neither D16, D24X8 nor D24S8.
    NotPackedDepth = 9,
    /// Unpack and pack: a layout with a zero size, a depth pitch below 4 × width, a stencil pitch
    /// below the width, or a plane over 64 bits.
    BadLayout = 10,
    /// Unpack and pack: the packed pitch is below a row, or the packed buffer is too short.
    ShortPacked = 11,
    /// Unpack and pack: the depth plane is shorter than depth pitch × height.
    ShortDepth = 12,
    /// Unpack and pack, D24S8 only: the stencil plane is shorter than stencil pitch × height.
    ShortStencil = 13,
    /// Planar layout: the format is neither YV12 nor NV12, or no layout has these sizes.
    NoPlanarLayout = 14,
    /// Conversion by a set, YUV source only: a gain above 262143, a luma offset above 4194303, or a
    /// chroma centre other than 255 and 256.
    IllegalSet = 15,
}

impl Refusal {
    /// Every case, in the order of the numbers from 1.
    const ALL: [Self; 15] = [
        Self::UnsupportedPair,
        Self::PlanarShape,
        Self::SourceOutside,
        Self::DestinationOutside,
        Self::NoFill,
        Self::ZeroSize,
        Self::NoPowerOfTwo,
        Self::Over64Bits,
        Self::NotPackedDepth,
        Self::BadLayout,
        Self::ShortPacked,
        Self::ShortDepth,
        Self::ShortStencil,
        Self::NoPlanarLayout,
        Self::IllegalSet,
    ];

    /// The number that the library replies with, 1 to 15.
    ///
    /// ```
    /// assert_eq!(wentuqis::Refusal::NoPlanarLayout.number(), 14);
    /// ```
    #[must_use]
    pub const fn number(self) -> u32 {
        self as u32
    }

    /// The refusal with this number; `None` for 0, which is "accepted", and for numbers above 15.
    ///
    /// ```
    /// use wentuqis::Refusal;
    ///
    /// assert_eq!(Refusal::from_number(1), Some(Refusal::UnsupportedPair));
    /// assert_eq!(Refusal::from_number(0), None);
    /// assert_eq!(Refusal::from_number(16), None);
    /// ```
    #[must_use]
    pub fn from_number(number: u32) -> Option<Self> {
        Self::ALL
            .into_iter()
            .find(|refusal| refusal.number() == number)
    }
}

/// The refusal with a number that the library replied with, as [`Refusal::from_number`].
///
/// ```
/// use wentuqis::{Refusal, UnknownRefusal};
///
/// assert_eq!(Refusal::try_from(3), Ok(Refusal::SourceOutside));
/// assert_eq!(Refusal::try_from(0), Err(UnknownRefusal(0)));
/// assert_eq!(UnknownRefusal(16).to_string(), "16 is the number of no refusal");
/// ```
impl TryFrom<u32> for Refusal {
    type Error = UnknownRefusal;

    fn try_from(number: u32) -> Result<Self, UnknownRefusal> {
        Self::from_number(number).ok_or(UnknownRefusal(number))
    }
}

/// A number that is no refusal's: 0, which is "accepted", or one above 15.
#[derive(Clone, Copy, Debug, PartialEq, Eq, Hash)]
pub struct UnknownRefusal(pub u32);

impl fmt::Display for UnknownRefusal {
    fn fmt(&self, f: &mut fmt::Formatter<'_>) -> fmt::Result {
        write!(f, "{} is the number of no refusal", self.0)
    }
}

impl error::Error for UnknownRefusal {}

impl fmt::Display for Refusal {
    fn fmt(&self, f: &mut fmt::Formatter<'_>) -> fmt::Result {
        f.write_str(match self {
            Self::UnsupportedPair => "unsupported pair",
            Self::PlanarShape => "planar shape",
            Self::SourceOutside => "source outside",
            Self::DestinationOutside => "destination outside",
            Self::NoFill => "no fill",
            Self::ZeroSize => "zero size",
            Self::NoPowerOfTwo => "no power of two",
            Self::Over64Bits => "over 64 bits",
            Self::NotPackedDepth => "not packed depth",
            Self::BadLayout => "bad layout",
            Self::ShortPacked => "short packed rows",
            Self::ShortDepth => "short depth plane",
            Self::ShortStencil => "short stencil plane",
            Self::NoPlanarLayout => "no planar layout",
            Self::IllegalSet => "illegal set",
        })
    }
}

/// A refused call: the reason, and the arguments from which its text is made.
///
/// `Display` says what a person has to mend, with the lengths that were lent and those that are
/// needed. Nothing that was lent to the call has changed.
///
/// ```
/// use wentuqis::format::{D3DFMT_A8R8G8B8, D3DFMT_X8R8G8B8};
/// use wentuqis::pixel_convert::{ConvertRegion, try_convert_region};
/// use wentuqis::Refusal;
///
/// let region = ConvertRegion {
///     width: 64,
///     height: 48,
///     src_pitch: 256,
///     dst_pitch: 256,
///     depth: 1,
///     ..ConvertRegion::default()
/// };
/// let mut screen = vec![0; 12288];
/// let frame = vec![0; 12287];
/// let refused =
///     try_convert_region(&mut screen, D3DFMT_A8R8G8B8, &frame, D3DFMT_X8R8G8B8, &region).unwrap_err();
/// assert_eq!(refused.refusal, Refusal::SourceOutside);
/// assert_eq!(
///     refused.to_string(),
///     "source outside: the frame has 12287 bytes, the region needs 12288; \
///      the first texel outside is column 63, row 47"
/// );
/// ```
#[derive(Clone, Copy, Debug, PartialEq, Eq, Hash)]
pub struct Refused {
    /// The reason.
    pub refusal: Refusal,
    call: Call,
}

/// The call that was refused, without its buffers.
#[derive(Clone, Copy, Debug, PartialEq, Eq, Hash)]
pub(crate) enum Call {
    Convert(ConvertCall),
    Set(SetCall),
    Fill(FillCall),
    Planes(PlanesCall),
    Pack(PackCall),
    Planar(PlanarCall),
}

impl Refused {
    /// The number that the library replied with, 1 to 15.
    ///
    /// ```
    /// let refused = wentuqis::depth_texture::PlaneLayout::try_new(640, 0, 4).unwrap_err();
    /// assert_eq!(refused.number(), 6);
    /// ```
    #[must_use]
    pub const fn number(&self) -> u32 {
        self.refusal.number()
    }
}

impl fmt::Display for Refused {
    fn fmt(&self, f: &mut fmt::Formatter<'_>) -> fmt::Result {
        write!(f, "{}: ", self.refusal)?;
        match &self.call {
            Call::Convert(call) => call.explain(self.refusal, f),
            Call::Set(call) => call.explain(f),
            Call::Fill(call) => call.explain(f),
            Call::Planes(call) => call.explain(self.refusal, f),
            Call::Pack(call) => call.explain(self.refusal, f),
            Call::Planar(call) => call.explain(f),
        }
    }
}

impl error::Error for Refused {}

/// The library's reply as a result; `call` is what the text of a refusal is made from.
///
/// # Panics
/// Panics on a number above 15, which only an archive of another version replies.
pub(crate) fn accepted(reply: u32, call: impl FnOnce() -> Call) -> Result<(), Refused> {
    if reply == 0 {
        return Ok(());
    }
    let refusal = Refusal::from_number(reply)
        .unwrap_or_else(|| panic!("libwentuqis.a replied {reply}, which this crate does not know"));
    Err(Refused {
        refusal,
        call: call(),
    })
}
