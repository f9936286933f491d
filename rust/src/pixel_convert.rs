//! Conversion of one region of texels between two uncompressed colour formats.
//!
//! Sources are the twelve RGB formats whose channels have at most eight bits, packed YUV (YUY2,
//! UYVY), planar YUV (YV12, NV12), and, into A8R8G8B8 only, A16B16G16R16, A32B32G32R32F,
//! A2R10G10B10, A2B10G10R10, G16R16, L16, V8U8 and Q8W8V8U8. Destinations are the twelve RGB
//! formats. A conversion is accepted or refused as a whole: refused, it leaves every byte of the
//! destination.
//!
//! The last six sources are refused by the original. Their unsigned codes go to the nearest byte. Of
//! the signed U, V, W, Q, which are red, green, blue and alpha, a code at or below 0 gives 0, and a
//! positive n the nearest byte to 255n/127. L16 fills red, green and blue. A channel that the format
//! lacks is 255.
//!
//! YUV is converted by a set of numbers. The original has one, [`YuvSet::BT601`], which
//! [`convert_region`] keeps; [`convert`] and [`convert_region_with_set`] take any, as
//! [`YuvSet::BT709`].
//!
//! A [`Region`] says by [`Side`] from which byte on a picture lies and how far its rows are apart; with
//! a negative pitch it is stored bottom row first, as screen grabs are. The original's
//! [`ConvertRegion`] has neither.
//!
//! A conversion takes time that grows with width × height × depth, whatever the lengths of the
//! buffers: with a pitch of 0 a region of any height fits into one row. Nothing is converted in
//! place: source and destination are two slices.

use core::fmt;

use crate::ffi;
use crate::format::{
    D3DFMT_A8R8G8B8, D3DFMT_YV12, Named, bytes_per_texel, is_packed_yuv, is_planar_yuv, names_where,
};
use crate::planar_yuv::{PlanarYuvLayout, missing_layout, planar_yuv_layout_from_pitch};
use crate::refusal::{Call, Refusal, Refused, accepted};

pub use crate::shapes::{ConvertRegion, Region, Side, YuvSet};

/// Whether a conversion, by whatever set, takes this source format into this destination format.
///
/// Never refuses. Unlike the original it is no `const fn`.
///
/// ```
/// use wentuqis::format::*;
/// use wentuqis::pixel_convert::can_convert;
///
/// assert!(can_convert(D3DFMT_NV12, D3DFMT_R5G6B5));
/// assert!(can_convert(D3DFMT_A16B16G16R16, D3DFMT_A8R8G8B8));
/// assert!(!can_convert(D3DFMT_A16B16G16R16, D3DFMT_R5G6B5));
/// assert!(can_convert(D3DFMT_V8U8, D3DFMT_A8R8G8B8));
/// ```
#[must_use]
pub fn can_convert(src_format: u32, dst_format: u32) -> bool {
    ffi::wentuqis_can_convert(src_format, dst_format)
}

/// Whether `UpdateSurface` and `UpdateTexture` convert this pair: no planar source, and none that
/// converts into A8R8G8B8 only.
///
/// Never refuses. Unlike the original it is no `const fn`.
///
/// ```
/// use wentuqis::format::*;
/// use wentuqis::pixel_convert::can_convert_update;
///
/// assert!(can_convert_update(D3DFMT_YUY2, D3DFMT_A8R8G8B8));
/// assert!(!can_convert_update(D3DFMT_NV12, D3DFMT_A8R8G8B8));
/// assert!(!can_convert_update(D3DFMT_V8U8, D3DFMT_A8R8G8B8));
/// ```
#[must_use]
pub fn can_convert_update(src_format: u32, dst_format: u32) -> bool {
    ffi::wentuqis_can_convert_update(src_format, dst_format)
}

/// Converts `region` of `src` into `dst`; false if refused, and `dst` is then as it was.
///
/// `src` and `dst` are whole levels, addressed through the region's pitches. Texels go by slice, row
/// and column; where destination texels overlap, the last stands. X is written as ones. A packed YUV
/// texel needs its whole macropixel of four bytes. A region with width, height or depth 0 is accepted
/// and writes nothing, if the formats convert and a planar source has its shape. YUV goes by
/// [`YuvSet::BT601`]. [`try_convert_region`] says why it refuses.
///
/// ```
/// use wentuqis::format::{D3DFMT_A8R8G8B8, D3DFMT_R5G6B5};
/// use wentuqis::pixel_convert::{ConvertRegion, convert_region};
///
/// let region = ConvertRegion {
///     width: 1,
///     height: 1,
///     src_pitch: 2,
///     dst_pitch: 4,
///     depth: 1,
///     ..ConvertRegion::default()
/// };
/// let mut texel = [0; 4];
/// assert!(convert_region(&mut texel, D3DFMT_A8R8G8B8, &[0x00, 0xf8], D3DFMT_R5G6B5, &region));
/// assert_eq!(texel, [0x00, 0x00, 0xff, 0xff]);
/// ```
#[must_use]
pub fn convert_region(
    dst: &mut [u8],
    dst_format: u32,
    src: &[u8],
    src_format: u32,
    region: &ConvertRegion,
) -> bool {
    let region = Region::from(*region);
    ffi::convert_region(dst, dst_format, src, src_format, &region) == 0
}

/// [`convert_region`], with the reason if it refuses.
///
/// # Errors
/// [`Refusal::UnsupportedPair`], [`Refusal::PlanarShape`], [`Refusal::SourceOutside`] and
/// [`Refusal::DestinationOutside`]; of several the first. `dst` is then as it was.
///
/// ```
/// use wentuqis::Refusal;
/// use wentuqis::format::{D3DFMT_A8R8G8B8, D3DFMT_YUY2};
/// use wentuqis::pixel_convert::{ConvertRegion, try_convert_region};
///
/// let region = ConvertRegion {
///     width: 1,
///     height: 1,
///     src_pitch: 4,
///     dst_pitch: 4,
///     depth: 1,
///     ..ConvertRegion::default()
/// };
/// let mut texel = [9; 4];
/// let short = [16, 128, 16];
/// let refused =
///     try_convert_region(&mut texel, D3DFMT_A8R8G8B8, &short, D3DFMT_YUY2, &region).unwrap_err();
/// assert_eq!(refused.refusal, Refusal::SourceOutside);
/// assert_eq!(texel, [9; 4]);
///
/// let whole = [16, 128, 16, 128];
/// try_convert_region(&mut texel, D3DFMT_A8R8G8B8, &whole, D3DFMT_YUY2, &region)?;
/// assert_eq!(texel, [1, 0, 1, 255]);
/// # Ok::<(), wentuqis::Refused>(())
/// ```
pub fn try_convert_region(
    dst: &mut [u8],
    dst_format: u32,
    src: &[u8],
    src_format: u32,
    region: &ConvertRegion,
) -> Result<(), Refused> {
    let sides = Region::from(*region);
    let reply = ffi::convert_region(dst, dst_format, src, src_format, &sides);
    accepted(reply, || {
        let given = Given::flat(*region);
        Call::Convert(ConvertCall::new(dst, dst_format, src, src_format, given))
    })
}

/// [`convert_region`] with YUV by these numbers; false if refused, and `dst` is then as it was.
///
/// With a source that is not YUV the numbers are not looked at, and may be any. With a YUV source a
/// number outside its range is refused, in an empty region too. By [`YuvSet::BT601`] it is
/// [`convert_region`] itself. [`try_convert_region_with_set`] says why it refuses. The original has
/// no such call.
///
/// ```
/// use wentuqis::format::{D3DFMT_A8R8G8B8, D3DFMT_YUY2};
/// use wentuqis::pixel_convert::{ConvertRegion, YuvSet, convert_region_with_set};
///
/// // Two texels of a high-definition camera, black and white.
/// let (frame, format) = ([16, 128, 235, 128], D3DFMT_YUY2);
/// let region = ConvertRegion {
///     width: 2,
///     height: 1,
///     src_pitch: 4,
///     dst_pitch: 8,
///     depth: 1,
///     ..ConvertRegion::default()
/// };
/// let mut screen = [9; 8];
/// let numbers = YuvSet::BT709;
/// assert!(convert_region_with_set(&mut screen, D3DFMT_A8R8G8B8, &frame, format, &region, &numbers));
/// assert_eq!(screen, [0, 0, 0, 255, 255, 255, 255, 255]);
/// ```
#[must_use]
pub fn convert_region_with_set(
    dst: &mut [u8],
    dst_format: u32,
    src: &[u8],
    src_format: u32,
    region: &ConvertRegion,
    numbers: &YuvSet,
) -> bool {
    let region = Region::from(*region);
    ffi::convert_region_with_set(dst, dst_format, src, src_format, &region, numbers) == 0
}

/// [`convert_region_with_set`], with the reason if it refuses.
///
/// # Errors
/// [`Refusal::UnsupportedPair`], [`Refusal::PlanarShape`], [`Refusal::IllegalSet`],
/// [`Refusal::SourceOutside`] and [`Refusal::DestinationOutside`]; of several the first, in this
/// order. `dst` is then as it was.
///
/// ```
/// use wentuqis::Refusal;
/// use wentuqis::format::{D3DFMT_A8R8G8B8, D3DFMT_YUY2};
/// use wentuqis::pixel_convert::{ConvertRegion, YuvSet, try_convert_region_with_set};
///
/// let (frame, format) = ([120, 100, 120, 150], D3DFMT_YUY2);
/// let region = ConvertRegion {
///     width: 1,
///     height: 1,
///     src_pitch: 4,
///     dst_pitch: 4,
///     depth: 1,
///     ..ConvertRegion::default()
/// };
/// let mut texel = [9; 4];
/// let steep = YuvSet {
///     v_to_red: 4 * 65536,
///     ..YuvSet::BT709
/// };
/// let refused =
///     try_convert_region_with_set(&mut texel, D3DFMT_A8R8G8B8, &frame, format, &region, &steep)
///         .unwrap_err();
/// assert_eq!(refused.refusal, Refusal::IllegalSet);
/// assert_eq!(
///     refused.to_string(),
///     "illegal set: the set's v_to_red is 262144, and a gain is at most 262143 (65536ths)"
/// );
/// assert_eq!(texel, [9; 4]);
///
/// let numbers = YuvSet::BT709;
/// try_convert_region_with_set(&mut texel, D3DFMT_A8R8G8B8, &frame, format, &region, &numbers)?;
/// assert_eq!(texel, [62, 115, 161, 255]);
/// # Ok::<(), wentuqis::Refused>(())
/// ```
pub fn try_convert_region_with_set(
    dst: &mut [u8],
    dst_format: u32,
    src: &[u8],
    src_format: u32,
    region: &ConvertRegion,
    numbers: &YuvSet,
) -> Result<(), Refused> {
    let sides = Region::from(*region);
    let reply = ffi::convert_region_with_set(dst, dst_format, src, src_format, &sides, numbers);
    accepted(reply, || {
        let given = Given::flat(*region);
        let call = ConvertCall::new(dst, dst_format, src, src_format, given);
        with_set(call, reply, numbers)
    })
}

/// Converts `region` of `src` into `dst`, YUV by the numbers of `set`.
///
/// The same conversion as [`try_convert_region_with_set`], of a region that is described by its two
/// sides, which may start anywhere and be stored bottom row first. With a source that is not YUV the
/// set is not looked at. The original has no such call.
///
/// # Errors
/// [`Refusal::UnsupportedPair`], [`Refusal::PlanarShape`], [`Refusal::IllegalSet`],
/// [`Refusal::SourceOutside`] and [`Refusal::DestinationOutside`]; of several the first, in this
/// order. `dst` is then as it was.
///
/// ```
/// use wentuqis::format::{D3DFMT_A8R8G8B8, D3DFMT_NV12};
/// use wentuqis::pixel_convert::{Region, Side, YuvSet, convert};
///
/// // Four texels of a high-definition camera, two black over two white, without row padding.
/// let frame = [16, 16, 235, 235, 128, 128];
/// let region = Region {
///     source: Side { pitch: 2, slice_pitch: 2 * 2, ..Side::default() },
///     destination: Side { pitch: 8, ..Side::default() },
///     ..Region::new(2, 2)
/// };
/// let mut screen = [9; 16];
/// convert(&mut screen, D3DFMT_A8R8G8B8, &frame, D3DFMT_NV12, &region, &YuvSet::BT709)?;
/// assert_eq!(screen[..8], [0, 0, 0, 255, 0, 0, 0, 255]);
/// assert_eq!(screen[8..], [255; 8]);
///
/// let short = &frame[..5];
/// let refused = convert(&mut screen, D3DFMT_A8R8G8B8, short, D3DFMT_NV12, &region, &YuvSet::BT709);
/// assert_eq!(
///     refused.unwrap_err().to_string(),
///     "source outside: the frame has 5 bytes, the region needs 6; \
///      the first texel outside is column 0, row 0"
/// );
/// # Ok::<(), wentuqis::Refused>(())
/// ```
pub fn convert(
    dst: &mut [u8],
    dst_format: u32,
    src: &[u8],
    src_format: u32,
    region: &Region,
    set: &YuvSet,
) -> Result<(), Refused> {
    let reply = ffi::convert_region_with_set(dst, dst_format, src, src_format, region, set);
    accepted(reply, || {
        let given = Given::BySides(*region);
        let call = ConvertCall::new(dst, dst_format, src, src_format, given);
        with_set(call, reply, set)
    })
}

/// What the text of a refusal by a set is made from.
fn with_set(call: ConvertCall, reply: u32, set: &YuvSet) -> Call {
    if reply == Refusal::IllegalSet.number() {
        Call::Set(SetCall { numbers: *set })
    } else {
        Call::Convert(call)
    }
}

impl YuvSet {
    /// The set [`BT601`](Self::BT601) as the library hands it back, where each number is proved to be
    /// the nearest to its decimal.
    ///
    /// ```
    /// use wentuqis::pixel_convert::YuvSet;
    ///
    /// assert_eq!(YuvSet::bt601(), YuvSet::BT601);
    /// ```
    #[must_use]
    pub fn bt601() -> Self {
        handed_back(|set| ffi::wentuqis_bt601(set))
    }

    /// The set [`BT709`](Self::BT709) as the library hands it back, where each number is proved to be
    /// the nearest to its decimal.
    ///
    /// ```
    /// use wentuqis::pixel_convert::YuvSet;
    ///
    /// assert_eq!(YuvSet::bt709(), YuvSet::BT709);
    /// ```
    #[must_use]
    pub fn bt709() -> Self {
        handed_back(|set| ffi::wentuqis_bt709(set))
    }
}

/// The set that a call of the library puts into the one it is lent.
fn handed_back(call: impl FnOnce(&mut YuvSet)) -> YuvSet {
    let mut set = YuvSet {
        luma_gain: 0,
        luma_offset: 0,
        v_to_red: 0,
        u_to_green: 0,
        v_to_green: 0,
        u_to_blue: 0,
        chroma_centre: 0,
    };
    call(&mut set);
    set
}

/// The largest gain and the largest luma offset of a set, in 65536ths.
const MAX_GAIN: u32 = 262_143;
const MAX_LUMA_OFFSET: u32 = 4_194_303;

/// The set of a conversion that was refused for it.
#[derive(Clone, Copy, Debug, PartialEq, Eq, Hash)]
pub(crate) struct SetCall {
    numbers: YuvSet,
}

impl SetCall {
    /// Writes what to mend: the first number outside its range.
    pub(crate) fn explain(&self, f: &mut fmt::Formatter<'_>) -> fmt::Result {
        let YuvSet {
            luma_gain,
            luma_offset,
            v_to_red,
            u_to_green,
            v_to_green,
            u_to_blue,
            chroma_centre,
        } = self.numbers;
        let in_65536ths = [
            ("luma gain", luma_gain, "a gain", MAX_GAIN),
            ("luma offset", luma_offset, "it", MAX_LUMA_OFFSET),
            ("v_to_red", v_to_red, "a gain", MAX_GAIN),
            ("u_to_green", u_to_green, "a gain", MAX_GAIN),
            ("v_to_green", v_to_green, "a gain", MAX_GAIN),
            ("u_to_blue", u_to_blue, "a gain", MAX_GAIN),
        ];
        match in_65536ths
            .into_iter()
            .find(|(_, number, _, max)| number > max)
        {
            Some((name, number, what, max)) => write!(
                f,
                "the set's {name} is {number}, and {what} is at most {max} (65536ths)"
            ),
            None => write!(
                f,
                "the set's chroma centre is {chroma_centre}, and it is 255 or 256 (halves)"
            ),
        }
    }
}

/// A region as it was given.
#[derive(Clone, Copy, Debug, PartialEq, Eq, Hash)]
enum Given {
    BySides(Region),
    /// A flat one with a pitch that no side has.
    Flat(ConvertRegion),
}

impl Given {
    fn flat(flat: ConvertRegion) -> Self {
        if [flat.src_pitch, flat.dst_pitch]
            .into_iter()
            .all(|it| i64::try_from(it).is_ok())
        {
            Self::BySides(flat.into())
        } else {
            Self::Flat(flat)
        }
    }

    fn region(&self) -> Region {
        match *self {
            Self::BySides(region) => region,
            Self::Flat(flat) => flat.into(),
        }
    }

    fn src_pitch(&self) -> i128 {
        match *self {
            Self::BySides(region) => region.source.pitch.into(),
            Self::Flat(flat) => flat.src_pitch as i128,
        }
    }

    fn src_slice_pitch(&self) -> usize {
        match *self {
            Self::BySides(region) => region.source.slice_pitch,
            Self::Flat(flat) => flat.src_slice_pitch,
        }
    }

    fn dst_pitch(&self) -> i128 {
        match *self {
            Self::BySides(region) => region.destination.pitch.into(),
            Self::Flat(flat) => flat.dst_pitch as i128,
        }
    }
}

/// The arguments of a refused conversion.
#[derive(Clone, Copy, Debug, PartialEq, Eq, Hash)]
pub(crate) struct ConvertCall {
    dst_format: u32,
    dst_len: usize,
    src_format: u32,
    src_len: usize,
    region: Given,
}

impl ConvertCall {
    fn new(dst: &[u8], dst_format: u32, src: &[u8], src_format: u32, region: Given) -> Self {
        Self {
            dst_format,
            dst_len: dst.len(),
            src_format,
            src_len: src.len(),
            region,
        }
    }

    /// Writes what to mend.
    pub(crate) fn explain(&self, refusal: Refusal, f: &mut fmt::Formatter<'_>) -> fmt::Result {
        match refusal {
            Refusal::UnsupportedPair => self.explain_pair(f),
            Refusal::PlanarShape => self.explain_shape(f),
            Refusal::SourceOutside => self.explain_source(f),
            _ => self.destination().explain(f),
        }
    }

    fn explain_pair(&self, f: &mut fmt::Formatter<'_>) -> fmt::Result {
        let (src, dst) = (Named(self.src_format), Named(self.dst_format));
        if !can_convert(D3DFMT_A8R8G8B8, self.dst_format) {
            let all = names_where(|code| can_convert(D3DFMT_A8R8G8B8, code));
            write!(f, "nothing converts into {dst}; the destinations are {all}")
        } else if !can_convert(self.src_format, D3DFMT_A8R8G8B8) {
            let all = names_where(|code| can_convert(code, D3DFMT_A8R8G8B8));
            write!(f, "{src} converts into nothing; the sources are {all}")
        } else {
            let all = names_where(|code| can_convert(self.src_format, code));
            write!(f, "{src} does not convert into {dst}, only into {all}")
        }
    }

    fn explain_shape(&self, f: &mut fmt::Formatter<'_>) -> fmt::Result {
        let (pitch, slice_pitch) = (self.region.src_pitch(), self.region.src_slice_pitch());
        let (src, depth) = (Named(self.src_format), self.region.region().depth);
        if depth != 1 {
            write!(
                f,
                "a frame of {src} has one slice, and the region has depth {depth}; set it to 1"
            )
        } else if pitch < 0 {
            write!(
                f,
                "the source pitch is {pitch}, and a frame of {src} is not stored bottom row first; \
                 a negative destination pitch turns the picture over"
            )
        } else if pitch == 0 {
            f.write_str("the source pitch is 0; set it to the bytes from a luma row to the next")
        } else {
            let rows = slice_pitch as i128 / pitch + 1;
            let multiple = rows * pitch;
            write!(
                f,
                "the source slice pitch {slice_pitch} is no multiple of the source pitch {pitch}; \
                 {rows} luma rows have {multiple} bytes"
            )
        }
    }

    fn explain_source(&self, f: &mut fmt::Formatter<'_>) -> fmt::Result {
        if !is_planar_yuv(self.src_format) {
            let addressing = if is_packed_yuv(self.src_format) {
                Addressing::Macropixels
            } else {
                Addressing::Texels(bytes_per_texel(self.src_format))
            };
            return self.source(addressing).explain(f);
        }
        // a planar source has a pitch above 0, of at most 64 bits
        let pitch = self.region.src_pitch() as usize;
        let rows = self
            .region
            .src_slice_pitch()
            .checked_div(pitch)
            .unwrap_or(0);
        if rows == 0 {
            return self.explain_slice_pitch(f);
        }
        match planar_yuv_layout_from_pitch(self.src_format, pitch, rows) {
            Some(layout) => self.source(Addressing::Planes(layout)).explain(f)?,
            None => missing_layout(self.src_format, pitch, rows, f)?,
        }
        self.hint_at_chroma_rows(f)
    }

    /// Says which slice pitch a planar source needs that has 0, where one makes a frame of it.
    fn explain_slice_pitch(&self, f: &mut fmt::Formatter<'_>) -> fmt::Result {
        let pitch = self.region.src_pitch();
        let mut rows = self.region_end();
        if self.src_format == D3DFMT_YV12 {
            rows = rows.next_multiple_of(2);
        }
        if !self.has_layout(rows as usize) {
            return missing_layout(self.src_format, pitch as usize, 0, f);
        }
        let bytes = i128::from(rows) * pitch;
        write!(
            f,
            "the source slice pitch is 0; set it to pitch x luma rows, \
             {pitch} x {rows} = {bytes} at least"
        )
    }

    /// Says what the slice pitch of a planar source is where it is as long as the whole frame, as if
    /// it counted the chroma rows, and the luma rows alone make a frame.
    fn hint_at_chroma_rows(&self, f: &mut fmt::Formatter<'_>) -> fmt::Result {
        let (pitch, slice_pitch) = (
            self.region.src_pitch() as u128,
            self.region.src_slice_pitch() as u128,
        );
        if slice_pitch + u128::from(self.region.region().source.start) != self.src_len as u128 {
            return Ok(());
        }
        let all_rows = slice_pitch / pitch;
        let luma_rows = all_rows * 2 / 3;
        let chroma_rows = luma_rows.div_ceil(2);
        let bytes = luma_rows * pitch;
        if luma_rows + chroma_rows != all_rows
            || luma_rows < u128::from(self.region_end())
            || !self.has_layout(luma_rows as usize)
        {
            return Ok(());
        }
        write!(
            f,
            "; the slice pitch {slice_pitch} is that of the whole frame, and without the chroma rows \
             it is {pitch} x {luma_rows} = {bytes}"
        )
    }

    /// Whether a frame of the planar source has its pitch and so many luma rows.
    fn has_layout(&self, luma_rows: usize) -> bool {
        let pitch = self.region.src_pitch() as usize;
        planar_yuv_layout_from_pitch(self.src_format, pitch, luma_rows).is_some()
    }

    /// One past the last row of the source that the region has.
    fn region_end(&self) -> u64 {
        let region = self.region.region();
        u64::from(region.source.y) + u64::from(region.height)
    }

    fn source(&self, addressing: Addressing) -> Buffer {
        let region = self.region.region();
        Buffer {
            name: "frame",
            format: self.src_format,
            addressing,
            len: self.src_len,
            side: region.source,
            pitch: self.region.src_pitch(),
            region,
        }
    }

    fn destination(&self) -> Buffer {
        let region = self.region.region();
        Buffer {
            name: "destination",
            format: self.dst_format,
            addressing: Addressing::Texels(bytes_per_texel(self.dst_format)),
            len: self.dst_len,
            side: region.destination,
            pitch: self.region.dst_pitch(),
            region,
        }
    }
}

/// How the bytes of a texel are found.
enum Addressing {
    /// This many bytes for each column.
    Texels(u64),
    /// Four bytes for two columns, all of them needed by either.
    Macropixels,
    /// A luma byte and two chroma bytes, the latter behind the luma rows.
    Planes(PlanarYuvLayout),
}

/// Where a texel lies beside byte 0.
enum Place {
    /// It starts so many bytes below it.
    Below(u128),
    /// It ends so many bytes behind it.
    Ends(u128),
    /// It ends 2^128 bytes behind it, or more.
    Beyond,
}

/// The source or the destination of a refused conversion.
struct Buffer {
    name: &'static str,
    format: u32,
    addressing: Addressing,
    len: usize,
    side: Side,
    /// The side's as it was given.
    pitch: i128,
    region: Region,
}

impl Buffer {
    /// Says which texel lies outside, and how many bytes there are and are needed.
    fn explain(&self, f: &mut fmt::Formatter<'_>) -> fmt::Result {
        let (_, rows, columns) = self.extent();
        let (last_column, last_row) = (self.column(columns - 1), self.row(rows - 1));
        for (what, last) in [("column", last_column), ("row", last_row)] {
            if last > u64::from(u32::MAX) {
                return write!(
                    f,
                    "the region's last {what} is {last}, and none is above {}",
                    u32::MAX
                );
            }
        }
        if let Addressing::Planes(layout) = &self.addressing {
            let (columns, rows) = (u64::from(layout.pitch()), u64::from(layout.luma_rows()));
            if last_column >= columns || last_row >= rows {
                return write!(
                    f,
                    "the region's last texel is column {last_column}, row {last_row}, and the frame of {} \
                     has {columns} columns (its pitch) and {rows} rows (slice pitch / pitch)",
                    Named(self.format)
                );
            }
        }
        self.explain_length(f)
    }

    fn explain_length(&self, f: &mut fmt::Formatter<'_>) -> fmt::Result {
        let (slices, rows, columns) = self.extent();
        let (low, high) = self.low_and_high(rows);
        let (name, len) = (self.name, self.len);
        match (
            self.place(0, low, 0),
            self.place(slices - 1, high, columns - 1),
        ) {
            (Place::Below(bytes), _) => {
                let (start, pitch) = (u128::from(self.side.start), self.pitch);
                let least = start + bytes;
                write!(
                    f,
                    "the region's lowest texel starts {bytes} bytes below byte 0 of the {name}; with the \
                     pitch {pitch} the start must be at least {least}, and it is {start}"
                )?;
            }
            (_, Place::Ends(needed)) => {
                write!(f, "the {name} has {len} bytes, the region needs {needed}")?;
            }
            _ => write!(
                f,
                "the {name} has {len} bytes, the region needs 2^128 or more"
            )?,
        }
        let (slice, row, column) = self.first_outside();
        let (column, row) = (self.column(column), self.row(row));
        write!(f, "; the first texel outside is column {column}, row {row}")?;
        if slices > 1 {
            write!(f, ", slice {slice}")?;
        }
        Ok(())
    }

    /// Slices, rows and columns of the region, which has at least one of each: else it is accepted.
    fn extent(&self) -> (u64, u64, u64) {
        let Region {
            width,
            height,
            depth,
            ..
        } = self.region;
        (
            depth.max(1) as u64,
            u64::from(height.max(1)),
            u64::from(width.max(1)),
        )
    }

    fn column(&self, column: u64) -> u64 {
        u64::from(self.side.x) + column
    }

    fn row(&self, row: u64) -> u64 {
        u64::from(self.side.y) + row
    }

    /// The rows of the region that start lowest and highest.
    fn low_and_high(&self, rows: u64) -> (u64, u64) {
        if self.pitch < 0 {
            (rows - 1, 0)
        } else {
            (0, rows - 1)
        }
    }

    /// Where this texel of the region lies.
    ///
    /// It moves one way from one slice, row or column to the next: back from row to row where the
    /// pitch is negative, else on or not at all.
    fn place(&self, slice: u64, row: u64, column: u64) -> Place {
        let (x, y) = (self.column(column), self.row(row));
        let start = u128::from(self.side.start);
        let (in_row, bytes) = match &self.addressing {
            Addressing::Planes(layout) => {
                return Place::Ends(start + layout.end(self.format, x, y));
            }
            Addressing::Texels(bytes) => (u128::from(x) * u128::from(*bytes), u128::from(*bytes)),
            Addressing::Macropixels => (u128::from(x / 2) * 4, 4),
        };
        // start, slice and column alone stay below 2^128
        let before = start + u128::from(slice) * self.side.slice_pitch as u128 + in_row;
        let rows = u128::from(y) * self.pitch.unsigned_abs();
        let first = if self.pitch >= 0 {
            before.checked_add(rows)
        } else if rows > before {
            return Place::Below(rows - before);
        } else {
            Some(before - rows)
        };
        let end = first.and_then(|first| first.checked_add(bytes));
        end.map_or(Place::Beyond, Place::Ends)
    }

    /// Whether this texel of the region does not fit the buffer.
    fn is_outside(&self, slice: u64, row: u64, column: u64) -> bool {
        match self.place(slice, row, column) {
            Place::Ends(end) => end > self.len as u128,
            Place::Below(_) | Place::Beyond => true,
        }
    }

    /// The first texel, by slice, row and column of the region, that does not fit the buffer.
    fn first_outside(&self) -> (u64, u64, u64) {
        let (slices, rows, columns) = self.extent();
        let (low, high) = self.low_and_high(rows);
        let last = columns - 1;
        let slice = first(slices, |slice| {
            self.is_outside(slice, low, 0) || self.is_outside(slice, high, last)
        });
        let row = first(rows, |row| {
            self.is_outside(slice, row, 0) || self.is_outside(slice, row, last)
        });
        let column = first(columns, |column| self.is_outside(slice, row, column));
        (slice, row, column)
    }
}

/// The least number below `count` that passes a test: 0, or else the first one from which on all
/// numbers pass it.
///
/// The texels outside are those below byte 0 and those past the end, and the step that leads into
/// the one leads out of the other: with the first texel inside there is one of the two left.
fn first(count: u64, test: impl Fn(u64) -> bool) -> u64 {
    if test(0) {
        return 0;
    }
    let (mut below, mut found) = (0, count);
    while below < found {
        let middle = below + (found - below) / 2;
        if test(middle) {
            found = middle;
        } else {
            below = middle + 1;
        }
    }
    found
}
