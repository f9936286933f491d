//! The structs that cross the boundary, and the original's flat region. The fields of those that
//! are `repr(C)` are those of include/wentuqis.h, in the same order; tests/structs.sh holds sizes
//! and offsets of C, Rust and Rattle against each other. All are public in the modules of their
//! calls; they stand here because `ffi` needs no more of the crate than this, and oracle/ and
//! tests/ compile this file as it is.

/// Where the texels of a region lie in one of the two buffers.
///
/// The texel in slice z, row y and column x of the region starts at byte
/// `start` + z × `slice_pitch` + (`self.y` + y) × `pitch` + (`self.x` + x) × (bytes of a texel),
/// worked out as a true whole number; a packed YUV texel needs its whole macropixel of four bytes.
/// A picture that is stored bottom row first has a negative pitch, and its start is the first byte
/// of its top row, as [`bottom_up`](Self::bottom_up) says. A pitch may be 0 or any other number. Of
/// a planar source the pitch is above 0, `slice_pitch` is `pitch` × the number of luma rows, and the
/// whole frame counts from `start`.
///
/// ```
/// use wentuqis::pixel_convert::Side;
///
/// // A cutout of a padded picture, from column 8 of row 2 on.
/// let side = Side {
///     pitch: 2624,
///     x: 8,
///     y: 2,
///     ..Side::default()
/// };
/// assert_eq!((side.start, side.slice_pitch), (0, 0));
/// ```
#[derive(Clone, Copy, Debug, Default, PartialEq, Eq, Hash)]
#[repr(C)]
pub struct Side {
    /// First byte of row 0 of slice 0, which is the top row, wherever it is stored.
    pub start: u64,
    /// Bytes from a row to the next; negative where the next row is stored before it.
    pub pitch: i64,
    /// Bytes from a slice to the next.
    pub slice_pitch: usize,
    /// First column, in texels.
    pub x: u32,
    /// First row.
    pub y: u32,
}

impl Side {
    /// A picture of `rows` rows of `row_bytes` bytes each, padding included, that is stored bottom
    /// row first, from the buffer's first byte on.
    ///
    /// ```
    /// use wentuqis::pixel_convert::Side;
    ///
    /// let grab = Side::bottom_up(2560, 480);
    /// assert_eq!((grab.start, grab.pitch), (2560 * 479, -2560));
    /// ```
    ///
    /// A grab that is turned upright:
    ///
    /// ```
    /// use wentuqis::format::{D3DFMT_A8, D3DFMT_L8};
    /// use wentuqis::pixel_convert::{Region, Side, YuvSet, convert};
    ///
    /// // Two rows of three texels and a byte of padding; the bottom row, 4 5 6, comes first.
    /// let grab = [4, 5, 6, 0, 1, 2, 3, 0];
    /// let region = Region {
    ///     source: Side::bottom_up(4, 2),
    ///     destination: Side { pitch: 3, ..Side::default() },
    ///     ..Region::new(3, 2)
    /// };
    /// let mut upright = [0; 6];
    /// convert(&mut upright, D3DFMT_L8, &grab, D3DFMT_L8, &region, &YuvSet::BT601)?;
    /// assert_eq!(upright, [1, 2, 3, 4, 5, 6]);
    /// # Ok::<(), wentuqis::Refused>(())
    /// ```
    #[must_use]
    pub const fn bottom_up(row_bytes: u32, rows: u32) -> Self {
        Self {
            // neither passes its type: both factors have 32 bits
            start: row_bytes as u64 * rows.saturating_sub(1) as u64,
            pitch: -(row_bytes as i64),
            slice_pitch: 0,
            x: 0,
            y: 0,
        }
    }
}

/// A region to convert: where it lies in source and destination, and its extent.
///
/// `depth` is 1 for a 2D level or a cube face, and the slice count of a volume level; a region with
/// width, height or depth 0 has no texel. [`new`](Self::new) sets the extent of one slice, and the
/// two sides are set by name.
///
/// ```
/// use wentuqis::pixel_convert::{Region, Side};
///
/// // A frame of NV12 without row padding, 640 x 480, into A8R8G8B8.
/// let region = Region {
///     source: Side { pitch: 640, slice_pitch: 640 * 480, ..Side::default() },
///     destination: Side { pitch: 2560, ..Side::default() },
///     ..Region::new(640, 480)
/// };
/// assert_eq!(region.depth, 1);
/// ```
#[derive(Clone, Copy, Debug, PartialEq, Eq, Hash)]
#[repr(C)]
pub struct Region {
    /// Where the texels are read.
    pub source: Side,
    /// Where they are written.
    pub destination: Side,
    /// Slices to convert.
    pub depth: usize,
    /// Columns to convert.
    pub width: u32,
    /// Rows to convert.
    pub height: u32,
}

impl Region {
    /// A region of `width` by `height` texels in one slice, whose sides are all zeros.
    ///
    /// ```
    /// use wentuqis::pixel_convert::{Region, Side};
    ///
    /// let region = Region::new(640, 480);
    /// assert_eq!((region.width, region.height, region.depth), (640, 480, 1));
    /// assert_eq!(region.source, Side::default());
    /// ```
    #[must_use]
    pub const fn new(width: u32, height: u32) -> Self {
        const ZEROS: Side = Side {
            start: 0,
            pitch: 0,
            slice_pitch: 0,
            x: 0,
            y: 0,
        };
        Self {
            source: ZEROS,
            destination: ZEROS,
            depth: 1,
            width,
            height,
        }
    }
}

/// One [`convert_region`] copy: the shared extent, both origins, both layouts.
///
/// Origins and extent are in texels, pitches in bytes. `depth` is 1 for a 2D level or a cube face,
/// and the slice count of a volume level; a forgotten depth is 0, and nothing is then written. Of a
/// planar source, `src_slice_pitch / src_pitch` is the number of luma rows. [`Region`] has the same
/// numbers by side.
///
/// ```
/// use wentuqis::pixel_convert::ConvertRegion;
///
/// let whole = ConvertRegion {
///     width: 640,
///     height: 480,
///     src_pitch: 1280,
///     dst_pitch: 2560,
///     depth: 1,
///     ..ConvertRegion::default()
/// };
/// assert_eq!((whole.src_x, whole.dst_y, whole.src_slice_pitch), (0, 0, 0));
/// ```
///
/// [`convert_region`]: crate::pixel_convert::convert_region
#[derive(Clone, Copy, Debug, Default, PartialEq, Eq, Hash)]
pub struct ConvertRegion {
    /// First column of the source.
    pub src_x: u32,
    /// First row of the source.
    pub src_y: u32,
    /// First column of the destination.
    pub dst_x: u32,
    /// First row of the destination.
    pub dst_y: u32,
    /// Columns to convert.
    pub width: u32,
    /// Rows to convert.
    pub height: u32,
    /// Bytes from a source row to the next.
    pub src_pitch: usize,
    /// Bytes from a destination row to the next.
    pub dst_pitch: usize,
    /// Bytes from a source slice to the next.
    pub src_slice_pitch: usize,
    /// Bytes from a destination slice to the next.
    pub dst_slice_pitch: usize,
    /// Slices to convert.
    pub depth: usize,
}

/// The same region, with both starts 0: every call replies to it as to the original's, and writes
/// the same bytes.
///
/// A pitch of 2^63 or more, which no [`Side`] has, is held at 2^63 - 1. No slice of Rust has as many
/// bytes as either, so that row 0 lies where it was, and every other row is outside as it was. Of one
/// slice the source's slice pitch then becomes 0 where it is a multiple of the pitch, and else 1: only
/// a planar source looks at it, and a frame with such a pitch has no layout.
///
/// ```
/// use wentuqis::pixel_convert::{ConvertRegion, Region};
///
/// let flat = ConvertRegion { src_x: 7, dst_pitch: 16, depth: 1, ..ConvertRegion::default() };
/// let region = Region::from(flat);
/// assert_eq!((region.source.x, region.destination.pitch, region.depth), (7, 16, 1));
/// assert_eq!((region.source.start, region.destination.start), (0, 0));
/// ```
impl From<ConvertRegion> for Region {
    fn from(flat: ConvertRegion) -> Self {
        let held = |pitch: usize| i64::try_from(pitch).unwrap_or(i64::MAX);
        let src_slice_pitch = if i64::try_from(flat.src_pitch).is_err() && flat.depth == 1 {
            usize::from(flat.src_slice_pitch % flat.src_pitch != 0)
        } else {
            flat.src_slice_pitch
        };
        Self {
            source: Side {
                start: 0,
                pitch: held(flat.src_pitch),
                slice_pitch: src_slice_pitch,
                x: flat.src_x,
                y: flat.src_y,
            },
            destination: Side {
                start: 0,
                pitch: held(flat.dst_pitch),
                slice_pitch: flat.dst_slice_pitch,
                x: flat.dst_x,
                y: flat.dst_y,
            },
            depth: flat.depth,
            width: flat.width,
            height: flat.height,
        }
    }
}

/// The numbers by which [`convert_region_with_set`] takes a YUV sample to red, green and blue.
///
/// Gains and offset are in 65536ths, the chroma centre is in halves. With L = `luma_gain` × (Y -
/// `luma_offset`), and u and v for U and V less `chroma_centre`, red is L + `v_to_red` × v, green
/// L - `u_to_green` × u - `v_to_green` × v, and blue L + `u_to_blue` × u. Each product is rounded down
/// to a 65536th, each sum to the nearest whole number, halves up, and then clamped to 0..255: the
/// byte lies within 1/2 + 1/16384 of the exact value, clamped. A set with a number outside its range
/// is refused where the source is YUV.
///
/// A standard says how luma E'Y and the colour differences E'CB and E'CR are made of red, green and
/// blue, which are 0 to 1, and which code of 8 bits each has. Its numbers are that, solved for red,
/// green and blue times 255. Each field has the sentence that it comes from; [`BT601`](Self::BT601)
/// and [`BT709`](Self::BT709) have those of the two standards.
///
/// ```
/// use wentuqis::pixel_convert::YuvSet;
///
/// // BT.601 with the luma offset and the chroma centre of the standard
/// let numbers = YuvSet {
///     luma_offset: 16 * 65536,
///     chroma_centre: 128 * 2,
///     ..YuvSet::BT601
/// };
/// assert_eq!(numbers.luma_offset, YuvSet::BT709.luma_offset);
/// assert_eq!(numbers.chroma_centre, YuvSet::BT709.chroma_centre);
/// ```
///
/// [`convert_region_with_set`]: crate::pixel_convert::convert_region_with_set
#[derive(Clone, Copy, Debug, PartialEq, Eq, Hash)]
#[repr(C)]
pub struct YuvSet {
    /// Gain of luma, 0 to 262143: 255 / 219 where the code of luma is 219 E'Y + 16.
    pub luma_gain: u32,
    /// Luma of black, 0 to 4194303: 16 where the code of luma is 219 E'Y + 16.
    pub luma_offset: u32,
    /// Gain of V in red, 0 to 262143: k × 255 / 224 where E'CR = (E'R - E'Y) / k and its code is
    /// 224 E'CR + 128.
    pub v_to_red: u32,
    /// Gain of U that green loses, 0 to 262143: `u_to_blue` × b / g where E'Y = r E'R + g E'G +
    /// b E'B.
    pub u_to_green: u32,
    /// Gain of V that green loses, 0 to 262143: `v_to_red` × r / g where E'Y = r E'R + g E'G +
    /// b E'B.
    pub v_to_green: u32,
    /// Gain of U in blue, 0 to 262143: k × 255 / 224 where E'CB = (E'B - E'Y) / k and its code is
    /// 224 E'CB + 128.
    pub u_to_blue: u32,
    /// Chroma of grey, 255 or 256: 128 where the codes of chroma are 224 E'CB + 128 and
    /// 224 E'CR + 128.
    pub chroma_centre: u32,
}

impl YuvSet {
    /// BT.601 as the original has it: the set of [`convert_region`] and [`yuv_to_rgb8`].
    ///
    /// Recommendation ITU-R BT.601-7, sections 2.5.1 to 2.5.3, for 8 bits: E'Y = 0.299 E'R +
    /// 0.587 E'G + 0.114 E'B; E'CR = (E'R - E'Y) / 1.402 and E'CB = (E'B - E'Y) / 1.772, which are
    /// its 0.713 (E'R - E'Y) and 0.564 (E'B - E'Y); Y = 219 E'Y + 16, CR = 224 E'CR + 128 and
    /// CB = 224 E'CB + 128. Offset and centre depart from it. All but the centre are stored as the
    /// nearest 65536ths.
    ///
    /// | number | is | by |
    /// |---|---|---|
    /// | `luma_gain` | 1.164 | 255 / 219, of Y |
    /// | `luma_offset` | 16.065 | 0.063 × 255, where Y has 16 |
    /// | `v_to_red` | 1.596 | 1.402 × 255 / 224, of E'CR and CR |
    /// | `u_to_green` | 0.392 | 1.772 × 255 / 224 × 0.114 / 0.587, of E'CB, CB and E'Y |
    /// | `v_to_green` | 0.813 | 1.402 × 255 / 224 × 0.299 / 0.587, of E'CR, CR and E'Y |
    /// | `u_to_blue` | 2.017 | 1.772 × 255 / 224, of E'CB and CB |
    /// | `chroma_centre` | 127.5 | 255 / 2, where CB and CR have 128 |
    ///
    /// [`convert_region`]: crate::pixel_convert::convert_region
    /// [`yuv_to_rgb8`]: crate::stretch_rect::yuv_to_rgb8
    pub const BT601: Self = Self {
        luma_gain: 76284,
        luma_offset: 1_052_836,
        v_to_red: 104_595,
        u_to_green: 25690,
        v_to_green: 53281,
        u_to_blue: 132_186,
        chroma_centre: 255,
    };

    /// BT.709, which high-definition cameras send.
    ///
    /// Recommendation ITU-R BT.709-6, item 3.2: E'Y = 0.2126 E'R + 0.7152 E'G + 0.0722 E'B; item
    /// 3.3: E'CB = (E'B - E'Y) / 1.8556, E'CR = (E'R - E'Y) / 1.5748; item 3.4, with n = 8:
    /// D'Y = INT\[(219 E'Y + 16) · 2^(n-8)\], D'CB = INT\[(224 E'CB + 128) · 2^(n-8)\],
    /// D'CR = INT\[(224 E'CR + 128) · 2^(n-8)\]. All but the centre are stored as the nearest
    /// 65536ths.
    ///
    /// | number | is | by |
    /// |---|---|---|
    /// | `luma_gain` | 1.164 | 255 / 219, of item 3.4 |
    /// | `luma_offset` | 16 | 16, of item 3.4 |
    /// | `v_to_red` | 1.793 | 1.5748 × 255 / 224, of items 3.3 and 3.4 |
    /// | `u_to_green` | 0.213 | 1.8556 × 255 / 224 × 0.0722 / 0.7152, of items 3.2 to 3.4 |
    /// | `v_to_green` | 0.533 | 1.5748 × 255 / 224 × 0.2126 / 0.7152, of items 3.2 to 3.4 |
    /// | `u_to_blue` | 2.112 | 1.8556 × 255 / 224, of items 3.3 and 3.4 |
    /// | `chroma_centre` | 128 | 128, of item 3.4 |
    pub const BT709: Self = Self {
        luma_gain: 76284,
        luma_offset: 1_048_576,
        v_to_red: 117_506,
        u_to_green: 13959,
        v_to_green: 34931,
        u_to_blue: 138_412,
        chroma_centre: 256,
    };
}

/// Rows of a depth plane and of a stencil plane, in bytes.
///
/// Pixel `(x, y)` has its depth at `y * depth_pitch + 4 * x` of the one plane and its stencil at
/// `y * stencil_pitch + x` of the other. A layout need not come from [`new`](Self::new): unpacking
/// and packing check it.
///
/// ```
/// use wentuqis::depth_texture::PlaneLayout;
///
/// let layout = PlaneLayout::new(5, 3, 16).unwrap();
/// assert_eq!((layout.depth_pitch, layout.stencil_pitch), (32, 16));
/// ```
#[derive(Clone, Copy, Debug, PartialEq, Eq, Hash)]
#[repr(C)]
pub struct PlaneLayout {
    /// Pixels of a row.
    pub width: usize,
    /// Rows.
    pub height: usize,
    /// Bytes from a row of the depth plane to the next.
    pub depth_pitch: usize,
    /// Bytes from a row of the stencil plane to the next.
    pub stencil_pitch: usize,
}

/// Where the planes of one planar frame stand.
///
/// Offsets take luma coordinates; chroma offsets halve them, so that the four texels of a 2 × 2 block
/// share one sample. An offset is inside [`total_bytes`](Self::total_bytes) wherever
/// [`contains`](Self::contains) holds. The numbers come from the library; the methods are plain Rust:
/// tested, not proved.
///
/// ```
/// use wentuqis::format::D3DFMT_NV12;
/// use wentuqis::planar_yuv::planar_yuv_layout;
///
/// let layout = planar_yuv_layout(D3DFMT_NV12, 6, 3).unwrap();
/// assert_eq!((layout.pitch(), layout.luma_rows(), layout.chroma_rows()), (8, 3, 2));
/// assert_eq!((layout.storage_rows(), layout.total_bytes()), (5, 40));
/// assert_eq!(layout.nv12_uv_offset(5, 2), 36);
/// ```
#[derive(Clone, Copy, Debug, PartialEq, Eq, Hash)]
#[repr(C)]
pub struct PlanarYuvLayout {
    pub(crate) pitch: usize,
    pub(crate) luma_rows: usize,
    pub(crate) chroma_rows: usize,
    pub(crate) total_bytes: usize,
}

/// One texel's bytes for a fill: the first `length` of `bytes`, and zeros after them.
///
/// ```
/// use wentuqis::convert::try_d3dcolor_fill_pixel_bytes;
/// use wentuqis::format::D3DFMT_R5G6B5;
///
/// let fill = try_d3dcolor_fill_pixel_bytes(0xdead_beef, D3DFMT_R5G6B5)?;
/// assert_eq!(fill.length, 2);
/// assert_eq!(fill.bytes[..3], [0xfd, 0xad, 0]);
/// # Ok::<(), wentuqis::Refused>(())
/// ```
#[derive(Clone, Copy, Debug, PartialEq, Eq, Hash)]
#[repr(C)]
pub struct FillPixel {
    /// The texel, then zeros.
    pub bytes: [u8; 16],
    /// Bytes of the texel, 1 to 16.
    pub length: u32,
}
