//! Byte layout of the planar 4:2:0 YUV formats, YV12 and NV12.
//!
//! A frame is `luma_rows` rows of `pitch` bytes, then the chroma at half resolution both ways. YV12
//! has a V plane and then a U plane, in rows of half the pitch; NV12 has one plane of U and V in
//! pairs, in rows of the whole pitch. Planes are addressed by the pitch and never by the width.

use core::fmt;

use crate::ffi;
use crate::format::{D3DFMT_NV12, D3DFMT_YV12, Named, is_planar_yuv};
use crate::refusal::{Call, Refused, accepted};

pub use crate::shapes::PlanarYuvLayout;

/// The largest pitch, the most luma rows, and the most rows in all.
const MAX_TEXTURE_DIM: u128 = 16384;

impl PlanarYuvLayout {
    /// Bytes of a luma row.
    ///
    /// ```
    /// # use wentuqis::{format::D3DFMT_NV12, planar_yuv::planar_yuv_layout};
    /// assert_eq!(planar_yuv_layout(D3DFMT_NV12, 6, 3).unwrap().pitch(), 8);
    /// ```
    #[must_use]
    pub const fn pitch(&self) -> u32 {
        self.pitch as u32
    }

    /// Rows of `pitch` bytes in all: the luma rows, then the chroma rows.
    ///
    /// ```
    /// # use wentuqis::{format::D3DFMT_NV12, planar_yuv::planar_yuv_layout};
    /// assert_eq!(planar_yuv_layout(D3DFMT_NV12, 6, 3).unwrap().storage_rows(), 5);
    /// ```
    #[must_use]
    pub const fn storage_rows(&self) -> u32 {
        (self.luma_rows + self.chroma_rows) as u32
    }

    /// Bytes of the whole frame.
    ///
    /// ```
    /// # use wentuqis::{format::D3DFMT_NV12, planar_yuv::planar_yuv_layout};
    /// assert_eq!(planar_yuv_layout(D3DFMT_NV12, 6, 3).unwrap().total_bytes(), 40);
    /// ```
    #[must_use]
    pub const fn total_bytes(&self) -> usize {
        self.total_bytes
    }

    /// Rows of the luma plane: the height.
    ///
    /// ```
    /// # use wentuqis::{format::D3DFMT_NV12, planar_yuv::planar_yuv_layout};
    /// assert_eq!(planar_yuv_layout(D3DFMT_NV12, 6, 3).unwrap().luma_rows(), 3);
    /// ```
    #[must_use]
    pub const fn luma_rows(&self) -> u32 {
        self.luma_rows as u32
    }

    /// Rows of chroma: half the luma rows, rounded up.
    ///
    /// ```
    /// # use wentuqis::{format::D3DFMT_NV12, planar_yuv::planar_yuv_layout};
    /// assert_eq!(planar_yuv_layout(D3DFMT_NV12, 6, 3).unwrap().chroma_rows(), 2);
    /// ```
    #[must_use]
    pub const fn chroma_rows(&self) -> u32 {
        self.chroma_rows as u32
    }

    /// Offset of the luma byte of texel `(x, y)`.
    ///
    /// ```
    /// # use wentuqis::{format::D3DFMT_NV12, planar_yuv::planar_yuv_layout};
    /// assert_eq!(planar_yuv_layout(D3DFMT_NV12, 6, 3).unwrap().luma_offset(5, 2), 21);
    /// ```
    #[must_use]
    pub const fn luma_offset(&self, x: usize, y: usize) -> usize {
        y * self.pitch + x
    }

    /// Offset of the NV12 U byte of texel `(x, y)`; its V byte is the next one.
    ///
    /// ```
    /// # use wentuqis::{format::D3DFMT_NV12, planar_yuv::planar_yuv_layout};
    /// assert_eq!(planar_yuv_layout(D3DFMT_NV12, 6, 3).unwrap().nv12_uv_offset(5, 2), 36);
    /// ```
    #[must_use]
    pub const fn nv12_uv_offset(&self, x: usize, y: usize) -> usize {
        self.chroma_base() + (y / 2) * self.pitch + 2 * (x / 2)
    }

    /// Offset of the YV12 V byte of texel `(x, y)`.
    ///
    /// ```
    /// # use wentuqis::{format::D3DFMT_YV12, planar_yuv::planar_yuv_layout};
    /// assert_eq!(planar_yuv_layout(D3DFMT_YV12, 6, 4).unwrap().yv12_v_offset(5, 3), 38);
    /// ```
    #[must_use]
    pub const fn yv12_v_offset(&self, x: usize, y: usize) -> usize {
        self.chroma_base() + (y / 2) * self.half_pitch() + x / 2
    }

    /// Offset of the YV12 U byte of texel `(x, y)`: the U plane follows the V plane.
    ///
    /// ```
    /// # use wentuqis::{format::D3DFMT_YV12, planar_yuv::planar_yuv_layout};
    /// assert_eq!(planar_yuv_layout(D3DFMT_YV12, 6, 4).unwrap().yv12_u_offset(5, 3), 46);
    /// ```
    #[must_use]
    pub const fn yv12_u_offset(&self, x: usize, y: usize) -> usize {
        self.yv12_v_offset(x, y) + self.chroma_rows * self.half_pitch()
    }

    /// Whether `(x, y)` is a texel of the luma plane, row padding included.
    ///
    /// ```
    /// # use wentuqis::{format::D3DFMT_NV12, planar_yuv::planar_yuv_layout};
    /// let layout = planar_yuv_layout(D3DFMT_NV12, 6, 3).unwrap();
    /// assert!(layout.contains(7, 2) && !layout.contains(8, 2) && !layout.contains(0, 3));
    /// ```
    #[must_use]
    pub const fn contains(&self, x: usize, y: usize) -> bool {
        x < self.pitch && y < self.luma_rows
    }

    /// Offset of the first chroma byte, right after the last luma row.
    const fn chroma_base(&self) -> usize {
        self.pitch * self.luma_rows
    }

    /// Bytes of a YV12 chroma row.
    const fn half_pitch(&self) -> usize {
        self.pitch / 2
    }

    /// The bytes that a frame needs to hold texel `(x, y)`, whose last byte is one of chroma.
    pub(crate) fn end(&self, format: u32, x: u64, y: u64) -> u128 {
        let (x, y) = (x as usize, y as usize);
        let last = if format == D3DFMT_NV12 {
            self.nv12_uv_offset(x, y) + 1
        } else {
            self.yv12_u_offset(x, y)
        };
        last as u128 + 1
    }

    /// What a call is lent that hands a layout back.
    const ZEROS: Self = Self {
        pitch: 0,
        luma_rows: 0,
        chroma_rows: 0,
        total_bytes: 0,
    };
}

/// The layout of a frame of this width and height; its pitch is the width raised to a multiple of 4.
///
/// `None` for any format but YV12 and NV12, for a width or height outside 1 to 16384, for an odd
/// height of YV12, and for more than 16384 rows in all. [`try_planar_yuv_layout`] says which. Unlike
/// the original it is no `const fn`.
///
/// ```
/// use wentuqis::format::{D3DFMT_NV12, D3DFMT_YV12};
/// use wentuqis::planar_yuv::planar_yuv_layout;
///
/// assert_eq!(planar_yuv_layout(D3DFMT_NV12, 6, 3).unwrap().total_bytes(), 40);
/// assert!(planar_yuv_layout(D3DFMT_YV12, 6, 3).is_none());
/// ```
#[must_use]
pub fn planar_yuv_layout(d3d_format: u32, width: u32, height: u32) -> Option<PlanarYuvLayout> {
    try_planar_yuv_layout(d3d_format, width, height).ok()
}

/// [`planar_yuv_layout`], with the reason if it refuses.
///
/// # Errors
/// [`Refusal::NoPlanarLayout`](crate::Refusal::NoPlanarLayout).
///
/// ```
/// use wentuqis::format::D3DFMT_YV12;
/// use wentuqis::planar_yuv::try_planar_yuv_layout;
///
/// assert_eq!(
///     try_planar_yuv_layout(D3DFMT_YV12, 6, 3).unwrap_err().to_string(),
///     "no planar layout: YV12 has an even number of luma rows, not 3"
/// );
/// assert_eq!(try_planar_yuv_layout(D3DFMT_YV12, 6, 4)?.pitch(), 8);
/// # Ok::<(), wentuqis::Refused>(())
/// ```
pub fn try_planar_yuv_layout(
    d3d_format: u32,
    width: u32,
    height: u32,
) -> Result<PlanarYuvLayout, Refused> {
    let mut layout = PlanarYuvLayout::ZEROS;
    let reply = ffi::wentuqis_planar_yuv_layout(d3d_format, width, height, &mut layout);
    accepted(reply, || {
        Call::Planar(PlanarCall {
            format: d3d_format,
            columns: Columns::Width(width),
            luma_rows: height as usize,
        })
    })?;
    Ok(layout)
}

/// The layout of a frame that is known by its pitch and luma rows.
///
/// `None` for what [`planar_yuv_layout`] refuses, and for an odd pitch, which would split a chroma
/// pair or half a row. [`try_planar_yuv_layout_from_pitch`] says which.
///
/// ```
/// use wentuqis::format::D3DFMT_NV12;
/// use wentuqis::planar_yuv::planar_yuv_layout_from_pitch;
///
/// assert_eq!(planar_yuv_layout_from_pitch(D3DFMT_NV12, 10, 3).unwrap().total_bytes(), 50);
/// assert!(planar_yuv_layout_from_pitch(D3DFMT_NV12, 9, 3).is_none());
/// ```
#[must_use]
pub fn planar_yuv_layout_from_pitch(
    d3d_format: u32,
    pitch: usize,
    luma_rows: usize,
) -> Option<PlanarYuvLayout> {
    try_planar_yuv_layout_from_pitch(d3d_format, pitch, luma_rows).ok()
}

/// [`planar_yuv_layout_from_pitch`], with the reason if it refuses.
///
/// # Errors
/// [`Refusal::NoPlanarLayout`](crate::Refusal::NoPlanarLayout).
///
/// ```
/// use wentuqis::format::D3DFMT_NV12;
/// use wentuqis::planar_yuv::try_planar_yuv_layout_from_pitch;
///
/// assert_eq!(
///     try_planar_yuv_layout_from_pitch(D3DFMT_NV12, 9, 3).unwrap_err().to_string(),
///     "no planar layout: the pitch 9 is odd, and chroma needs an even one"
/// );
/// assert_eq!(try_planar_yuv_layout_from_pitch(D3DFMT_NV12, 10, 3)?.chroma_rows(), 2);
/// # Ok::<(), wentuqis::Refused>(())
/// ```
pub fn try_planar_yuv_layout_from_pitch(
    d3d_format: u32,
    pitch: usize,
    luma_rows: usize,
) -> Result<PlanarYuvLayout, Refused> {
    let mut layout = PlanarYuvLayout::ZEROS;
    let reply =
        ffi::wentuqis_planar_yuv_layout_from_pitch(d3d_format, pitch, luma_rows, &mut layout);
    accepted(reply, || {
        Call::Planar(PlanarCall {
            format: d3d_format,
            columns: Columns::Pitch(pitch),
            luma_rows,
        })
    })?;
    Ok(layout)
}

/// The arguments of a refused planar layout.
#[derive(Clone, Copy, Debug, PartialEq, Eq, Hash)]
pub(crate) struct PlanarCall {
    format: u32,
    columns: Columns,
    luma_rows: usize,
}

/// What a frame's columns are known by.
#[derive(Clone, Copy, Debug, PartialEq, Eq, Hash)]
enum Columns {
    Width(u32),
    Pitch(usize),
}

impl PlanarCall {
    /// Writes what to mend.
    pub(crate) fn explain(&self, f: &mut fmt::Formatter<'_>) -> fmt::Result {
        let format = Named(self.format);
        let rows = self.luma_rows as u128;
        let (name, columns) = match self.columns {
            Columns::Width(width) => ("width", u128::from(width)),
            Columns::Pitch(pitch) => ("pitch", pitch as u128),
        };
        if !is_planar_yuv(self.format) {
            write!(f, "{format} is not planar; use YV12 or NV12")
        } else if !(1..=MAX_TEXTURE_DIM).contains(&columns) {
            write!(f, "the {name} is 1 to {MAX_TEXTURE_DIM}, not {columns}")
        } else if name == "pitch" && columns % 2 != 0 {
            write!(
                f,
                "the pitch {columns} is odd, and chroma needs an even one"
            )
        } else if !(1..=MAX_TEXTURE_DIM).contains(&rows) {
            write!(f, "the luma rows are 1 to {MAX_TEXTURE_DIM}, not {rows}")
        } else if self.format == D3DFMT_YV12 && rows % 2 != 0 {
            write!(f, "YV12 has an even number of luma rows, not {rows}")
        } else {
            let chroma = rows.div_ceil(2);
            write!(
                f,
                "{rows} luma rows and {chroma} chroma rows are {}, more than {MAX_TEXTURE_DIM}",
                rows + chroma
            )
        }
    }
}

/// Writes why there is no layout with this pitch and these luma rows.
pub(crate) fn missing_layout(
    format: u32,
    pitch: usize,
    luma_rows: usize,
    f: &mut fmt::Formatter<'_>,
) -> fmt::Result {
    let call = PlanarCall {
        format,
        columns: Columns::Pitch(pitch),
        luma_rows,
    };
    write!(
        f,
        "no frame of {} has this pitch and slice pitch: ",
        Named(format)
    )?;
    call.explain(f)
}
