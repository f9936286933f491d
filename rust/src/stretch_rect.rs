//! The YUV decoding of `StretchRect`.

use crate::ffi;

/// Red, green and blue of one BT.601 sample of reduced range, by
/// [`YuvSet::BT601`](crate::pixel_convert::YuvSet::BT601).
///
/// Each byte lies within 1/2 + 1/500 of the exact value. Never refuses.
///
/// ```
/// use wentuqis::stretch_rect::yuv_to_rgb8;
///
/// assert_eq!(yuv_to_rgb8(16, 128, 128), (1, 0, 1));
/// assert_eq!(yuv_to_rgb8(235, 128, 128), (255, 254, 255));
/// ```
#[must_use]
pub fn yuv_to_rgb8(luma: u8, cb: u8, cr: u8) -> (u8, u8, u8) {
    let mut rgb = [0; 3];
    ffi::wentuqis_yuv_to_rgb8(luma, cb, cr, &mut rgb);
    rgb.into()
}

/// The same colour as [`yuv_to_rgb8`], for every sample, by five tables of 256 numbers, which are
/// looked up and added.
///
/// The original has no such call. Never refuses.
///
/// ```
/// use wentuqis::stretch_rect::{yuv_to_rgb8, yuv_to_rgb8_by_tables};
///
/// assert_eq!(yuv_to_rgb8_by_tables(16, 128, 128), (1, 0, 1));
/// assert_eq!(yuv_to_rgb8_by_tables(90, 84, 216), yuv_to_rgb8(90, 84, 216));
/// ```
#[must_use]
pub fn yuv_to_rgb8_by_tables(luma: u8, cb: u8, cr: u8) -> (u8, u8, u8) {
    let mut rgb = [0; 3];
    ffi::wentuqis_yuv_to_rgb8_by_tables(luma, cb, cr, &mut rgb);
    rgb.into()
}
