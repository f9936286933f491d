//! The calls of `libwentuqis.a`, and the only `unsafe` of this crate.
//!
//! A slice crosses as pointer and length, a struct or an array by pointer. What the library asks of
//! its callers is what a Rust reference gives: no null pointer (an empty slice has a dangling one),
//! initialised and aligned memory, and no other access to what a `&mut` lends. Replies are the
//! library's own numbers. Nothing is checked on the way: the library takes any number.
//! oracle/port.rs compiles this file too.

use super::shapes::{FillPixel, PlanarYuvLayout, PlaneLayout, Region, YuvSet};

/// Declares the calls, with their calling convention.
macro_rules! library {
    ($convention:literal) => {
        // SAFETY: as include/wentuqis.h declares them; a `safe` call takes only numbers and references.
        unsafe extern $convention {
            pub(crate) safe fn wentuqis_can_convert(src_format: u32, dst_format: u32) -> bool;
            pub(crate) safe fn wentuqis_can_convert_update(src_format: u32, dst_format: u32) -> bool;
            pub(crate) safe fn wentuqis_bt601(set: &mut YuvSet);
            pub(crate) safe fn wentuqis_bt709(set: &mut YuvSet);
            pub(crate) safe fn wentuqis_yuv_to_rgb8(luma: u8, cb: u8, cr: u8, rgb: &mut [u8; 3]);
            pub(crate) safe fn wentuqis_yuv_to_rgb8_by_tables(luma: u8, cb: u8, cr: u8, rgb: &mut [u8; 3]);
            pub(crate) safe fn wentuqis_planar_yuv_layout(
                format: u32,
                width: u32,
                height: u32,
                layout: &mut PlanarYuvLayout,
            ) -> u32;
            pub(crate) safe fn wentuqis_planar_yuv_layout_from_pitch(
                format: u32,
                pitch: usize,
                luma_rows: usize,
                layout: &mut PlanarYuvLayout,
            ) -> u32;
            pub(crate) safe fn wentuqis_d3dcolor_fill_pixel_bytes(
                color: u32,
                format: u32,
                fill: &mut FillPixel,
            ) -> u32;
            pub(crate) safe fn wentuqis_f32_to_f16_bits(bits: u32) -> u16;
            pub(crate) safe fn wentuqis_d3dcolor_to_rgba_f32(color: u32, rgba: &mut [f32; 4]);
            pub(crate) safe fn wentuqis_plane_layout(
                width: u32,
                height: u32,
                alignment: u32,
                layout: &mut PlaneLayout,
            ) -> u32;

            fn wentuqis_convert_region(
                dst: *mut u8,
                dst_len: usize,
                dst_format: u32,
                src: *const u8,
                src_len: usize,
                src_format: u32,
                region: &Region,
            ) -> u32;
            fn wentuqis_convert_region_with_set(
                dst: *mut u8,
                dst_len: usize,
                dst_format: u32,
                src: *const u8,
                src_len: usize,
                src_format: u32,
                region: &Region,
                set: &YuvSet,
            ) -> u32;
            fn wentuqis_splat_pixel_pattern(
                dst: *mut u8,
                dst_len: usize,
                pixel: *const u8,
                pixel_len: usize,
            );
            fn wentuqis_unpack(
                depth: *mut u8,
                depth_len: usize,
                stencil: *mut u8,
                stencil_len: usize,
                packed: *const u8,
                packed_len: usize,
                packed_pitch: usize,
                format: u32,
                layout: &PlaneLayout,
            ) -> u32;
            fn wentuqis_pack(
                packed: *mut u8,
                packed_len: usize,
                packed_pitch: usize,
                depth: *const u8,
                depth_len: usize,
                stencil: *const u8,
                stencil_len: usize,
                format: u32,
                layout: &PlaneLayout,
            ) -> u32;
        }
    };
}

// On x86-64 the convention is System V's on every system, Windows too.
#[cfg(target_arch = "x86_64")]
library!("sysv64");
#[cfg(not(target_arch = "x86_64"))]
library!("C");

/// Converts a region; replies 0 or a refusal of 1 to 4.
pub(crate) fn convert_region(
    dst: &mut [u8],
    dst_format: u32,
    src: &[u8],
    src_format: u32,
    region: &Region,
) -> u32 {
    // SAFETY: each pointer and length are those of one slice, lent for the whole call.
    unsafe {
        wentuqis_convert_region(
            dst.as_mut_ptr(),
            dst.len(),
            dst_format,
            src.as_ptr(),
            src.len(),
            src_format,
            region,
        )
    }
}

/// Converts a region with YUV by a set; replies 0 or a refusal of 1 to 4 and 15.
pub(crate) fn convert_region_with_set(
    dst: &mut [u8],
    dst_format: u32,
    src: &[u8],
    src_format: u32,
    region: &Region,
    set: &YuvSet,
) -> u32 {
    // SAFETY: each pointer and length are those of one slice, lent for the whole call.
    unsafe {
        wentuqis_convert_region_with_set(
            dst.as_mut_ptr(),
            dst.len(),
            dst_format,
            src.as_ptr(),
            src.len(),
            src_format,
            region,
            set,
        )
    }
}

/// Repeats `pixel` over `dst`.
pub(crate) fn splat_pixel_pattern(dst: &mut [u8], pixel: &[u8]) {
    // SAFETY: each pointer and length are those of one slice, lent for the whole call.
    unsafe {
        wentuqis_splat_pixel_pattern(dst.as_mut_ptr(), dst.len(), pixel.as_ptr(), pixel.len());
    }
}

/// Unpacks depth; replies 0 or a refusal of 9 to 13.
pub(crate) fn unpack(
    depth: &mut [u8],
    stencil: &mut [u8],
    packed: &[u8],
    packed_pitch: usize,
    format: u32,
    layout: &PlaneLayout,
) -> u32 {
    // SAFETY: each pointer and length are those of one slice, lent for the whole call.
    unsafe {
        wentuqis_unpack(
            depth.as_mut_ptr(),
            depth.len(),
            stencil.as_mut_ptr(),
            stencil.len(),
            packed.as_ptr(),
            packed.len(),
            packed_pitch,
            format,
            layout,
        )
    }
}

/// Packs depth; replies 0 or a refusal of 9 to 13.
pub(crate) fn pack(
    packed: &mut [u8],
    packed_pitch: usize,
    depth: &[u8],
    stencil: &[u8],
    format: u32,
    layout: &PlaneLayout,
) -> u32 {
    // SAFETY: each pointer and length are those of one slice, lent for the whole call.
    unsafe {
        wentuqis_pack(
            packed.as_mut_ptr(),
            packed.len(),
            packed_pitch,
            depth.as_ptr(),
            depth.len(),
            stencil.as_ptr(),
            stencil.len(),
            format,
            layout,
        )
    }
}
