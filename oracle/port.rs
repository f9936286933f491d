//! The calls of libwentuqis.a, each as a safe function over slices and structs that takes any
//! numbers: those of the crate in rust/, whose own file is compiled here. A u32 reply is 0 where the call is
//! accepted, else the number of the refusal.
#![allow(dead_code, unused_imports)]

#[path = "../rust/src/ffi.rs"]
mod ffi;

use crate::common::shapes;

pub(crate) use ffi::{
    convert_region, convert_region_with_set, pack, splat_pixel_pattern, unpack,
    wentuqis_bt601 as bt601, wentuqis_bt709 as bt709, wentuqis_can_convert as can_convert,
    wentuqis_can_convert_update as can_convert_update,
    wentuqis_d3dcolor_fill_pixel_bytes as d3dcolor_fill_pixel_bytes,
    wentuqis_d3dcolor_to_rgba_f32 as d3dcolor_to_rgba_f32,
    wentuqis_f32_to_f16_bits as f32_to_f16_bits, wentuqis_planar_yuv_layout as planar_yuv_layout,
    wentuqis_planar_yuv_layout_from_pitch as planar_yuv_layout_from_pitch,
    wentuqis_plane_layout as plane_layout, wentuqis_yuv_to_rgb8 as yuv_to_rgb8,
    wentuqis_yuv_to_rgb8_by_tables as yuv_to_rgb8_by_tables,
};
