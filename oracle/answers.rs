//! What the original answers to a call, for those who record its answers and those who compare. It
//! does not decide where the port departs from it (docs/DIFFERENCES.md): rules.rs and stills.rs
//! answer for the pairs that it refuses and the port converts, rules.rs and sets.rs for sets other
//! than BT601, rules.rs and by_texel.rs or sets.rs for regions that it has not, with a start or a
//! negative pitch, and the C compiler for the binary16 codes that are others.
#![allow(dead_code)]

use original::{
    depth_texture::{PackedDepth, PlaneLayout},
    pixel_convert,
    planar_yuv::{self, PlanarYuvLayout},
};

use crate::{
    by_texel,
    calls::{ConvertCall, DepthCall},
    common::{FlatRegion, Planes, Region, flat, is_upright, originals},
    rules::{self, AnyRegion},
    sets, stills,
};

/// Whether a pair of formats converts.
pub fn pair(src_format: u32, dst_format: u32) -> bool {
    rules::original_refuses(src_format, dst_format)
        || pixel_convert::can_convert(src_format, dst_format)
}

/// The turns of its loops, an empty region's too.
pub fn effort(region: &Region) -> u128 {
    (region.depth as u128)
        .saturating_mul(region.height.max(1).into())
        .saturating_mul(region.width.max(1).into())
}

/// Whether it can be asked of a conversion with this reply by the rules: it refuses before it
/// looks at a texel, or no sum of its wraps and it `ends` soon. The rules, where they alone answer, look
/// at no texel of a region that is empty or that they refuse.
pub fn can_convert(call: &ConvertCall, reply: u32, ends: impl FnOnce() -> bool) -> bool {
    let is_empty = AnyRegion::from(&call.region).is_empty();
    let is_upright = is_upright(&call.region);
    let alone = original::BY_RULES || !is_upright;
    let fits = || is_empty || !is_upright || call.conversion().sums_fit();
    let at_once = matches!(reply, 1 | 2 | 15) || alone && (is_empty || reply != 0);
    at_once || fits() && ends()
}

/// Whether the rules beyond the original answer to a conversion in its place.
pub fn by_rules(call: &ConvertCall) -> bool {
    beyond(call) || !is_upright(&call.region)
}

/// Whether they do for its formats or for its set.
pub fn beyond(call: &ConvertCall) -> bool {
    rules::original_refuses(call.src_format, call.dst_format) || has_other_set(call)
}

/// Whether the source is read by another set than the original's.
fn has_other_set(call: &ConvertCall) -> bool {
    call.set_in_use().is_some_and(|set| set != rules::BT601)
}

/// Whether it accepts, and its destination.
pub fn convert(call: &ConvertCall) -> (bool, Vec<u8>) {
    if rules::original_refuses(call.src_format, call.dst_format) {
        return stills::convert(call);
    }
    if has_other_set(call) {
        return sets::convert(call);
    }
    if is_upright(&call.region) {
        return convert_flat(call, &flat(&call.region));
    }
    if rules::is_yuv(call.src_format) {
        return sets::convert(call);
    }
    by_texel::convert(call)
}

/// The same of a flat region in the place of the call's.
pub fn convert_flat(call: &ConvertCall, flat: &FlatRegion) -> (bool, Vec<u8>) {
    let mut dst = call.dst.clone();
    let (to, from) = (call.dst_format, call.src_format);
    let accepted = pixel_convert::convert_region(&mut dst, to, &call.src, from, &originals(flat));
    (accepted, dst)
}

unsafe extern "C" {
    /// The binary16 code of binary32 bits by the C compiler's own conversion (float16.c).
    pub safe fn compiler_f32_to_f16_bits(bits: u32) -> u16;
}

impl From<&Planes> for PlaneLayout {
    fn from(planes: &Planes) -> Self {
        Self {
            width: planes.width,
            height: planes.height,
            depth_pitch: planes.depth_pitch,
            stencil_pitch: planes.stencil_pitch,
        }
    }
}

/// Whether it accepts, and its depth and stencil planes.
pub fn unpack(call: &DepthCall) -> (bool, (Vec<u8>, Vec<u8>)) {
    let (mut depth, mut stencil) = (call.depth.clone(), call.stencil.clone());
    let accepted = PackedDepth::from_d3d(call.format).is_some_and(|format| {
        PlaneLayout::from(&call.planes).unpack(
            &format,
            &call.packed,
            call.packed_pitch,
            &mut depth,
            &mut stencil,
        )
    });
    (accepted, (depth, stencil))
}

/// Whether it accepts, and its packed rows.
pub fn pack(call: &DepthCall) -> (bool, Vec<u8>) {
    let mut packed = call.packed.clone();
    let accepted = PackedDepth::from_d3d(call.format).is_some_and(|format| {
        PlaneLayout::from(&call.planes).pack(
            &format,
            &call.depth,
            &call.stencil,
            &mut packed,
            call.packed_pitch,
        )
    });
    (accepted, packed)
}

/// Width, height, depth pitch, stencil pitch.
pub fn plane_layout(width: u32, height: u32, alignment: u32) -> Option<[u64; 4]> {
    PlaneLayout::new(width, height, alignment)
        .map(|it| [it.width, it.height, it.depth_pitch, it.stencil_pitch].map(|it| it as u64))
}

/// Pitch, luma rows, chroma rows, total bytes.
pub fn planar_layout(format: u32, width: u32, height: u32) -> Option<[u64; 4]> {
    planar_yuv::planar_yuv_layout(format, width, height).map(planar_numbers)
}

/// Pitch, luma rows, chroma rows, total bytes.
pub fn planar_layout_from_pitch(format: u32, pitch: usize, luma_rows: usize) -> Option<[u64; 4]> {
    planar_yuv::planar_yuv_layout_from_pitch(format, pitch, luma_rows).map(planar_numbers)
}

/// Chroma starts where the luma rows end.
fn planar_numbers(layout: PlanarYuvLayout) -> [u64; 4] {
    let pitch = layout.pitch() as usize;
    let luma_rows = layout.nv12_uv_offset(0, 0) / pitch;
    let chroma_rows = layout.storage_rows() as usize - luma_rows;
    [pitch, luma_rows, chroma_rows, layout.total_bytes()].map(|it| it as u64)
}
