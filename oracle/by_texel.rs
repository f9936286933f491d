//! Conversions of regions that the original has not, with a start or a negative pitch. rules.rs says
//! which are accepted and where texels lie; what a texel becomes, the original, which is given the
//! texels as a row. They are then put in their places one by one.
#![allow(dead_code)]

use original::pixel_convert::convert_region;

use crate::{
    calls::ConvertCall,
    common::{flat, originals, whole_frame},
    rules,
};

/// Whether a conversion from a format with lanes is accepted, and its destination.
pub fn convert(call: &ConvertCall) -> (bool, Vec<u8>) {
    let mut dst = call.dst.clone();
    let accepted = call.conversion().reply() == 0;
    if accepted {
        write(call, &mut dst, &row(call), call.src_format);
    }
    (accepted, dst)
}

/// The region's source texels as a row.
fn row(call: &ConvertCall) -> Vec<u8> {
    let from = rules::find(call.src_format).expect("a source");
    let source = call.conversion().region.source;
    let texels = call.texels().flat_map(|texel| {
        let start = source.texel(texel, from.bytes);
        &call.src[start..start + from.bytes]
    });
    texels.copied().collect()
}

/// Writes an accepted region, whose texels are those of a row in some format, by slice, row and column.
pub fn write(call: &ConvertCall, dst: &mut [u8], row: &[u8], format: u32) {
    let of = |code| rules::find(code).expect("a format that converts");
    let (from, to) = (of(format), of(call.dst_format));
    let count = row.len() / from.bytes;
    let mut texels = vec![0; count * to.bytes];
    let region = whole_frame(count as u32, 1, row.len(), texels.len());
    let region = originals(&flat(&region));
    assert!(
        convert_region(&mut texels, to.code, row, from.code, &region),
        "the original refuses a row of texels"
    );
    let destination = call.conversion().region.destination;
    for (texel, bytes) in call.texels().zip(texels.chunks_exact(to.bytes)) {
        let start = destination.texel(texel, to.bytes);
        dst[start..start + to.bytes].copy_from_slice(bytes);
    }
}
