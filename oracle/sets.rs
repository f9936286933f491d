//! Conversions from YUV with a set of numbers (docs/RULES.md, Sets of numbers). The colour of a sample is
//! worked out from the definition in whole numbers, and neither the original nor the port stands
//! behind it; rules.rs says which calls are accepted and where a texel's sample lies. A colour becomes
//! a texel of the destination by the original, which is given it in A8R8G8B8 (by_texel.rs).
#![allow(dead_code)]

use crate::{
    by_texel,
    calls::ConvertCall,
    common::YuvSet,
    rules::{self, A8R8G8B8},
};

/// How many parts of a number of 16.16 make one.
const ONE: i128 = 65536;

/// How far a byte may be from its exact value, in units of 1/65536²: 1/2 + 1/16384.
const LIMIT: i128 = ONE * ONE / 2 + ONE * ONE / 16384;

/// The products of a sample of luma, U and V, in units of 1/65536²: of luma, of V to red, of U and
/// of V to green, of U to blue.
fn products(set: &YuvSet, sample: [u8; 3]) -> [i128; 5] {
    let [
        luma_gain,
        luma_offset,
        v_to_red,
        u_to_green,
        v_to_green,
        u_to_blue,
        centre,
    ] = rules::numbers(set).map(i128::from);
    let [luma, u, v] = sample.map(i128::from);
    let chroma = |code: i128, gain: i128| (2 * code - centre) * (ONE / 2) * gain;
    [
        (luma * ONE - luma_offset) * luma_gain,
        chroma(v, v_to_red),
        chroma(u, u_to_green),
        chroma(v, v_to_green),
        chroma(u, u_to_blue),
    ]
}

/// Red, green and blue of such products.
const fn sums(products: [i128; 5]) -> [i128; 3] {
    let [luma, v_to_red, u_to_green, v_to_green, u_to_blue] = products;
    [
        luma + v_to_red,
        luma - u_to_green - v_to_green,
        luma + u_to_blue,
    ]
}

/// Red, green and blue of a sample: products rounded down to 65536ths, sums to the nearest whole
/// number, halves up, and clamped.
fn colour(set: &YuvSet, sample: [u8; 3]) -> [u8; 3] {
    let products = products(set, sample).map(|it| it.div_euclid(ONE));
    sums(products).map(|it| (it + ONE / 2).div_euclid(ONE).clamp(0, 255) as u8)
}

/// Whether no byte is further than 1/2 + 1/16384 from the clamped value that the set's own numbers
/// define.
fn is_near(set: &YuvSet, sample: [u8; 3], colour: [u8; 3]) -> bool {
    let exact = sums(products(set, sample)).map(|it| it.clamp(0, 255 * ONE * ONE));
    let mut both = exact.into_iter().zip(colour);
    both.all(|(exact, byte)| (i128::from(byte) * ONE * ONE - exact).abs() <= LIMIT)
}

/// Whether both texels of A8R8G8B8 are near to the samples of a macropixel of YUY2, and opaque.
pub fn near(set: &YuvSet, macropixel: &[u8], texels: &[u8]) -> bool {
    let &[first, u, second, v] = macropixel else {
        return false;
    };
    let mut both = [first, second].into_iter().zip(texels.chunks(4));
    both.all(|(luma, texel)| match *texel {
        [blue, green, red, 255] => is_near(set, [luma, u, v], [red, green, blue]),
        _ => false,
    })
}

/// Whether a conversion from YUV is accepted, and its destination.
pub fn convert(call: &ConvertCall) -> (bool, Vec<u8>) {
    let mut dst = call.dst.clone();
    let accepted = call.conversion().reply() == 0;
    if accepted {
        by_texel::write(call, &mut dst, &colours(call), A8R8G8B8);
    }
    (accepted, dst)
}

/// The region's colours as a row of A8R8G8B8.
fn colours(call: &ConvertCall) -> Vec<u8> {
    let from = rules::find(call.src_format).expect("a source");
    let (source, set) = (call.conversion().region.source, call.conversion().set);
    let colours = call.texels().flat_map(|texel| {
        let places = source.sample(from, texel).expect("a texel of YUV");
        let [red, green, blue] = colour(&set, places.map(|at| call.src[at as usize]));
        [blue, green, red, 255]
    });
    colours.collect()
}
