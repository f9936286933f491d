//! Planar layouts, from a width and from a pitch.

use crate::{
    calls::{any_code, any32, any64},
    checks::Checks,
    common::XorShift,
    rules::{NV12, YV12},
};

pub fn run(checks: &mut Checks, random: &mut XorShift, all: bool) {
    let sizes = sizes();
    for format in [YV12, NV12, 50] {
        for &width in &sizes {
            for &height in &sizes {
                checks.planar_layout(format, width, height);
                checks.planar_layout_from_pitch(format, width as usize, height as usize);
            }
        }
    }
    let count = if all { 20_000_000 } else { 400_000 };
    for _ in 0..count {
        any(checks, random);
    }
}

/// Sizes around every limit: those of textures, of luma with chroma rows, and of 32 bits.
fn sizes() -> Vec<u32> {
    let limits = [8192, 10922, 16384, 1 << 16, 1 << 31];
    let around = limits.iter().flat_map(|limit| limit - 6..=limit + 6);
    (0..=40)
        .chain(around)
        .chain(u32::MAX - 6..=u32::MAX)
        .collect()
}

/// A layout of any numbers, and one of which a number is near the limits.
fn any(checks: &mut Checks, random: &mut XorShift) {
    let format = if random.one_in(8) {
        any_code(random)
    } else {
        random.pick(&[YV12, NV12])
    };
    checks.planar_layout(format, any32(random), any32(random));
    let [pitch, rows] = [0; 2].map(|_| match random.below(3) {
        0 => any64(random) as usize,
        1 => any32(random) as usize,
        _ => random.below(17_000) as usize,
    });
    checks.planar_layout_from_pitch(format, pitch, rows);
}
