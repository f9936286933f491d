//! Colour fills with the colours they are made of, and splats.

use crate::{
    calls::{any_code, listed_codes},
    checks::Checks,
    common::{XorShift, random_bytes},
};

pub fn fill(checks: &mut Checks, random: &mut XorShift, all: bool) {
    let colors = colors(random, if all { 100_000 } else { 1000 });
    for &color in &colors {
        checks.rgba(color);
        for &format in &listed_codes() {
            checks.fill(color, format);
        }
        checks.fill(color, any_code(random));
    }
}

/// Every byte in each channel over black and over white, every grey, and random colours.
fn colors(random: &mut XorShift, count: usize) -> Vec<u32> {
    let channels = (0..256).flat_map(|byte: u32| {
        [0, 8, 16, 24].map(|low| [byte << low, !(0xff << low) | byte << low])
    });
    let greys = (0..256).map(|byte| byte * 0x0101_0101);
    let others = (0..count).map(|_| random.next_u32());
    channels.flatten().chain(greys).chain(others).collect()
}

pub fn splat(checks: &mut Checks, random: &mut XorShift, all: bool) {
    for length in 0..=200 {
        for pattern in 0..=20 {
            splat_one(checks, random, length, pattern);
        }
    }
    let count = if all { 200_000 } else { 4000 };
    for _ in 0..count {
        let length = random.below(10_000) as usize;
        let pattern = random.below(300) as usize;
        splat_one(checks, random, length, pattern);
    }
}

fn splat_one(checks: &mut Checks, random: &mut XorShift, length: usize, pattern: usize) {
    let (dst, pixel) = (random_bytes(random, length), random_bytes(random, pattern));
    checks.splat(&dst, &pixel);
}
