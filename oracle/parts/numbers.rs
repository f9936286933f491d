//! Calls that take numbers alone: binary16 and YUV.

use crate::{
    calls::MAGNITUDES,
    checks::{Checks, spread},
    common::XorShift,
};

/// Every triple.
pub fn yuv(checks: &mut Checks, _: &mut XorShift, _: bool) {
    spread(checks, 256, |checks, luma| {
        let triples = (0..=0xffff_u16).map(|chroma| {
            let [cb, cr] = chroma.to_be_bytes();
            [luma as u8, cb, cr]
        });
        checks.triples(triples);
    });
}

pub fn half(checks: &mut Checks, random: &mut XorShift, all: bool) {
    for code in 0..0x7c00 {
        checks.halves(neighbourhood(code));
    }
    let signs = [0, 0x8000_0000];
    // Every magnitude from 2^-25 to 2^-24.
    let [low, high] = [-25, -24].map(|power| 2.0_f32.powi(power).to_bits());
    for sign in signs {
        checks.halves((low..=high).map(|magnitude| magnitude | sign));
        checks.halves(MAGNITUDES.map(|magnitude| magnitude | sign));
        for exponent in 0..256 {
            let high = sign | exponent << 23;
            checks.halves(mantissas(random).map(|mantissa| high | mantissa));
        }
    }
    checks.halves((0..4_000_000).map(|_| random.next_u32()));
    if all {
        spread(checks, 1 << 16, |checks, high| {
            checks.halves((0..=0xffff).map(|low| high << 16 | low));
        });
    }
}

/// Patterns of both signs around a binary16 number and around the tie between it and the next.
fn neighbourhood(code: u32) -> impl Iterator<Item = u32> {
    let (this, next) = (half_value(code), half_value(code + 1));
    let around = [this, (this + next) / 2.0].map(|it| (it as f32).to_bits());
    around
        .into_iter()
        .flat_map(|bits| bits.saturating_sub(3)..=bits + 3)
        .flat_map(|bits| [bits, bits | 0x8000_0000])
}

/// The number that a finite binary16 code without sign stands for; 65536 for infinity's.
fn half_value(code: u32) -> f64 {
    let (exponent, fraction) = (code >> 10, f64::from(code & 0x3ff) / 1024.0);
    if exponent == 0 {
        fraction * 2.0_f64.powi(-14)
    } else {
        (1.0 + fraction) * 2.0_f64.powi(exponent as i32 - 15)
    }
}

/// Mantissas around every power of two, and random ones.
fn mantissas(random: &mut XorShift) -> impl Iterator<Item = u32> {
    let powers = (0..23).flat_map(|power| (1_u32 << power) - 1..=(1 << power) + 1);
    let all_ones = (0..24).map(|low| 0x7f_ffff >> low << low);
    powers
        .chain(all_ones)
        .chain((0..200).map(|_| random.next_u32() >> 9))
        .map(|it| it & 0x7f_ffff)
}
