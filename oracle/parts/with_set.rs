//! Conversions with a set of YUV numbers: what every pair from YUV meets, ranges, damaged calls,
//! and how near a colour is to what its set defines.

use super::convert::{self, every_chroma};
use crate::{
    calls::{
        CHANGES, ConvertCall, any_set, corner_sets, legal_set, pairs, sets_at_ends, sets_outside,
        yuv_pairs,
    },
    checks::{Checks, spread},
    common::{XorShift, YuvSet, random_bytes},
    rules::{BT601, BT709, named},
};

pub fn run(checks: &mut Checks, random: &mut XorShift, all: bool) {
    checks.named_sets();
    every_pair(checks, random);
    ranges(checks, random);
    corners(checks, random);
    damaged(checks, random, if all { 4_000_000 } else { 150_000 });
    let mut sets = sets_at_ends(random);
    sets.extend((0..if all { 1000 } else { 30 }).map(|_| legal_set(random)));
    for set in sets {
        samples(checks, set, random_bytes(random, 1 << 17));
    }
    if all {
        spread(checks, 128, |checks, half| every_colour(checks, half as u8));
    } else {
        let first = random.below(32) as u8;
        for half in (first..128).step_by(32) {
            every_colour(checks, half);
        }
    }
}

/// The random numbers of sets beside those of calls.
fn beside(random: &mut XorShift) -> XorShift {
    XorShift::from_seed(random.next_u64())
}

/// What every pair from YUV meets, with both named sets and another legal one.
fn every_pair(checks: &mut Checks, random: &mut XorShift) {
    let mut of_sets = beside(random);
    let mut check = |mut call: ConvertCall| {
        for set in [BT601, BT709, legal_set(&mut of_sets)] {
            call.set = Some(set);
            checks.convert_region(&call);
        }
    };
    convert::every_pair(random, &yuv_pairs(), &mut check);
    convert::yuv_rows(random, check);
}

/// Each number at both ends of its range and outside it, with every pair: alone, with an empty
/// region, and with other refusals.
fn ranges(checks: &mut Checks, random: &mut XorShift) {
    for set in [sets_at_ends(random), sets_outside(random)].concat() {
        for (from, to) in pairs() {
            let accepted = ConvertCall::accepted(random, from, to, [3, 2, 1]);
            for change in CHANGES {
                let mut call = accepted.clone();
                call.set = Some(set);
                change(&mut call);
                checks.convert_region(&call);
            }
        }
    }
}

/// Every set whose numbers are ends of their ranges, with samples that are ends of theirs or lie
/// beside the chroma centres: the greatest and the least sums that there are.
fn corners(checks: &mut Checks, random: &mut XorShift) {
    for set in corner_sets() {
        for from in ["YUY2", "UYVY", "YV12", "NV12"].map(named) {
            let mut call = ConvertCall::accepted(random, from, named("A8R8G8B8"), [130, 4, 1]);
            for byte in &mut call.src {
                *byte = random.pick(&[0, 0, 0, 1, 127, 128, 254, 255, 255, 255]);
            }
            call.set = Some(set);
            checks.convert_region(&call);
        }
    }
}

/// Damaged conversions between any formats and, twice as many, from YUV, with any set.
fn damaged(checks: &mut Checks, random: &mut XorShift, count: usize) {
    let mut of_sets = beside(random);
    for (pairs, count) in [(pairs(), count), (yuv_pairs(), 2 * count)] {
        convert::damaged(random, &pairs, count, |mut call| {
            call.set = Some(any_set(&mut of_sets));
            checks.convert_region(&call);
        });
    }
}

/// Macropixels of YUY2 to A8R8G8B8, byte by byte and within the limit.
fn samples(checks: &mut Checks, set: YuvSet, src: Vec<u8>) {
    let mut call = ConvertCall::frame(named("YUY2"), named("A8R8G8B8"), 512, src);
    call.set = Some(set);
    checks.near(&call);
    checks.convert_region(&call);
}

/// Every U and V with the two lumas whose half this is, by BT709.
fn every_colour(checks: &mut Checks, half: u8) {
    let [first, second] = [2 * half, 2 * half + 1];
    samples(checks, BT709, every_chroma(|[u, v]| [first, u, second, v]));
}
