//! Conversions of pictures with starts and negative pitches, which the original has not: turned over
//! and back, at either end of their buffers, overlapping, with places whose parts cancel; and flat
//! regions with pitches that no side has, of which the original is asked.

use crate::{
    calls::{ConvertCall, EDGES64, Pair, any_set, any64, pairs, texel_bytes},
    checks::Checks,
    common::{FlatRegion, Region, Side, XorShift, flat, random_bytes},
    rules::{self, BT709, Kind, NV12, YV12, named},
};

pub fn run(checks: &mut Checks, random: &mut XorShift, all: bool) {
    let pairs = pairs();
    turned_over(checks, random, &pairs);
    ends(checks, random, &pairs);
    overlaps(checks, random, &pairs);
    planar_starts(checks, random);
    limits(checks, random);
    flat_pitches(checks, random, &pairs);
    let count = if all { 40 } else { 1 };
    for (from, to) in &pairs {
        for _ in 0..200 * count {
            let mut call = ConvertCall::cancelling(random, from, to);
            checks.convert_region(&call);
            call.damage(random);
            checks.convert_region(&call);
        }
    }
    for _ in 0..100_000 * count {
        let mut call = ConvertCall::any(random, &pairs).turned(random);
        if random.one_in(3) {
            call.set = Some(any_set(random));
        }
        for _ in 0..random.below(4) {
            call.damage(random);
        }
        checks.convert_region(&call);
    }
}

/// Pictures of padded rows, turned over and back, by the original's numbers and by another set.
fn turned_over(checks: &mut Checks, random: &mut XorShift, pairs: &[Pair]) {
    for (from, to) in pairs {
        for width in (1..=6).chain([63, 64, 65, 130]) {
            let extent = [width, 3, 1];
            let mut call = ConvertCall::accepted_at(random, from, to, [0; 4], extent);
            let region = &call.region;
            let whole_rows = |side: &Side| side.pitch as usize * region.height as usize;
            if from.kind != Kind::PlanarYuv {
                call.src = texel_bytes(random, from, whole_rows(&region.source));
            }
            call.dst = random_bytes(random, whole_rows(&region.destination));
            checks.turned_over(&call);
            call.set = Some(BT709);
            checks.turned_over(&call);
        }
    }
}

/// The source's side or the destination's.
const fn side(region: &mut Region, of_source: bool) -> &mut Side {
    if of_source {
        &mut region.source
    } else {
        &mut region.destination
    }
}

/// Pictures whose lowest texel starts so many bytes below byte 0, at it or above it, and whose highest
/// one ends so many bytes before the end of the buffer, at it or past it: one byte, or all but one byte
/// of a texel.
fn ends(checks: &mut Checks, random: &mut XorShift, pairs: &[Pair]) {
    for (from, to) in pairs {
        for extent in [[1, 1, 1], [2, 2, 1], [3, 3, 2], [65, 2, 1]] {
            let call = ConvertCall::accepted(random, from, to, extent).turned(random);
            for (of_source, format) in [(true, from), (false, to)] {
                let [source, destination] = call.conversion().lowest().expect("texels");
                let lowest = if of_source { source } else { destination };
                let bytes = format.bytes as i64;
                for low in [-bytes, 1 - bytes, -1, 0, 1, bytes - 1] {
                    let mut region = call.region;
                    let start = &mut side(&mut region, of_source).start;
                    *start = start.wrapping_sub(lowest as u64).wrapping_add_signed(low);
                    let exact = ConvertCall::exact(random, from, to, region);
                    for high in [-1, 0, 1, bytes - 1] {
                        let mut call = exact.clone();
                        let buffer = if of_source {
                            &mut call.src
                        } else {
                            &mut call.dst
                        };
                        buffer.resize(buffer.len().saturating_add_signed(high as isize), 0);
                        checks.convert_region(&call);
                    }
                }
            }
        }
    }
}

/// Rows that overlap, forwards and backwards, and lie in one place; among them macropixels two and six
/// bytes apart.
fn overlaps(checks: &mut Checks, random: &mut XorShift, pairs: &[Pair]) {
    for (from, to) in pairs {
        for pitch in [-1, -2, -3, -4, -6, -17, 0, 2, 6] {
            for of_source in [true, false] {
                if of_source && from.kind == Kind::PlanarYuv {
                    continue;
                }
                let extent = [5, 4, 2];
                let mut region = ConvertCall::accepted(random, from, to, extent).region;
                let (y, height) = (side(&mut region, of_source).y, region.height);
                let side = side(&mut region, of_source);
                side.start = random.below(3);
                side.pitch = pitch;
                if pitch < 0 {
                    side.start += u64::from(y + height - 1) * pitch.unsigned_abs();
                }
                if random.one_in(2) {
                    side.slice_pitch = random.below(9) as usize;
                }
                checks.convert_region(&ConvertCall::exact(random, from, to, region));
            }
        }
    }
}

/// Planar frames with a start, whose last V, or in YV12 U, is the buffer's last byte, one past it, or
/// one before it; the same with a pitch that is not above 0.
fn planar_starts(checks: &mut Checks, random: &mut XorShift) {
    for (format, odd_rows) in [(NV12, 1), (YV12, 0)] {
        let from = rules::find(format).expect("a planar format");
        for start in [1, 2, 3, 15, u64::MAX - 15, u64::MAX] {
            for rows in [2, 4 + odd_rows] {
                let frame = Side {
                    start,
                    pitch: 4,
                    slice_pitch: 4 * rows as usize,
                    ..Side::default()
                };
                let screen = Side {
                    pitch: 16,
                    ..Side::default()
                };
                let mut region = Region {
                    source: frame,
                    destination: screen,
                    ..Region::new(4, rows)
                };
                let call = ConvertCall::exact(random, from, named("A8R8G8B8"), region);
                checks.convert_region(&call);
                for lengths in 0..3 {
                    let mut call = call.clone();
                    call.src
                        .resize((call.src.len() + lengths).saturating_sub(1), 0);
                    checks.convert_region(&call);
                }
                for pitch in [0, -2, -4, i64::MIN] {
                    region.source.pitch = pitch;
                    checks.convert_region(&ConvertCall {
                        region,
                        ..call.clone()
                    });
                }
            }
        }
    }
}

/// Starts and pitches at the limits of 64 bits with rows and columns at those of 32, on either side.
fn limits(checks: &mut Checks, random: &mut XorShift) {
    let of_rows = [0, 1, 2, 3, 1 << 24, u32::MAX - 1, u32::MAX];
    // -2^40 and the last 16 bytes of 2^64 too
    let edges = [&EDGES64[..], &[u64::MAX << 40, u64::MAX - 15]].concat();
    for (from, to) in [("A8", "A8"), ("UYVY", "L8"), ("A8R8G8B8", "R8G8B8")] {
        let call = ConvertCall::accepted(random, named(from), named(to), [1, 1, 1]);
        for &start in &edges {
            for &pitch in &edges {
                for y in of_rows {
                    for (x, height) in [(0, 1), (1, 1), (0, 2), (u32::MAX, 1)] {
                        for of_source in [true, false] {
                            let mut call = call.clone();
                            call.region.height = height;
                            let side = side(&mut call.region, of_source);
                            (side.start, side.pitch) = (start, pitch as i64);
                            (side.x, side.y) = (x, y);
                            checks.convert_region(&call);
                        }
                    }
                }
            }
        }
    }
}

/// Flat regions with pitches that no side has.
fn flat_pitches(checks: &mut Checks, random: &mut XorShift, pairs: &[Pair]) {
    for (from, to) in pairs {
        for _ in 0..100 {
            let extent = [1 + random.below(3) as u32, 1, 1 + random.below(2) as u32];
            let mut call = ConvertCall::accepted(random, from, to, extent);
            let region = flat(&call.region);
            for _ in 0..random.below(3) {
                call.damage(random);
            }
            call.set = random.one_in(3).then(|| any_set(random));
            let any = |random: &mut XorShift| any64(random) as usize | 1 << 63;
            let mut flat = FlatRegion {
                src_pitch: any(random),
                ..region
            };
            if random.one_in(2) {
                flat.dst_pitch = any(random);
            }
            match random.below(4) {
                0 => flat.src_slice_pitch = flat.src_pitch,
                1 => flat.src_slice_pitch = any64(random) as usize,
                2 => flat.src_slice_pitch = 0,
                _ => (),
            }
            match random.below(4) {
                0 => (flat.src_y, flat.dst_y) = (0, 0),
                1 => flat.src_y = 0,
                2 => (flat.src_y, flat.height) = (0, 2),
                _ => (),
            }
            checks.convert_flat(&call, &flat);
        }
    }
}
