//! Conversions: every pair of formats, every kind of region and buffer, every texel of the
//! narrow formats and every code of the others.

use crate::{
    calls::{
        ConvertCall, EDGES64, MAGNITUDES, Pair, any_code, any32, any64, both_signs, listed_codes,
        pairs, texel_bytes, tie, yuv_pairs,
    },
    checks::{Checks, spread},
    common::{Region, Side, XorShift, flat, random_bytes, whole_frame},
    rules::{self, FORMATS, Format, Kind, NV12, YV12, named},
};

pub fn run(checks: &mut Checks, random: &mut XorShift, all: bool) {
    let pairs = pairs();
    codes(checks, random);
    every_pair(random, &pairs, |call| checks.convert_region(&call));
    yuv_rows(random, |call| checks.convert_region(&call));
    limits(checks, random);
    endless(checks, random);
    planar_limits(checks, random);
    let count = if all { 20_000_000 } else { 1_500_000 };
    damaged(random, &pairs, count, |call| checks.convert_region(&call));
    narrow_texels(checks, random);
    luminances(checks);
    wide_texels(checks, random);
    still_texels(checks, random);
    if all {
        every_yuv(checks, random);
        every_binary32(checks);
        largest_planar(checks, random);
    }
}

fn destinations() -> impl Iterator<Item = &'static Format> {
    FORMATS.iter().filter(|format| format.kind == Kind::Rgb)
}

/// What every pair meets: buffers around the least lengths, widths, empty regions, overlaps.
pub fn every_pair(random: &mut XorShift, pairs: &[Pair], mut check: impl FnMut(ConvertCall)) {
    for cases in [buffer_ends, widths, empty_regions, overlaps] {
        cases(random, pairs, &mut check);
    }
}

/// Every listed code with every other, and random ones, on buffers that would do for each.
fn codes(checks: &mut Checks, random: &mut XorShift) {
    let listed = listed_codes();
    let (src, dst) = (random_bytes(random, 96), random_bytes(random, 64));
    let mut check = |src_format, dst_format| {
        checks.can_convert(src_format, dst_format);
        checks.convert_region(&ConvertCall {
            dst_format,
            dst: dst.clone(),
            src_format,
            src: src.clone(),
            region: whole_frame(2, 2, 32, 32),
            set: None,
        });
    };
    for &src_format in &listed {
        for &dst_format in &listed {
            check(src_format, dst_format);
        }
    }
    for _ in 0..20_000 {
        check(any_code(random), any_code(random));
    }
}

/// Buffers one byte short, exact, and one byte long.
fn buffer_ends(random: &mut XorShift, pairs: &[Pair], check: &mut dyn FnMut(ConvertCall)) {
    const EXTENTS: [[u32; 3]; 14] = [
        [1, 1, 1],
        [64, 1, 1],
        [65, 2, 1],
        [2, 1, 1],
        [1, 2, 1],
        [3, 2, 1],
        [4, 3, 1],
        [5, 4, 1],
        [3, 2, 2],
        [2, 3, 3],
        [7, 1, 1],
        [1, 7, 1],
        [8, 2, 1],
        [33, 3, 1],
    ];
    for (from, to) in pairs {
        for extent in EXTENTS {
            let exact = ConvertCall::accepted(random, from, to, extent);
            for lengths in 0..9 {
                let mut call = exact.clone();
                call.src.resize(exact.src.len() + lengths / 3 - 1, 0);
                call.dst.resize(exact.dst.len() + lengths % 3 - 1, 0);
                check(call);
            }
        }
    }
}

/// Every width to 70 and those around further multiples of 64, which is how many texels the port
/// takes at a time, then larger frames.
fn widths(random: &mut XorShift, pairs: &[Pair], check: &mut dyn FnMut(ConvertCall)) {
    for (from, to) in pairs {
        for width in (1..=70).chain(126..=130).chain(190..=194) {
            let height = 1 + random.below(4) as u32;
            check(ConvertCall::accepted(random, from, to, [width, height, 1]));
        }
        for extent in [[257, 130, 1], [64, 33, 3]] {
            check(ConvertCall::accepted(random, from, to, extent));
        }
    }
}

/// Regions that are empty in one direction or several, on buffers of any length, with any
/// origins, pitches and sizes otherwise.
fn empty_regions(random: &mut XorShift, pairs: &[Pair], check: &mut dyn FnMut(ConvertCall)) {
    for (from, to) in pairs {
        for zero in 1..8 {
            for _ in 0..8 {
                let mut call = ConvertCall::accepted(random, from, to, [3, 2, 1]);
                for _ in 0..random.below(4) {
                    call.damage(random);
                }
                let region = &mut call.region;
                if zero & 1 != 0 {
                    region.width = 0;
                }
                if zero & 2 != 0 {
                    region.height = 0;
                }
                if zero & 4 != 0 {
                    region.depth = 0;
                }
                check(call);
            }
        }
    }
}

/// Pitches narrower than rows, slice pitches smaller than slices, and 0, of either buffer.
fn overlaps(random: &mut XorShift, pairs: &[Pair], check: &mut dyn FnMut(ConvertCall)) {
    for (from, to) in pairs {
        for _ in 0..60 {
            let depth = random.below(4) as u32;
            let extent = [
                2 + random.below(6) as u32,
                2 + random.below(4) as u32,
                depth,
            ];
            let mut region = ConvertCall::accepted(random, from, to, extent).region;
            region.destination = close(random, region.destination);
            if from.kind != Kind::PlanarYuv {
                region.source = close(random, region.source);
            }
            check(ConvertCall::exact(random, from, to, region));
        }
    }
}

/// A side whose rows and slices overlap, two times of three each.
fn close(random: &mut XorShift, side: Side) -> Side {
    let mut shrunk = |size: usize| {
        if random.one_in(3) {
            size
        } else {
            random.below(size as u64 + 1) as usize
        }
    };
    Side {
        pitch: shrunk(side.pitch as usize) as i64,
        slice_pitch: shrunk(side.slice_pitch),
        ..side
    }
}

/// Rows of YUV from even and odd columns, of widths around those at which pairs of texels and blocks
/// of 64 end, in buffers of the least lengths and in a longer destination: rows and slices apart,
/// all rows in one place, rows and slices on one another, all slices in one place. A planar source
/// has one slice.
pub fn yuv_rows(random: &mut XorShift, mut check: impl FnMut(ConvertCall)) {
    for (from, to) in yuv_pairs() {
        for width in (1..=4).chain(63..=68).chain(127..=133) {
            for src_x in 0..4 {
                let [src_y, dst_x, dst_y] = [0; 3].map(|_| random.below(4) as u32);
                let origins = [src_x, src_y, dst_x, dst_y];
                let extent = [
                    width,
                    2 + random.below(2) as u32,
                    1 + random.below(3) as u32,
                ];
                let mut apart = ConvertCall::accepted_at(random, from, to, origins, extent);
                let region = apart.region;
                let close = random.below(u64::from(width) * to.bytes as u64) as usize;
                for (pitch, slice_pitch) in [
                    (0, region.destination.slice_pitch),
                    (close as i64, random.below(3 * close as u64 + 1) as usize),
                    (region.destination.pitch, 0),
                ] {
                    let region = Region {
                        destination: Side {
                            pitch,
                            slice_pitch,
                            ..region.destination
                        },
                        ..region
                    };
                    check(ConvertCall::exact(random, from, to, region));
                }
                check(apart.clone());
                apart.dst.extend(random_bytes(random, 9));
                check(apart);
            }
        }
    }
}

/// Pitches at the limits of 64 bits with rows at the limits of 32 bits, on either side.
fn limits(checks: &mut Checks, random: &mut XorShift) {
    for (from, to) in [
        ("A8", "A8"),
        ("A8R8G8B8", "R8G8B8"),
        ("UYVY", "L8"),
        ("A16B16G16R16", "A8R8G8B8"),
        ("G16R16", "A8R8G8B8"),
        ("NV12", "R5G6B5"),
    ] {
        let call = ConvertCall::accepted(random, named(from), named(to), [2, 2, 1]);
        for pitch in EDGES64 {
            for slice_pitch in EDGES64 {
                for row in [0, 1, 2, 3, u32::MAX - 1, u32::MAX] {
                    for depth in [1, 2, 3, u64::MAX] {
                        let numbers = [slice_pitch, depth].map(|it| it as usize);
                        limit(checks, &call, pitch, numbers, row);
                    }
                }
            }
        }
    }
    for column in [u32::MAX - 2, u32::MAX - 1, u32::MAX] {
        for (from, to) in pairs() {
            let mut call = ConvertCall::accepted(random, from, to, [2, 2, 1]);
            call.region.source.x = column;
            checks.convert_region(&call);
            call.region.destination.x = column;
            checks.convert_region(&call);
            call.region.source.x = 0;
            checks.convert_region(&call);
        }
    }
}

/// The pitch, the slice pitch and depth, and the row of the origin, for the source, for the
/// destination and for both: as a flat region, and where the pitch has 64 bits as a negative one too.
fn limit(
    checks: &mut Checks,
    call: &ConvertCall,
    pitch: u64,
    [slice_pitch, depth]: [usize; 2],
    row: u32,
) {
    for height in [1, 2] {
        for sides in 1..4 {
            let mut flat = flat(&call.region);
            (flat.height, flat.depth) = (height, depth);
            if sides & 1 != 0 {
                (flat.src_pitch, flat.src_slice_pitch, flat.src_y) =
                    (pitch as usize, slice_pitch, row);
            }
            if sides & 2 != 0 {
                (flat.dst_pitch, flat.dst_slice_pitch, flat.dst_y) =
                    (pitch as usize, slice_pitch, row);
            }
            checks.convert_flat(call, &flat);
            if pitch >> 63 != 0 {
                let mut call = call.clone();
                call.region = flat.into();
                for (side, of) in [
                    (&mut call.region.source, 1),
                    (&mut call.region.destination, 2),
                ] {
                    if sides & of != 0 {
                        (side.pitch, side.slice_pitch) = (pitch as i64, slice_pitch);
                    }
                }
                checks.convert_region(&call);
            }
        }
    }
}

/// Regions of too many texels to go through, refused or empty: the reply must come at once.
fn endless(checks: &mut Checks, random: &mut XorShift) {
    let (most, deepest) = (u32::MAX, usize::MAX);
    for extent in [
        (most, most, deepest),
        (1, most, 1),
        (1, 1, deepest),
        (most, 1, 1),
        (0, most, deepest),
        (1, 0, deepest),
        (0, most, 1),
    ] {
        for pitches in [[0, 0], [0, 1], [1, 0], [1, 1], [usize::MAX, usize::MAX]] {
            let mut call = ConvertCall::accepted(random, named("A8"), named("A8"), [1, 1, 1]);
            let region = &mut call.region;
            (region.width, region.height, region.depth) = extent;
            [region.source.slice_pitch, region.destination.slice_pitch] = pitches;
            [region.source.pitch, region.destination.pitch] = pitches.map(|it| it as i64);
            checks.convert_region(&call);
        }
    }
}

/// Layouts on both sides of every limit, texels in and beside their corners, and buffers that end
/// at the texel, one byte before and one after.
fn planar_limits(checks: &mut Checks, random: &mut XorShift) {
    let pitches = [1, 2, 3, 4, 6, 16382, 16383, 16384, 16385, 16386];
    let rows = [
        0, 1, 2, 3, 4, 5, 8192, 10920, 10921, 10922, 10923, 10924, 16384, 16386,
    ];
    for format in [NV12, YV12] {
        for pitch in pitches {
            for rows in rows {
                for x in [0, 1, pitch.max(2) - 2, pitch - 1, pitch] {
                    for y in [0, 1, rows.max(2) - 2, rows.max(1) - 1, rows] {
                        planar_limit(checks, random, format, [pitch, rows], [x, y]);
                    }
                }
            }
        }
    }
}

fn planar_limit(
    checks: &mut Checks,
    random: &mut XorShift,
    format: u32,
    [pitch, rows]: [usize; 2],
    [x, y]: [usize; 2],
) {
    let from = rules::find(format).expect("a planar format");
    let mut region = whole_frame(1, 1, pitch, 4);
    region.source.slice_pitch = pitch * rows;
    (region.source.x, region.source.y) = (x as u32, y as u32);
    let mut call = ConvertCall {
        dst_format: named("X8R8G8B8").code,
        dst: random_bytes(random, 4),
        src_format: format,
        src: Vec::new(),
        region,
        set: None,
    };
    let least = call.conversion().least_lengths();
    let whole = pitch * (rows + rows.div_ceil(2));
    let least = least.map_or(whole, |least| least.0 as usize);
    let least = least.clamp(1, 1 << 20);
    let bytes = texel_bytes(random, from, least + 1);
    for length in [least - 1, least, least + 1] {
        call.src = bytes[..length].to_vec();
        checks.convert_region(&call);
    }
}

/// Accepted conversions with up to three things changed, then some in which every number is any.
pub fn damaged(
    random: &mut XorShift,
    pairs: &[Pair],
    count: usize,
    mut check: impl FnMut(ConvertCall),
) {
    for _ in 0..count {
        let mut call = ConvertCall::any(random, pairs);
        for _ in 0..random.below(4) {
            call.damage(random);
        }
        check(call);
    }
    for _ in 0..count / 10 {
        check(any_numbers(random, pairs));
    }
}

/// A conversion in which every number of the region is any.
fn any_numbers(random: &mut XorShift, pairs: &[Pair]) -> ConvertCall {
    let mut call = ConvertCall::any(random, pairs);
    let mut side = || Side {
        start: if random.one_in(2) { 0 } else { any64(random) },
        pitch: any64(random) as i64,
        slice_pitch: any64(random) as usize,
        x: any32(random),
        y: any32(random),
    };
    call.region = Region {
        source: side(),
        destination: side(),
        depth: any64(random) as usize,
        width: any32(random),
        height: any32(random),
    };
    call
}

/// A frame of these source bytes, `width` texels a row, without padding.
fn frame(checks: &mut Checks, from: &Format, to: &Format, width: usize, src: Vec<u8>) {
    checks.convert_region(&ConvertCall::frame(from, to, width, src));
}

/// Every texel of 8 and of 16 bits, and every byte in each place of larger ones.
fn narrow_texels(checks: &mut Checks, random: &mut XorShift) {
    for (from, to) in pairs() {
        if from.kind == Kind::Rgb {
            let widths: &[u32] = match from.bytes {
                2 => &[16],
                bytes => &[8; 4][..bytes],
            };
            frame(checks, from, to, 256, every_code(random, from, widths));
        }
    }
}

/// Texels of at most 32 bits that have every code in each lane, beside random ones; the widths of
/// the lanes are given from the lowest bit up.
fn every_code(random: &mut XorShift, format: &Format, widths: &[u32]) -> Vec<u8> {
    let (mut texels, mut low) = (Vec::new(), 0);
    for width in widths {
        let lane = ((1 << width) - 1) << low;
        for code in 0..1 << width {
            let texel = random.next_u32() & !lane | code << low;
            texels.extend(&texel.to_le_bytes()[..format.bytes]);
        }
        low += width;
    }
    texels
}

/// Every colour to luminance.
fn luminances(checks: &mut Checks) {
    for to in ["L8", "A8L8"] {
        for red in (0..256_u32).step_by(16) {
            let colors = red << 16..(red + 16) << 16;
            let texel = |color: u32| (color | color << 24).to_le_bytes();
            let src = colors.flat_map(texel).collect();
            frame(checks, named("A8R8G8B8"), named(to), 1024, src);
        }
    }
}

/// Every 16-bit code and many binary32 patterns in each channel, beside random ones.
fn wide_texels(checks: &mut Checks, random: &mut XorShift) {
    let codes: Vec<[u8; 2]> = (0..=0xffff_u16).map(u16::to_le_bytes).collect();
    let patterns: Vec<[u8; 4]> = binary32s(random)
        .into_iter()
        .map(u32::to_le_bytes)
        .collect();
    for channel in 0..4 {
        let src = in_channel(random, &codes, channel);
        frame(checks, named("A16B16G16R16"), named("A8R8G8B8"), 256, src);
        let src = in_channel(random, &patterns, channel);
        frame(checks, named("A32B32G32R32F"), named("A8R8G8B8"), 1, src);
    }
}

/// Every code in each lane of the sources that the original refuses: all texels of those of 16 bits.
fn still_texels(checks: &mut Checks, random: &mut XorShift) {
    const WIDTHS: [(&str, &[u32]); 6] = [
        ("A2R10G10B10", &[10, 10, 10, 2]),
        ("A2B10G10R10", &[10, 10, 10, 2]),
        ("G16R16", &[16, 16]),
        ("L16", &[16]),
        ("V8U8", &[16]),
        ("Q8W8V8U8", &[8, 8, 8, 8]),
    ];
    let to = named("A8R8G8B8");
    for (from, widths) in WIDTHS.map(|(name, widths)| (named(name), widths)) {
        let src = every_code(random, from, widths);
        let texels = src.len() / from.bytes;
        checks.near(&ConvertCall::frame(from, to, texels, src.clone()));
        frame(checks, from, to, 4, src);
    }
}

/// Texels of four channels that have each code in one channel, and random ones in the others.
fn in_channel<const N: usize>(random: &mut XorShift, codes: &[[u8; N]], channel: usize) -> Vec<u8> {
    let mut texels = random_bytes(random, codes.len() * 4 * N);
    for (texel, code) in texels.chunks_exact_mut(4 * N).zip(codes) {
        texel[channel * N..(channel + 1) * N].copy_from_slice(code);
    }
    texels
}

/// Patterns around every byte's own value and every tie between two bytes, special ones of both
/// signs, and random ones.
fn binary32s(random: &mut XorShift) -> Vec<u32> {
    let ties = (0..255).map(|byte| tie(byte, 255));
    let exact = (1..=255_u8).map(|byte| (f64::from(byte) / 255.0) as f32);
    let centres = ties.chain(exact.map(f32::to_bits));
    let near = centres.flat_map(|bits| bits - 8..=bits + 8);
    let special = both_signs(&MAGNITUDES);
    let units: Vec<u32> = (0..5000).map(|_| random.next_unit().to_bits()).collect();
    let others = (0..5000).map(|_| random.next_u32());
    near.chain(special).chain(units).chain(others).collect()
}

/// Every YUV triple in packed macropixels, to every destination.
fn every_yuv(checks: &mut Checks, random: &mut XorShift) {
    let [yuy2, uyvy] = ["YUY2", "UYVY"].map(named);
    for luma in 0..=255_u8 {
        let other = random.next_u32() as u8;
        let to = named("A8B8G8R8");
        let first = every_chroma(|[u, v]| [luma, u, other, v]);
        let second = every_chroma(|[u, v]| [u, other, v, luma]);
        frame(checks, yuy2, to, 512, first);
        frame(checks, uyvy, to, 512, second);
    }
    let src = texel_bytes(random, yuy2, 1 << 22);
    for to in destinations() {
        frame(checks, yuy2, to, 2048, src.clone());
    }
}

/// The macropixels that are made of every U and V.
pub fn every_chroma(macropixel: impl Fn([u8; 2]) -> [u8; 4]) -> Vec<u8> {
    let chroma = (0..=0xffff_u16).map(u16::to_le_bytes);
    chroma.flat_map(macropixel).collect()
}

/// Every binary32 pattern, four to a texel.
fn every_binary32(checks: &mut Checks) {
    spread(checks, 1 << 10, |checks, high| {
        let patterns = (0..1 << 22).map(|low| high << 22 | low);
        let src = patterns.flat_map(u32::to_le_bytes).collect();
        frame(checks, named("A32B32G32R32F"), named("A8R8G8B8"), 1024, src);
    });
}

/// The last texel of the largest layout, with its last byte and without.
fn largest_planar(checks: &mut Checks, random: &mut XorShift) {
    for format in ["NV12", "YV12"] {
        let mut region = whole_frame(1, 1, 16384, 4);
        region.source.slice_pitch = 16384 * 10922;
        (region.source.x, region.source.y) = (16383, 10921);
        let (from, to) = (named(format), named("A8R8G8B8"));
        let mut call = ConvertCall::exact(random, from, to, region);
        checks.convert_region(&call);
        call.src.pop();
        checks.convert_region(&call);
    }
}
