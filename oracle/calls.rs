//! Calls for the comparison and the fuzzer: accepted conversions and depth transfers with random
//! sizes, pitches and bytes, and ways to damage them; sets of YUV numbers, legal and not.
#![allow(dead_code)]

use std::array;

use crate::{
    common::{Planes, Region, Side, XorShift, YuvSet, random_bytes, random_units, whole_frame},
    rules::{self, AnyRegion, Conversion, FORMATS, Format, Kind, Texel, Transfer},
};

/// A conversion with its buffers, by the call that takes a set of YUV numbers or by the one that
/// takes none.
#[derive(Clone)]
pub struct ConvertCall {
    pub dst_format: u32,
    pub dst: Vec<u8>,
    pub src_format: u32,
    pub src: Vec<u8>,
    pub region: Region,
    pub set: Option<YuvSet>,
}

/// A depth transfer with its buffers, to unpack or to pack.
#[derive(Clone)]
pub struct DepthCall {
    pub format: u32,
    pub planes: Planes,
    pub packed: Vec<u8>,
    pub packed_pitch: usize,
    pub depth: Vec<u8>,
    pub stencil: Vec<u8>,
}

/// A source and a destination.
pub type Pair = (&'static Format, &'static Format);

/// The pairs of formats that convert, source first.
pub fn pairs() -> Vec<Pair> {
    FORMATS
        .iter()
        .flat_map(|from| FORMATS.iter().map(move |to| (from, to)))
        .filter(|(from, to)| rules::can_convert(from.code, to.code))
        .collect()
}

/// Those of them whose source is YUV.
pub fn yuv_pairs() -> Vec<Pair> {
    let is_yuv = |(from, _): &Pair| rules::is_yuv(from.code);
    pairs().into_iter().filter(is_yuv).collect()
}

/// The least bytes of a row of `texels`.
pub fn row_bytes(format: &Format, texels: usize) -> usize {
    match format.kind {
        Kind::PackedYuv => texels.div_ceil(2) * 4,
        Kind::PlanarYuv => texels.next_multiple_of(2),
        Kind::Rgb | Kind::Wide | Kind::Still => texels * format.bytes,
    }
}

/// Random bytes of a format, a part of them near the places where a binary32 channel changes.
pub fn texel_bytes(random: &mut XorShift, format: &Format, length: usize) -> Vec<u8> {
    if format.name != "A32B32G32R32F" || random.one_in(3) {
        return random_bytes(random, length);
    }
    let mut bytes = if random.one_in(2) {
        random_units(random, length.div_ceil(4))
    } else {
        let channel = |_| near_tie(random, 255).to_le_bytes();
        (0..length.div_ceil(4)).flat_map(channel).collect()
    };
    bytes.truncate(length);
    bytes
}

/// The bits of a binary32 number at most three steps from half a code of `0..=max`.
pub fn near_tie(random: &mut XorShift, max: u32) -> u32 {
    let code = random.below(u64::from(max)) as u32;
    tie(code, max)
        .wrapping_add(random.below(7) as u32)
        .wrapping_sub(3)
}

/// The bits of the binary32 number nearest to (code + 1/2) / max.
pub fn tie(code: u32, max: u32) -> u32 {
    (((f64::from(code) + 0.5) / f64::from(max)) as f32).to_bits()
}

impl ConvertCall {
    /// The texels of the region, by slice, row and column.
    pub fn texels(&self) -> impl Iterator<Item = Texel> + use<> {
        AnyRegion::from(&self.region).texels()
    }

    pub fn conversion(&self) -> Conversion {
        Conversion {
            dst_format: self.dst_format,
            dst_length: self.dst.len(),
            src_format: self.src_format,
            src_length: self.src.len(),
            region: (&self.region).into(),
            set: self.set.unwrap_or(rules::BT601),
        }
    }

    /// The name of the call that takes it.
    pub const fn name(&self) -> &'static str {
        match self.set {
            Some(_) => "convert_region_with_set",
            None => "convert_region",
        }
    }

    /// The set by which the source is read, if it is YUV and the call takes one.
    pub fn set_in_use(&self) -> Option<YuvSet> {
        self.set.filter(|_| rules::is_yuv(self.src_format))
    }

    /// A frame of these source bytes, `width` texels a row, without padding.
    pub fn frame(from: &Format, to: &Format, width: usize, src: Vec<u8>) -> Self {
        let src_pitch = row_bytes(from, width);
        let (dst_pitch, height) = (width * to.bytes, src.len() / src_pitch);
        Self {
            dst_format: to.code,
            dst: vec![0x5a; dst_pitch * height],
            src_format: from.code,
            src,
            region: whole_frame(width as u32, height as u32, src_pitch, dst_pitch),
            set: None,
        }
    }

    /// A conversion with buffers of the least lengths; empty ones where none would do.
    pub fn exact(random: &mut XorShift, from: &Format, to: &Format, region: Region) -> Self {
        let mut call = Self {
            dst_format: to.code,
            dst: Vec::new(),
            src_format: from.code,
            src: Vec::new(),
            region,
            set: None,
        };
        if let Some((src, dst)) = call.conversion().least_lengths() {
            call.src = texel_bytes(random, from, capped(src));
            call.dst = random_bytes(random, capped(dst));
        }
        call
    }

    /// An accepted conversion of an extent, with random origins and padding.
    pub fn accepted(random: &mut XorShift, from: &Format, to: &Format, extent: [u32; 3]) -> Self {
        let origins = [0; 4].map(|_| random.pick(&[0, 0, 1, 2, 3]));
        Self::accepted_at(random, from, to, origins, extent)
    }

    /// The same from and to given columns and rows: the source's, then the destination's.
    pub fn accepted_at(
        random: &mut XorShift,
        from: &Format,
        to: &Format,
        [src_x, src_y, dst_x, dst_y]: [u32; 4],
        [width, height, depth]: [u32; 3],
    ) -> Self {
        let src_pitch = row_bytes(from, (src_x + width) as usize) + padding(random, from);
        let dst_pitch = row_bytes(to, (dst_x + width) as usize) + padding(random, to);
        let src_rows = (src_y + height) as usize;
        let dst_rows = (dst_y + height) as usize;
        let source = Side {
            start: 0,
            pitch: src_pitch as i64,
            slice_pitch: src_slice_pitch(random, from, src_pitch, src_rows),
            x: src_x,
            y: src_y,
        };
        let destination = Side {
            start: 0,
            pitch: dst_pitch as i64,
            slice_pitch: dst_pitch * dst_rows + padding(random, to),
            x: dst_x,
            y: dst_y,
        };
        let depth = match from.kind {
            Kind::PlanarYuv => 1,
            _ => depth as usize,
        };
        let region = Region {
            source,
            destination,
            depth,
            width,
            height,
        };
        Self::exact(random, from, to, region)
    }

    /// An accepted conversion of a small random extent between two random formats.
    pub fn any(random: &mut XorShift, pairs: &[Pair]) -> Self {
        let (from, to) = random.pick(pairs);
        let width = 1 + random.below(9) as u32;
        let height = 1 + random.below(4) as u32;
        let depth = random.pick(&[1, 1, 1, 2, 3]);
        Self::accepted(random, from, to, [width, height, depth])
    }

    /// The same region of pictures that lie otherwise: each side has a start, and is stored bottom row
    /// first once in two times, but for a planar source. Buffers have the least lengths.
    pub fn turned(&self, random: &mut XorShift) -> Self {
        let of = |code| rules::find(code).expect("a format that converts");
        let (from, to, mut region) = (of(self.src_format), of(self.dst_format), self.region);
        for (side, may_turn) in [
            (&mut region.source, from.kind != Kind::PlanarYuv),
            (&mut region.destination, true),
        ] {
            side.start = random.pick(&[0, 0, 1, 2, 3, 15]);
            if may_turn && random.one_in(2) {
                let last = u64::from(side.y) + u64::from(region.height) - 1;
                side.start += last * side.pitch as u64;
                side.pitch = -side.pitch;
            }
        }
        let turned = Self::exact(random, from, to, region);
        Self {
            set: self.set,
            ..turned
        }
    }

    /// A conversion of one row, mostly an accepted one, that on one side has a start and so many rows to
    /// go back that a few bytes are left of it. A planar source is none of these sides.
    pub fn cancelling(random: &mut XorShift, from: &Format, to: &Format) -> Self {
        let width = 1 + random.below(3) as u32;
        let mut region = Self::accepted(random, from, to, [width, 1, 1]).region;
        let of_source = from.kind != Kind::PlanarYuv && random.one_in(2);
        let (side, format) = if of_source {
            (&mut region.source, from)
        } else {
            (&mut region.destination, to)
        };
        let bits = random.below(64);
        side.pitch = -1 << bits;
        // rows up to those that go back 2^64 bytes or little more
        side.y = any32(random) & (u64::MAX >> bits) as u32;
        side.y = side.y.saturating_add(random.below(2) as u32);
        let first = (u128::from(side.y) << bits) + u128::from(random.below(4));
        // a column so far that rows must go back to it, or one at hand
        side.x = random.pick(&[0, 1, 2, 3, 1 << 20, u32::MAX - 3]);
        if u128::from(side.x) * 16 > first {
            side.x %= 4;
        }
        let in_row = match format.kind {
            Kind::PackedYuv => u128::from(side.x / 2) * 4,
            _ => u128::from(side.x) * format.bytes as u128,
        };
        let start = first.saturating_sub(in_row);
        side.start = u64::try_from(start).unwrap_or(u64::MAX);
        Self::exact(random, from, to, region)
    }

    /// Changes one length, pitch, start, code or size.
    pub fn damage(&mut self, random: &mut XorShift) {
        let region = &mut self.region;
        match random.below(18) {
            0 | 1 => resize(&mut self.src, random),
            2 | 3 => resize(&mut self.dst, random),
            4 => self.src_format = any_code(random),
            5 => self.dst_format = any_code(random),
            6 => change32(&mut region.source.x, random),
            7 => change32(&mut region.source.y, random),
            8 => change32(&mut region.destination.x, random),
            9 => change32(&mut region.destination.y, random),
            10 => change32(&mut region.width, random),
            11 => change32(&mut region.height, random),
            12 => change64(&mut region.depth, random),
            13 if random.one_in(2) => change_pitch(&mut region.source.pitch, random),
            13 => change_pitch(&mut region.destination.pitch, random),
            14 => change_start(&mut region.source.start, random),
            15 => change_start(&mut region.destination.start, random),
            16 => change64(&mut region.source.slice_pitch, random),
            _ => change64(&mut region.destination.slice_pitch, random),
        }
    }
}

/// Changes of an accepted conversion, after which it has no texel or, with some sources, a refusal;
/// the first changes nothing.
pub const CHANGES: [fn(&mut ConvertCall); 10] = [
    |_| (),
    |call| call.region.width = 0,
    |call| call.region.height = 0,
    |call| call.region.depth = 0,
    |call| call.region.depth += 1,
    |call| call.region.source.pitch = 0,
    |call| call.region.source.slice_pitch += 1,
    |call| call.dst_format = rules::NV12,
    |call| call.src.truncate(call.src.len() - 1),
    |call| call.dst.truncate(call.dst.len() - 1),
];

/// A legal set whose numbers are those of a named one, ends of their ranges, and any inside.
pub fn legal_set(random: &mut XorShift) -> YuvSet {
    let mut numbers = rules::numbers(&random.pick(&NAMED));
    for (number, [least, most]) in numbers.iter_mut().zip(rules::LEGAL) {
        match random.below(4) {
            0 => *number = random.pick(&[least, most]),
            1 => (),
            _ => *number = least + random.below(u64::from(most - least) + 1) as u32,
        }
    }
    rules::set(numbers)
}

/// The sets that have names.
const NAMED: [YuvSet; 2] = [rules::BT601, rules::BT709];

/// A named set or another legal one, and once in three times up to three of its numbers changed.
pub fn any_set(random: &mut XorShift) -> YuvSet {
    let set = if random.one_in(2) {
        random.pick(&NAMED)
    } else {
        legal_set(random)
    };
    let mut numbers = rules::numbers(&set);
    if random.one_in(3) {
        for _ in 0..1 + random.below(3) {
            let place = random.below(7) as usize;
            let [least, most] = rules::LEGAL[place];
            numbers[place] = match random.below(4) {
                0 => least.wrapping_sub(1),
                1 => most + 1,
                _ => any32(random),
            };
        }
    }
    rules::set(numbers)
}

/// Every set whose numbers are ends of their ranges.
pub fn corner_sets() -> impl Iterator<Item = YuvSet> {
    (0..1 << rules::LEGAL.len()).map(|corner: usize| {
        let end = |place: usize| rules::LEGAL[place][corner >> place & 1];
        rules::set(array::from_fn(end))
    })
}

/// Legal sets with numbers at the ends of their ranges: each number at each end, then all of them.
pub fn sets_at_ends(random: &mut XorShift) -> Vec<YuvSet> {
    let mut sets = sets_with(random, |range| range.to_vec());
    sets.extend([0, 1].map(|end| rules::set(rules::LEGAL.map(|range| range[end]))));
    sets
}

/// Sets with one illegal number: for each place those next to its range, and the greatest of all.
pub fn sets_outside(random: &mut XorShift) -> Vec<YuvSet> {
    sets_with(random, |[least, most]| {
        let below = least.checked_sub(1).into_iter();
        below.chain([most + 1, u32::MAX]).collect()
    })
}

/// Legal sets, one number of each replaced: in every place by each that `others` has for its range.
fn sets_with(random: &mut XorShift, others: fn([u32; 2]) -> Vec<u32>) -> Vec<YuvSet> {
    let mut sets = Vec::new();
    for (place, range) in rules::LEGAL.into_iter().enumerate() {
        for other in others(range) {
            let mut numbers = rules::numbers(&legal_set(random));
            numbers[place] = other;
            sets.push(rules::set(numbers));
        }
    }
    sets
}

/// The pitch of a source slice of at least `rows` rows: of a planar source its luma rows, which
/// are even in YV12.
fn src_slice_pitch(random: &mut XorShift, from: &Format, pitch: usize, rows: usize) -> usize {
    let luma_rows = rows + random.pick(&[0, 0, 1, 2]);
    match from.code {
        rules::YV12 => pitch * luma_rows.next_multiple_of(2),
        rules::NV12 => pitch * luma_rows,
        _ => pitch * rows + padding(random, from),
    }
}

/// Padding of a row or slice, even for a planar row.
fn padding(random: &mut XorShift, format: &Format) -> usize {
    match format.kind {
        Kind::PlanarYuv => random.pick(&[0, 0, 2, 6]),
        _ => random.pick(&[0, 0, 1, 4, 7]),
    }
}

/// The length of a buffer to make; none is made beyond a gigabyte.
fn capped(length: u128) -> usize {
    const LONGEST: u128 = 1 << 30;
    if length <= LONGEST {
        length as usize
    } else {
        0
    }
}

/// The packed depth formats and their greatest codes.
pub const DEPTHS: [(u32, u32); 3] = [
    (rules::D16, 0xffff),
    (rules::D24X8, 0xff_ffff),
    (rules::D24S8, 0xff_ffff),
];

impl DepthCall {
    pub fn transfer(&self) -> Transfer {
        Transfer {
            format: self.format,
            planes: self.planes,
            packed_length: self.packed.len(),
            packed_pitch: self.packed_pitch,
            depth_length: self.depth.len(),
            stencil_length: self.stencil.len(),
        }
    }

    /// An accepted transfer of a size, with random padding. A format without stencil has a
    /// stencil plane of any length.
    pub fn accepted(random: &mut XorShift, format: u32, width: usize, height: usize) -> Self {
        let row = width * rules::packed_bytes(format).expect("a packed depth format");
        let mut padding = || random.pick(&[0, 0, 1, 2, 4, 9]);
        let planes = Planes {
            width,
            height,
            depth_pitch: 4 * width + padding(),
            stencil_pitch: width + padding(),
        };
        let packed_pitch = row + padding();
        let packed = (height - 1) * packed_pitch + row + padding();
        let depth = planes.depth_pitch * height + padding();
        let stencil = if format == rules::D24S8 || padding() > 0 {
            planes.stencil_pitch * height + padding()
        } else {
            padding()
        };
        Self {
            format,
            planes,
            packed: random_bytes(random, packed),
            packed_pitch,
            depth: depth_bytes(random, &planes, depth),
            stencil: random_bytes(random, stencil),
        }
    }

    /// An accepted transfer of a small random size in a random format.
    pub fn any(random: &mut XorShift) -> Self {
        let (format, _) = random.pick(&DEPTHS);
        let width = 1 + random.below(9) as usize;
        let height = 1 + random.below(5) as usize;
        Self::accepted(random, format, width, height)
    }

    /// Changes one length, pitch, code or size.
    pub fn damage(&mut self, random: &mut XorShift) {
        match random.below(10) {
            0 | 1 => resize(&mut self.packed, random),
            2 => resize(&mut self.depth, random),
            3 => resize(&mut self.stencil, random),
            4 => self.format = any_code(random),
            5 => change64(&mut self.planes.width, random),
            6 => change64(&mut self.planes.height, random),
            7 => change64(&mut self.planes.depth_pitch, random),
            8 => change64(&mut self.planes.stencil_pitch, random),
            _ => change64(&mut self.packed_pitch, random),
        }
    }
}

/// A depth plane whose pixels are of every class of binary32 numbers.
fn depth_bytes(random: &mut XorShift, planes: &Planes, length: usize) -> Vec<u8> {
    let mut bytes = random_bytes(random, length);
    for y in 0..planes.height {
        for x in 0..planes.width {
            let at = y * planes.depth_pitch + x * 4;
            bytes[at..at + 4].copy_from_slice(&depth_bits(random).to_le_bytes());
        }
    }
    bytes
}

/// The bits of a depth: a number from 0 to 1, one near half a code, an edge, or any bits.
fn depth_bits(random: &mut XorShift) -> u32 {
    match random.below(8) {
        0 | 1 => random.next_unit().to_bits(),
        2 | 3 => near_tie(random, 0xffff),
        4 | 5 => near_tie(random, 0xff_ffff),
        6 => random.pick(&MAGNITUDES) | random.pick(&[0, 0x8000_0000]),
        _ => random.next_u32(),
    }
}

/// Magnitudes of binary32 numbers, as bits: the classes of IEEE 754 and their ends, and some that
/// every rounding meets.
pub const CLASSES: [u32; 20] = [
    0x0000_0000, // zero
    0x0000_0001, // the least subnormal
    0x0000_0002,
    0x0040_0000,
    0x007f_ffff, // the greatest subnormal
    0x0080_0000, // the least normal
    0x0080_0001,
    0x3300_0000, // 2^-25
    0x3380_0000, // 2^-24
    0x3b00_0000, // 2^-9
    0x3f00_0000, // 0.5
    0x3f7f_ffff, // the greatest below 1
    0x3f80_0000, // 1
    0x3f80_0001, // the least above 1
    0x7f7f_ffff, // the greatest finite number
    0x7f80_0000, // infinity
    0x7f80_0001, // signalling NaN with the least payload
    0x7fbf_ffff, // signalling NaN with the greatest payload
    0x7fc0_0000, // quiet NaN with no payload
    0x7fff_ffff, // quiet NaN with the greatest payload
];

/// Magnitudes at which something changes; each has two signs.
pub const MAGNITUDES: [u32; 28] = merged(
    &CLASSES,
    &[
        0x32ff_ffff,
        0x3300_0001,
        0x337f_ffff,
        0x3380_0001,
        0x3eff_ffff,
        0x3f00_0001,
        0x477f_efff, // the greatest below 65520
        0x477f_f000, // 65520
    ],
);

/// Two ascending lists as one.
pub const fn merged<const N: usize>(a: &[u32], b: &[u32]) -> [u32; N] {
    let mut all = [0; N];
    let (mut i, mut j) = (0, 0);
    while i < a.len() || j < b.len() {
        let from_a = j == b.len() || i < a.len() && a[i] < b[j];
        all[i + j] = if from_a { a[i] } else { b[j] };
        if from_a { i += 1 } else { j += 1 }
    }
    assert!(i + j == N, "a list of another length");
    all
}

/// Each magnitude with either sign.
pub fn both_signs(magnitudes: &[u32]) -> Vec<u32> {
    let signs = |it: &u32| [*it, it | 0x8000_0000];
    magnitudes.iter().flat_map(signs).collect()
}

/// Numbers of 32 bits at which sums, layouts or textures reach a limit.
pub const EDGES32: [u32; 16] = [
    0,
    1,
    2,
    3,
    8191,
    8192,
    10922,
    10923,
    16383,
    16384,
    16385,
    0x7fff_ffff,
    0x8000_0000,
    0xffff_fff0,
    0xffff_fffe,
    0xffff_ffff,
];

/// Numbers of 64 bits at which offsets reach a limit; small multiples of some wrap to small ones. Those
/// from 2^63 on are negative pitches too.
pub const EDGES64: [u64; 20] = [
    0,
    1,
    2,
    3,
    4,
    0x7fff_ffff,
    0xffff_ffff,
    0x1_0000_0000,
    0x1_0000_0001,
    0x1_0000_0000_0000,
    0x4000_0000_0000_0000,
    0x5555_5555_5555_5555,
    0x5555_5555_5555_5556,
    0x7fff_ffff_ffff_ffff,
    0x8000_0000_0000_0000,
    0x8000_0000_0000_0001,
    0xaaaa_aaaa_aaaa_aaab,
    0xffff_ffff_0000_0000,
    0xffff_ffff_ffff_fffe,
    0xffff_ffff_ffff_ffff,
];

/// An edge, or a random number of a random count of bits.
pub fn any32(random: &mut XorShift) -> u32 {
    if random.one_in(2) {
        random.pick(&EDGES32)
    } else {
        random.next_u32() >> random.below(32)
    }
}

/// An edge, or a random number of a random count of bits.
pub fn any64(random: &mut XorShift) -> u64 {
    if random.one_in(2) {
        random.pick(&EDGES64)
    } else {
        random.next_u64() >> random.below(64)
    }
}

/// A code of a colour or depth format, one from 0 to 300, or any number.
pub fn any_code(random: &mut XorShift) -> u32 {
    match random.below(8) {
        0..4 => random.pick(&FORMATS).code,
        4 => random.pick(&DEPTHS).0,
        5 | 6 => random.below(301) as u32,
        _ => random.next_u32(),
    }
}

/// Codes 0 to 300 and the four-letter ones.
pub fn listed_codes() -> Vec<u32> {
    let letters = FORMATS.iter().map(|it| it.code).filter(|it| *it > 300);
    (0..=300).chain(letters).collect()
}

pub fn change32(number: &mut u32, random: &mut XorShift) {
    *number = match random.below(6) {
        0 => number.wrapping_add(1),
        1 => number.wrapping_sub(1),
        2 => *number / 2,
        3 => number.wrapping_mul(2),
        _ => any32(random),
    };
}

pub fn change64(number: &mut usize, random: &mut XorShift) {
    *number = match random.below(6) {
        0 => number.wrapping_add(1),
        1 => number.wrapping_sub(1),
        2 => *number / 2,
        3 => number.wrapping_mul(2),
        _ => any64(random) as usize,
    };
}

/// The same of a start.
pub fn change_start(start: &mut u64, random: &mut XorShift) {
    let mut number = *start as usize;
    change64(&mut number, random);
    *start = number as u64;
}

/// The same of a pitch, which may get the other sign.
pub fn change_pitch(pitch: &mut i64, random: &mut XorShift) {
    if random.one_in(6) {
        *pitch = pitch.wrapping_neg();
        return;
    }
    let mut number = *pitch as usize;
    change64(&mut number, random);
    *pitch = number as i64;
}

/// Makes a buffer shorter or longer, mostly by one byte.
pub fn resize(bytes: &mut Vec<u8>, random: &mut XorShift) {
    let length = bytes.len();
    let new = match random.below(8) {
        0..4 => length.saturating_sub(1),
        4 => length + 1,
        5 => 0,
        6 => random.below(length as u64 + 1) as usize,
        _ => length + 1 + random.below(40) as usize,
    };
    bytes.resize(new, random.next_u32() as u8);
}
