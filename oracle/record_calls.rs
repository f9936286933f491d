//! Recorded answers for every public call, in three files of records of one size each, with
//! little-endian numbers. README.md lists the calls and the places in a record.
//!
//! `values`, 64 bytes: the call's number and 1 for a refusal, three parameters, 32 bytes of answer.
//! `buffers` and `sets`, 512 bytes: the call's number and 1 for a refusal, seventeen parameters, five
//! areas.
//!
//! The original decides acceptance and every byte of an accepted call; for the pairs that it
//! refuses and the port converts, rules.rs and stills.rs do, for sets of YUV numbers other than BT601
//! rules.rs and sets.rs, for regions with a start or a negative pitch rules.rs and by_texel.rs or
//! sets.rs, and for binary16 between 2^-25 and 2^-24 the C compiler (float16.c). After a refusal every
//! lent byte is what it was and what is handed back is zero, which is the port's rule
//! (docs/DIFFERENCES.md). Left out: what the original would wrap or panic at, what it would accept of
//! a plane layout that has refusal 10, and what does not fit in an area. Over the stand-in of the
//! rules alone nothing is left out but what does not fit.
#![allow(dead_code)]

use original::{convert, pixel_convert, stretch_rect};

use crate::{
    answers,
    calls::{
        CHANGES, ConvertCall, DEPTHS, DepthCall, EDGES32, MAGNITUDES, Pair, any_code, any32, any64,
        both_signs, legal_set, listed_codes, near_tie, pairs, sets_at_ends, sets_outside,
    },
    common::{Region, Side, XorShift, YuvSet, random_bytes, whole_frame},
    rules::{self, BT601, BT709, FORMATS, Format, Kind, NV12, YV12, named},
};

/// A call's number and name, and how its cases are recorded.
pub type Call = (u32, &'static str, fn(&mut Recorder));

/// The calls of the file `values`.
pub const VALUES: [Call; 10] = [
    (16, "can_convert", |to| codes(to, answers::pair)),
    (17, "can_convert_update", |to| {
        codes(to, pixel_convert::can_convert_update);
    }),
    (18, "yuv_to_rgb8", triples),
    (19, "planar_yuv_layout", planar_layouts),
    (
        20,
        "planar_yuv_layout_from_pitch",
        planar_layouts_from_pitch,
    ),
    (21, "plane_layout", plane_layouts),
    (22, "d3dcolor_fill_pixel_bytes", fills),
    (23, "f32_to_f16_bits", halves),
    (24, "d3dcolor_to_rgba_f32", colors),
    (31, "yuv_to_rgb8_by_tables", triples),
];

/// The calls of the file `buffers`.
pub const BUFFERS: [Call; 4] = [
    (25, "convert_region", conversions),
    (26, "unpack", unpacks),
    (27, "pack", packs),
    (28, "splat_pixel_pattern", splats),
];

/// The calls of the file `sets`.
pub const SETS: [Call; 1] = [(30, "convert_region_with_set", conversions_with_set)];

/// The bytes of an area, and so the longest buffer that is lent.
pub const AREA: usize = 72;

/// The parameters of a call that is lent buffers.
const PARAMETERS: usize = 17;

/// No call passes over more texels.
const MANY: u128 = 1 << 12;

/// The records of one call.
pub struct Recorder {
    pub random: XorShift,
    pub call: u32,
    /// What a refusal is recorded by: 1, since its number is the port's own.
    pub refusal: u32,
    pub records: Vec<u8>,
    pub count: usize,
    pub refused: usize,
}

impl Recorder {
    pub const fn new(random: XorShift, call: u32) -> Self {
        Self {
            random,
            call,
            refusal: 1,
            records: Vec::new(),
            count: 0,
            refused: 0,
        }
    }

    fn head(&mut self, accepted: bool) {
        self.count += 1;
        self.refused += usize::from(!accepted);
        let words = [self.call, if accepted { 0 } else { self.refusal }];
        self.records
            .extend(words.map(u32::to_le_bytes).as_flattened());
    }

    /// A record of 64 bytes; no answer is a refusal.
    pub fn value(&mut self, parameters: [u64; 3], answer: Option<&[u8]>) {
        self.head(answer.is_some());
        self.records
            .extend(parameters.map(u64::to_le_bytes).as_flattened());
        self.padded(answer.unwrap_or_default(), 32);
    }

    /// A record of 512 bytes. The areas are three before the call and two after it.
    fn buffers(&mut self, accepted: bool, parameters: &[u64], areas: [&[u8]; 5]) {
        let start = self.records.len();
        self.head(accepted);
        let parameters: Vec<u8> = parameters.iter().flat_map(|it| it.to_le_bytes()).collect();
        self.padded(&parameters, 8 * PARAMETERS);
        for area in areas {
            self.padded(area, AREA);
        }
        self.records.resize(start + 512, 0);
    }

    fn padded(&mut self, bytes: &[u8], length: usize) {
        let end = self.records.len() + length;
        self.records.extend(bytes);
        assert!(self.records.len() <= end, "more bytes than there is room");
        self.records.resize(end, 0);
    }

    /// Records a conversion if the original can be asked and the buffers fit.
    pub fn convert(&mut self, call: &ConvertCall) -> bool {
        let reply = call.conversion().reply();
        let asked = answers::can_convert(call, reply, || answers::effort(&call.region) <= MANY);
        if !asked || call.src.len() > AREA || call.dst.len() > AREA {
            return false;
        }
        let before = area(&call.dst, 0xa5);
        let (accepted, dst) = answers::convert(call);
        let after = if accepted { area(&dst, 0xa5) } else { before };
        let parameters = convert_parameters(call);
        let set = call.set.iter().flat_map(rules::numbers);
        let set: Vec<u8> = set.flat_map(u32::to_le_bytes).collect();
        let areas: [&[u8]; 5] = [&area(&call.src, 0x3c), &before, &set, &after, &[]];
        self.buffers(accepted, &parameters, areas);
        true
    }

    /// Whether the original can be asked of a depth transfer, and the buffers fit. A layout with
    /// refusal 10 is one that it reads only after the packed buffer, so a short one refuses too.
    fn asked(call: &DepthCall) -> bool {
        let lengths = [call.packed.len(), call.depth.len(), call.stencil.len()];
        let by_rules = original::BY_RULES;
        let reads_layout = !by_rules && call.transfer().reply() == 10 && !short_packed(call);
        !reads_layout && lengths.into_iter().all(|it| it <= AREA)
    }

    pub fn unpack(&mut self, call: &DepthCall) {
        if !Self::asked(call) {
            return;
        }
        let (accepted, (mut depth, mut stencil)) = answers::unpack(call);
        if !accepted {
            (depth, stencil) = (call.depth.clone(), call.stencil.clone());
        }
        let [packed, before, stencil_before] = depth_areas(call);
        let (after, stencil_after) = (area(&depth, 0xa5), area(&stencil, 0x69));
        let areas: [&[u8]; 5] = [&packed, &before, &stencil_before, &after, &stencil_after];
        self.buffers(accepted, &depth_parameters(call), areas);
    }

    pub fn pack(&mut self, call: &DepthCall) {
        if !Self::asked(call) {
            return;
        }
        let (accepted, mut packed) = answers::pack(call);
        if !accepted {
            packed.clone_from(&call.packed);
        }
        let [before, depth, stencil] = depth_areas(call);
        let areas: [&[u8]; 5] = [&before, &depth, &stencil, &area(&packed, 0x3c), &[]];
        self.buffers(accepted, &depth_parameters(call), areas);
    }
}

/// An area that starts with these bytes.
fn area(bytes: &[u8], rest: u8) -> [u8; AREA] {
    let mut area = [rest; AREA];
    area[..bytes.len()].copy_from_slice(bytes);
    area
}

/// The areas of packed pixels, depth and stencil before a transfer.
fn depth_areas(call: &DepthCall) -> [[u8; AREA]; 3] {
    [
        area(&call.packed, 0x3c),
        area(&call.depth, 0xa5),
        area(&call.stencil, 0x69),
    ]
}

/// Whether the packed buffer ends before the last pixel, of a layout with rows.
fn short_packed(call: &DepthCall) -> bool {
    let Some(bytes) = rules::packed_bytes(call.format) else {
        return true;
    };
    let [width, height] = [call.planes.width, call.planes.height].map(|it| it as u128);
    let end = |rows: u128| rows * call.packed_pitch as u128 + width * bytes as u128;
    height > 0 && call.planes.width < AREA && (call.packed.len() as u128) < end(height - 1)
}

/// Lengths and formats of source and destination, then the region in the order of its fields; a
/// negative pitch in two's complement.
fn convert_parameters(call: &ConvertCall) -> Vec<u64> {
    let region = &call.region;
    let lengths = [call.src.len(), call.dst.len()].map(|it| it as u64);
    let formats = [call.dst_format, call.src_format].map(u64::from);
    let extent = [
        region.depth as u64,
        region.width.into(),
        region.height.into(),
    ];
    let sides = [&region.source, &region.destination].map(|side| {
        [
            side.start,
            side.pitch as u64,
            side.slice_pitch as u64,
            side.x.into(),
            side.y.into(),
        ]
    });
    [&lengths[..], &formats, sides.as_flattened(), &extent].concat()
}

/// Lengths of packed pixels, depth and stencil, then the parameters of the call.
fn depth_parameters(call: &DepthCall) -> [u64; 9] {
    [
        call.packed.len(),
        call.depth.len(),
        call.stencil.len(),
        call.format as usize,
        call.planes.width,
        call.planes.height,
        call.planes.depth_pitch,
        call.planes.stencil_pitch,
        call.packed_pitch,
    ]
    .map(|it| it as u64)
}

/// Every two formats that convert from or to anything, and other codes.
fn codes(to: &mut Recorder, converts: fn(u32, u32) -> bool) {
    for from in &FORMATS {
        for into in &FORMATS {
            pair(to, converts, from.code, into.code);
        }
    }
    for _ in 0..150 {
        let [src, dst] = [0; 2].map(|_| any_code(&mut to.random));
        pair(to, converts, src, dst);
    }
}

pub fn pair(to: &mut Recorder, converts: fn(u32, u32) -> bool, src: u32, dst: u32) {
    let answer: Option<&[u8]> = converts(src, dst).then_some(&[]);
    to.value([src.into(), dst.into(), 0], answer);
}

fn triples(to: &mut Recorder) {
    let edges = [0, 16, 127, 128, 235, 240, 255];
    for luma in edges {
        for cb in edges {
            for cr in edges {
                triple(to, [luma, cb, cr]);
            }
        }
    }
    for _ in 0..600 {
        let [luma, cb, cr, _] = to.random.next_u32().to_le_bytes();
        triple(to, [luma, cb, cr]);
    }
}

pub fn triple(to: &mut Recorder, [luma, cb, cr]: [u8; 3]) {
    let (r, g, b) = stretch_rect::yuv_to_rgb8(luma, cb, cr);
    to.value([luma, cb, cr].map(u64::from), Some(&[r, g, b]));
}

pub fn layout(to: &mut Recorder, parameters: [u64; 3], numbers: Option<[u64; 4]>) {
    let bytes = numbers.map(|it| it.map(u64::to_le_bytes).concat());
    to.value(parameters, bytes.as_deref());
}

/// Sizes on both sides of the limits of planar layouts.
const SIZES: [u32; 14] = [
    0, 1, 2, 3, 5, 6, 64, 8192, 10921, 10922, 10923, 16383, 16384, 16385,
];

fn planar_layouts(to: &mut Recorder) {
    let record = |to: &mut Recorder, format: u32, width: u32, height: u32| {
        let numbers = answers::planar_layout(format, width, height);
        layout(to, [format, width, height].map(u64::from), numbers);
    };
    for format in [YV12, NV12] {
        for width in SIZES {
            for height in SIZES {
                record(to, format, width, height);
            }
        }
    }
    for _ in 0..60 {
        let format = any_code(&mut to.random);
        let [width, height] = [0; 2].map(|_| any32(&mut to.random));
        record(to, format, width, height);
    }
}

fn planar_layouts_from_pitch(to: &mut Recorder) {
    let record = |to: &mut Recorder, format: u32, pitch: usize, rows: usize| {
        let numbers = answers::planar_layout_from_pitch(format, pitch, rows);
        let parameters = [u64::from(format), pitch as u64, rows as u64];
        layout(to, parameters, numbers);
    };
    for format in [YV12, NV12] {
        for pitch in SIZES {
            for rows in SIZES {
                record(to, format, pitch as usize, rows as usize);
            }
        }
    }
    for _ in 0..60 {
        let format = to.random.pick(&[YV12, NV12, 50]);
        let [pitch, rows] = [0; 2].map(|_| any64(&mut to.random) as usize);
        record(to, format, pitch, rows);
    }
}

fn plane_layouts(to: &mut Recorder) {
    let record = |to: &mut Recorder, width: u32, height: u32, alignment: u32| {
        let numbers = answers::plane_layout(width, height, alignment);
        layout(to, [width, height, alignment].map(u64::from), numbers);
    };
    for width in EDGES32 {
        for height in [0, 1, 3, 16384, 0x4000_0000, 0x8000_0000, u32::MAX] {
            for alignment in [0, 4, 6, 256, 0x8000_0000] {
                record(to, width, height, alignment);
            }
        }
    }
    for _ in 0..200 {
        let [width, height] = [0; 2].map(|_| any32(&mut to.random));
        let alignment = 1 << to.random.below(32);
        record(to, width, height, alignment);
    }
}

/// Codes 0 to 130 and the four-letter ones with a few colours each.
fn fills(to: &mut Recorder) {
    let all = listed_codes();
    for format in all.into_iter().filter(|it| *it <= 130 || *it > 300) {
        let others = [0; 3].map(|_| to.random.next_u32());
        for color in [0, u32::MAX, 0x80ff_4001].into_iter().chain(others) {
            fill(to, color, format);
        }
    }
}

pub fn fill(to: &mut Recorder, color: u32, format: u32) {
    let pixel = convert::d3dcolor_fill_pixel_bytes(color, format);
    let answer = pixel.map(|pixel| {
        let mut answer = pixel.clone();
        answer.resize(16, 0);
        answer.extend((pixel.len() as u32).to_le_bytes());
        answer
    });
    to.value([color.into(), format.into(), 0], answer.as_deref());
}

fn halves(to: &mut Recorder) {
    let mut patterns = both_signs(&MAGNITUDES);
    // Around every power of two from 2^-26 to 2^17, and half a step above it.
    for exponent in 101..=144_u32 {
        let power = exponent << 23;
        patterns.extend([power - 1, power, power + 1]);
        patterns.extend([0xfff, 0x1000, 0x1001, 0x3000].map(|it| power + it));
    }
    patterns.extend((0..200).map(|_| to.random.next_u32()));
    patterns.extend((0..200).map(|_| to.random.next_unit().to_bits()));
    for bits in patterns {
        half(to, bits);
    }
}

pub fn half(to: &mut Recorder, bits: u32) {
    let half = if !original::BY_RULES && rules::is_faint(bits) {
        answers::compiler_f32_to_f16_bits(bits)
    } else {
        convert::f32_to_f16_bits(f32::from_bits(bits))
    };
    to.value([bits.into(), 0, 0], Some(&half.to_le_bytes()));
}

fn colors(to: &mut Recorder) {
    let greys = (0..256).map(|byte| byte * 0x0101_0101);
    let colors: Vec<u32> = greys
        .chain((0..100).map(|_| to.random.next_u32()))
        .collect();
    for color in colors {
        rgba(to, color);
    }
}

pub fn rgba(to: &mut Recorder, color: u32) {
    let bits = convert::d3dcolor_to_rgba_f32(color).map(|it| it.to_bits().to_le_bytes());
    to.value([color.into(), 0, 0], Some(bits.as_flattened()));
}

/// For every pair that converts an exact region, one that is a byte short, one of overlapping rows,
/// and pictures with starts and stored bottom row first; then empty regions, pairs that do not
/// convert, planar ones, and damaged calls.
fn conversions(to: &mut Recorder) {
    for (from, into) in pairs() {
        let call = fitting(to, from, into);
        to.convert(&call);
        let call = shorter(&call, &mut to.random);
        to.convert(&call);
        let call = overlapping(to, from, into);
        to.convert(&call);
        let call = fitting(to, from, into);
        to.convert(&call);
        turned(to, &call);
    }
    let planar: Vec<_> = pairs()
        .into_iter()
        .filter(|(from, _)| from.kind == Kind::PlanarYuv)
        .collect();
    for list in [&pairs(), &planar] {
        empty(to, list, 60);
        damaged(to, list, 130);
    }
    for _ in 0..120 {
        let [src_format, dst_format] = [0; 2].map(|_| any_code(&mut to.random));
        let call = ConvertCall {
            dst_format,
            dst: random_bytes(&mut to.random, 64),
            src_format,
            src: random_bytes(&mut to.random, 64),
            region: whole_frame(2, 2, 32, 32),
            set: None,
        };
        to.convert(&call);
    }
}

/// Records the conversion from and to pictures that lie otherwise, with buffers of the least lengths,
/// and with one that is a byte short or a start that is one less.
fn turned(to: &mut Recorder, call: &ConvertCall) {
    let call = call.turned(&mut to.random);
    to.convert(&call);
    let mut other = shorter(&call, &mut to.random);
    if to.random.one_in(2) {
        other = call.clone();
        let region = &mut other.region;
        let side = if to.random.one_in(2) {
            &mut region.source
        } else {
            &mut region.destination
        };
        side.start = side.start.wrapping_sub(1);
    }
    to.convert(&other);
}

/// For every pair from YUV an exact region with both named sets and another legal one, one that is
/// a byte short, one of overlapping rows, and one of pictures that lie otherwise; for every YUV source
/// each number at both ends of its range, and every change of an accepted call; illegal sets with these
/// changes, and with sources that are not YUV.
fn conversions_with_set(to: &mut Recorder) {
    let (yuv, others): (Vec<Pair>, Vec<Pair>) = pairs()
        .into_iter()
        .partition(|(from, _)| rules::is_yuv(from.code));
    for &(from, into) in &yuv {
        let call = fitting(to, from, into);
        for set in [BT601, BT709, legal_set(&mut to.random)] {
            with_set(to, set, call.clone());
        }
        let set = legal_set(&mut to.random);
        let call = shorter(&call, &mut to.random);
        with_set(to, set, call);
        let call = overlapping(to, from, into);
        with_set(to, set, call);
        let call = fitting(to, from, into).turned(&mut to.random);
        with_set(to, set, call);
    }
    for from in ["YUY2", "UYVY", "YV12", "NV12"].map(named) {
        for set in sets_at_ends(&mut to.random) {
            let call = fitting(to, from, named("A8R8G8B8"));
            with_set(to, set, call);
        }
        for change in CHANGES {
            let mut call = fitting(to, from, named("A8R8G8B8"));
            change(&mut call);
            with_set(to, BT709, call);
        }
    }
    for set in sets_outside(&mut to.random) {
        for change in CHANGES {
            let (from, into) = to.random.pick(&yuv);
            let mut call = fitting(to, from, into);
            change(&mut call);
            with_set(to, set, call);
        }
        for _ in 0..3 {
            let (from, into) = to.random.pick(&others);
            let call = fitting(to, from, into);
            with_set(to, set, call);
        }
    }
}

/// Records the conversion with a set.
fn with_set(to: &mut Recorder, set: YuvSet, mut call: ConvertCall) {
    call.set = Some(set);
    to.convert(&call);
}

/// An accepted conversion of a random small extent whose buffers fit.
fn fitting(to: &mut Recorder, from: &Format, into: &Format) -> ConvertCall {
    loop {
        let width = 1 + to.random.below(6) as u32;
        let height = 1 + to.random.below(3) as u32;
        let depth = to.random.pick(&[1, 1, 1, 2, 3]);
        let call = ConvertCall::accepted(&mut to.random, from, into, [width, height, depth]);
        if call.src.len() <= AREA && call.dst.len() <= AREA {
            return call;
        }
    }
}

/// The call with a source or a destination one byte shorter.
fn shorter(call: &ConvertCall, random: &mut XorShift) -> ConvertCall {
    let mut call = call.clone();
    if random.one_in(2) {
        call.src.pop();
    } else {
        call.dst.pop();
    }
    call
}

/// A conversion whose pitches are smaller than its rows and slices, with buffers of the least
/// lengths.
fn overlapping(to: &mut Recorder, from: &Format, into: &Format) -> ConvertCall {
    let mut region: Region = fitting(to, from, into).region;
    (region.width, region.height) = (region.width.max(2), region.height.max(2));
    let mut shrunk = |size: usize| to.random.below(size as u64 + 1) as usize;
    let mut shrink = |side: &mut Side| {
        side.pitch = shrunk(side.pitch as usize) as i64;
        side.slice_pitch = shrunk(side.slice_pitch);
    };
    shrink(&mut region.destination);
    if from.kind != Kind::PlanarYuv {
        shrink(&mut region.source);
    }
    ConvertCall::exact(&mut to.random, from, into, region)
}

/// Regions without texels, on buffers of any length.
fn empty(to: &mut Recorder, pairs: &[Pair], count: usize) {
    for _ in 0..count {
        let (from, into) = to.random.pick(pairs);
        let mut call = fitting(to, from, into);
        if to.random.one_in(2) {
            call.damage(&mut to.random);
        }
        match to.random.below(3) {
            0 => call.region.width = 0,
            1 => call.region.height = 0,
            _ => call.region.depth = 0,
        }
        to.convert(&call);
    }
}

/// Conversions with one to three things changed.
fn damaged(to: &mut Recorder, pairs: &[Pair], count: usize) {
    let mut left = count;
    while left > 0 {
        let (from, into) = to.random.pick(pairs);
        let mut call = fitting(to, from, into);
        for _ in 0..=to.random.below(3) {
            call.damage(&mut to.random);
        }
        left -= usize::from(to.convert(&call));
    }
}

/// Transfers in every format: accepted ones, each buffer one byte shorter than is asked, damaged
/// ones, bad layouts with a short packed buffer, and other format codes.
fn transfers(to: &mut Recorder, record: fn(&mut Recorder, &DepthCall)) {
    for (format, _) in DEPTHS {
        for width in 1..=4 {
            for height in 1..=4 {
                let call = DepthCall::accepted(&mut to.random, format, width, height);
                record(to, &call);
                for buffer in 0..3 {
                    record(to, &short(&call, buffer));
                }
            }
        }
    }
    for _ in 0..120 {
        let mut call = DepthCall::any(&mut to.random);
        call.damage(&mut to.random);
        record(to, &call);
    }
    for (format, _) in DEPTHS {
        for [width, depth_pitch, stencil_pitch] in [[0, 8, 2], [2, 7, 2], [2, 8, 1], [2, 0, 0]] {
            let mut call = DepthCall::accepted(&mut to.random, format, 2, 3);
            call.planes.width = width;
            (call.planes.depth_pitch, call.planes.stencil_pitch) = (depth_pitch, stencil_pitch);
            call.packed.truncate(5);
            record(to, &call);
        }
    }
    for format in [0, 21, 70, 74, 76, 78, 79, 81, YV12, named("A8").code] {
        let mut call = DepthCall::accepted(&mut to.random, DEPTHS[1].0, 2, 2);
        call.format = format;
        record(to, &call);
    }
}

/// The call with one buffer a byte shorter than a transfer needs.
fn short(call: &DepthCall, buffer: usize) -> DepthCall {
    let mut call = call.clone();
    let planes = call.planes;
    let row = planes.width * rules::packed_bytes(call.format).expect("a packed depth format");
    match buffer {
        0 => call
            .packed
            .truncate((planes.height - 1) * call.packed_pitch + row - 1),
        1 => call.depth.truncate(planes.depth_pitch * planes.height - 1),
        _ => call
            .stencil
            .truncate(planes.stencil_pitch * planes.height - 1),
    }
    call
}

fn unpacks(to: &mut Recorder) {
    transfers(to, Recorder::unpack);
}

fn packs(to: &mut Recorder) {
    transfers(to, Recorder::pack);
    // Depths around ties between two codes.
    for (format, max) in DEPTHS {
        for _ in 0..20 {
            let mut call = DepthCall::accepted(&mut to.random, format, 3, 2);
            for pixel in call.depth.chunks_exact_mut(4) {
                pixel.copy_from_slice(&near_tie(&mut to.random, max).to_le_bytes());
            }
            to.pack(&call);
        }
    }
}

fn splats(to: &mut Recorder) {
    for pattern in 0..=16 {
        for _ in 0..8 {
            let length = to.random.below(AREA as u64 + 1) as usize;
            random_splat(to, pattern, length);
        }
        random_splat(to, pattern, AREA);
    }
    for length in 0..4 {
        random_splat(to, AREA, length);
    }
}

fn random_splat(to: &mut Recorder, pattern: usize, length: usize) {
    let pixel = random_bytes(&mut to.random, pattern);
    let dst = random_bytes(&mut to.random, length);
    splat(to, &dst, &pixel);
}

pub fn splat(to: &mut Recorder, dst: &[u8], pixel: &[u8]) {
    if dst.len() > AREA || pixel.len() > AREA {
        return;
    }
    let before = area(dst, 0xa5);
    let mut dst = dst.to_vec();
    convert::splat_pixel_pattern(&mut dst, pixel);
    let after = area(&dst, 0xa5);
    let areas: [&[u8]; 5] = [&area(pixel, 0x3c), &before, &[], &after, &[]];
    to.buffers(true, &[pixel.len() as u64, dst.len() as u64], areas);
}
