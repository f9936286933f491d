//! The calls of `fuzz` and `model`: damaged copies of accepted ones, each with up to three lengths,
//! pitches, starts, codes or sizes changed, and up to three numbers of a set of YUV numbers. Half of the
//! conversions are of pictures with starts, stored bottom row first among them, or of places whose parts
//! cancel; some are of flat regions.

use crate::{
    calls::{
        ConvertCall, DepthCall, Pair, any_code, any_set, any32, any64, change32, change64, pairs,
        resize, yuv_pairs,
    },
    common::{FlatRegion, XorShift, flat, random_bytes},
    rules::{NV12, YV12},
};

/// A call with what it is given. `Colour` is that of a sample, by arithmetic and by tables.
pub enum Call {
    CanConvert {
        src: u32,
        dst: u32,
    },
    Colour([u8; 3]),
    Convert(ConvertCall),
    /// Of a flat region in the place of the call's own.
    ConvertFlat(ConvertCall, FlatRegion),
    Fill {
        color: u32,
        format: u32,
    },
    Half(u32),
    NamedSets,
    Pack(DepthCall),
    PlanarLayout {
        format: u32,
        width: u32,
        height: u32,
    },
    PlanarLayoutFromPitch {
        format: u32,
        pitch: usize,
        luma_rows: usize,
    },
    PlaneLayout {
        width: u32,
        height: u32,
        alignment: u32,
    },
    Rgba(u32),
    Splat {
        dst: Vec<u8>,
        pixel: Vec<u8>,
    },
    Unpack(DepthCall),
}

/// Draws calls.
pub struct Draw {
    random: XorShift,
    pairs: Vec<Pair>,
    yuv_pairs: Vec<Pair>,
    /// Of no call is a buffer longer before it is damaged.
    longest: usize,
}

impl Draw {
    pub fn new(random: XorShift, longest: usize) -> Self {
        Self {
            random,
            pairs: pairs(),
            yuv_pairs: yuv_pairs(),
            longest,
        }
    }

    /// One call, or a few of the shortest ones.
    pub fn next(&mut self) -> Vec<Call> {
        match self.random.below(15) {
            0..4 => vec![Call::Convert(self.conversion(false))],
            4 => vec![self.flat_conversion()],
            5..8 => {
                let yuv = self.random.one_in(2);
                let mut call = self.conversion(yuv);
                call.set = Some(any_set(&mut self.random));
                vec![Call::Convert(call)]
            }
            8 => vec![Call::Unpack(self.transfer())],
            9 => vec![Call::Pack(self.transfer())],
            10 => vec![plane_layout(&mut self.random)],
            11 => planar_layouts(&mut self.random),
            12 => fill(&mut self.random),
            13 => vec![splat(&mut self.random)],
            _ => numbers(&mut self.random),
        }
    }

    /// A conversion between any two formats, each pair as often as another, of a small extent or of
    /// one or two rows of up to 72 texels. The extent shrinks until its buffers fit.
    fn conversion(&mut self, yuv: bool) -> ConvertCall {
        let turned = self.random.below(8);
        let mut call = self.accepted(yuv, |random, call, (from, to)| match turned {
            0..3 => call.turned(random),
            3 => ConvertCall::cancelling(random, from, to),
            _ => call,
        });
        for _ in 0..self.random.below(4) {
            call.damage(&mut self.random);
        }
        call
    }

    /// A flat region, of which a pitch is mostly one that no side has.
    fn flat_conversion(&mut self) -> Call {
        let mut call = self.accepted(false, |_, call, _| call);
        let mut region = flat(&call.region);
        let random = &mut self.random;
        for _ in 0..random.below(4) {
            call.damage(random);
        }
        for pitch in [&mut region.src_pitch, &mut region.dst_pitch] {
            if random.one_in(4) {
                change64(pitch, random);
            }
            if random.one_in(2) {
                *pitch |= 1 << 63;
            }
        }
        if random.one_in(2) {
            (region.src_y, region.dst_y, region.height) = (0, 0, 1);
        }
        Call::ConvertFlat(call, region)
    }

    /// An accepted conversion, or what is made of it.
    fn accepted(
        &mut self,
        yuv: bool,
        made: impl Fn(&mut XorShift, ConvertCall, Pair) -> ConvertCall,
    ) -> ConvertCall {
        let random = &mut self.random;
        let (from, to) = random.pick(if yuv { &self.yuv_pairs } else { &self.pairs });
        let [width, height] = random.pick(&[[9, 4], [9, 4], [72, 2], [72, 1]]);
        let mut most = [width, height, random.pick(&[1, 1, 1, 2, 3])];
        loop {
            let extent = most.map(|it| 1 + random.below(it) as u32);
            let call = ConvertCall::accepted(random, from, to, extent);
            let call = made(random, call, (from, to));
            if call.src.len().max(call.dst.len()) <= self.longest {
                return call;
            }
            most = extent.map(u64::from);
        }
    }

    fn transfer(&mut self) -> DepthCall {
        let random = &mut self.random;
        let fits = |call: &DepthCall| {
            let lengths = [&call.packed, &call.depth, &call.stencil].map(Vec::len);
            lengths.into_iter().all(|it| it <= self.longest)
        };
        let mut call = loop {
            let call = DepthCall::any(random);
            if fits(&call) {
                break call;
            }
        };
        for _ in 0..random.below(4) {
            call.damage(random);
        }
        call
    }
}

fn plane_layout(random: &mut XorShift) -> Call {
    let [mut width, mut height] = [0; 2].map(|_| 1 + random.next_u32() % 20_000);
    let mut alignment = 1 << random.below(12);
    for number in [&mut width, &mut height, &mut alignment] {
        if random.one_in(2) {
            change32(number, random);
        }
    }
    Call::PlaneLayout {
        width,
        height,
        alignment,
    }
}

fn planar_layouts(random: &mut XorShift) -> Vec<Call> {
    let format = if random.one_in(4) {
        any_code(random)
    } else {
        random.pick(&[YV12, NV12])
    };
    let mut width = 1 + random.next_u32() % 16_384;
    let mut height = 1 + random.next_u32() % 10_923;
    for size in [&mut width, &mut height] {
        if random.one_in(2) {
            change32(size, random);
        }
    }
    let mut sizes = [width, height].map(|size| size as usize);
    if random.one_in(4) {
        sizes[random.below(2) as usize] = any64(random) as usize;
    }
    let [pitch, luma_rows] = sizes;
    vec![
        Call::PlanarLayout {
            format,
            width,
            height,
        },
        Call::PlanarLayoutFromPitch {
            format,
            pitch,
            luma_rows,
        },
    ]
}

fn fill(random: &mut XorShift) -> Vec<Call> {
    let (color, format) = (random.next_u32(), any_code(random));
    vec![Call::Fill { color, format }, Call::Rgba(color)]
}

fn splat(random: &mut XorShift) -> Call {
    let (texels, bytes) = (random.below(60) as usize, random.pick(&[1, 2, 3, 4, 8, 16]));
    let mut pixel = random_bytes(random, bytes);
    let mut dst = random_bytes(random, texels * bytes);
    for bytes in [&mut pixel, &mut dst] {
        if random.one_in(2) {
            resize(bytes, random);
        }
    }
    Call::Splat { dst, pixel }
}

/// The calls that take numbers alone and refuse nothing.
fn numbers(random: &mut XorShift) -> Vec<Call> {
    let [src, dst] = [0; 2].map(|_| any_code(random));
    let halves = [random.next_u32(), any32(random), near_half(random)].map(Call::Half);
    let [luma, cb, cr, _] = random.next_u32().to_le_bytes();
    let mut calls = vec![Call::CanConvert { src, dst }, Call::NamedSets];
    calls.extend(halves);
    calls.push(Call::Colour([luma, cb, cr]));
    calls
}

/// The bits of a binary32 number between two neighbouring ones of binary16, or next to it.
fn near_half(random: &mut XorShift) -> u32 {
    let exponent = 103 + random.below(40) as u32;
    // The bit below the last one of binary16, whose least normal number has exponent 113.
    let below = 12 + 113_u32.saturating_sub(exponent);
    let number = random.pick(&[0, 1 << 31]) | exponent << 23 | random.next_u32() >> 9;
    let tie = number >> below << below | 1 << below;
    tie + random.below(3) as u32 - 1
}
