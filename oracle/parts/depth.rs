//! Plane layouts, unpacking and packing of depth, and what the two restore.

use crate::{
    calls::{
        DEPTHS, DepthCall, EDGES32, EDGES64, MAGNITUDES, any_code, any32, any64, both_signs, tie,
    },
    checks::{Checks, spread},
    common::{Planes, XorShift, random_bytes},
    rules::{self, D16, D24S8, D24X8},
};

pub fn run(checks: &mut Checks, random: &mut XorShift, all: bool) {
    layouts(checks, random, if all { 20_000_000 } else { 500_000 });
    pictures(checks, random);
    buffer_ends(checks, random);
    formats(checks, random);
    damaged(checks, random, if all { 10_000_000 } else { 500_000 });
    any_layouts(checks, random, if all { 10_000_000 } else { 500_000 });
    every_code(checks, random);
    special_depths(checks);
    half_codes(checks);
    if all {
        every_depth(checks);
    }
}

/// Sizes at the limits of 32 bits, planes at those of 64 bits, alignments that are powers of two
/// and others.
fn layouts(checks: &mut Checks, random: &mut XorShift, count: usize) {
    let powers = (0..32).flat_map(|power| (1_u32 << power) - 1..=(1 << power) + 1);
    let alignments: Vec<u32> = powers.chain([6, 12, 100, u32::MAX]).collect();
    for &alignment in &alignments {
        for width in EDGES32 {
            for height in EDGES32 {
                checks.plane_layout(width, height, alignment);
            }
        }
        full_planes(checks, alignment);
    }
    for _ in 0..count {
        let alignment = if random.one_in(4) {
            any32(random)
        } else {
            1 << random.below(32)
        };
        checks.plane_layout(any32(random), any32(random), alignment);
    }
}

/// The heights around 2^64 divided by a pitch, for both planes.
fn full_planes(checks: &mut Checks, alignment: u32) {
    let widths = (0..6)
        .map(|less| u32::MAX - less)
        .chain([1 << 30, 1 << 31, 3 << 30]);
    for width in widths {
        let multiple = u128::from(alignment.max(4));
        for row in [u128::from(width), 4 * u128::from(width)] {
            let pitch = row.div_ceil(multiple) * multiple;
            let height = (1_u128 << 64) / pitch;
            for height in height - 2..=height + 2 {
                checks.plane_layout(width, u32::try_from(height).unwrap_or(u32::MAX), alignment);
            }
        }
    }
}

/// Unpacks and packs; D16 and D24S8 are restored in a buffer with another pitch.
fn transfer(checks: &mut Checks, random: &mut XorShift, call: &DepthCall) {
    checks.unpack(call);
    checks.pack(call);
    if call.format != D24X8 {
        let row = call.planes.width * rules::packed_bytes(call.format).expect("a depth format");
        let pitch = row + random.pick(&[0, 1, 3, 8]);
        let length = (call.planes.height - 1) * pitch + row;
        checks.restores(call, random_bytes(random, length), pitch);
    }
}

/// Every width to 70, random sizes, and larger pictures.
fn pictures(checks: &mut Checks, random: &mut XorShift) {
    for (format, _) in DEPTHS {
        for width in 1..=70 {
            let call = DepthCall::accepted(random, format, width, 1 + width % 4);
            transfer(checks, random, &call);
        }
        for _ in 0..4000 {
            let [width, height] = [0; 2].map(|_| 1 + random.below(20) as usize);
            let call = DepthCall::accepted(random, format, width, height);
            transfer(checks, random, &call);
        }
        for (width, height) in [(640, 480), (1001, 333)] {
            let call = DepthCall::accepted(random, format, width, height);
            transfer(checks, random, &call);
        }
    }
}

/// Buffers one byte short, exact, and one byte long.
fn buffer_ends(checks: &mut Checks, random: &mut XorShift) {
    for (format, _) in DEPTHS {
        for size in [(1, 1), (1, 2), (2, 1), (3, 2), (5, 3), (17, 4)] {
            let mut exact = DepthCall::accepted(random, format, size.0, size.1);
            let row = size.0 * rules::packed_bytes(format).expect("a depth format");
            let packed = (size.1 - 1) * exact.packed_pitch + row;
            let (depth, stencil) = (exact.planes.depth_pitch, exact.planes.stencil_pitch);
            let (depth, stencil) = (depth * size.1, stencil * size.1);
            for lengths in 0..27 {
                exact.packed.resize(packed + lengths / 9 - 1, 1);
                exact.depth.resize(depth + lengths / 3 % 3 - 1, 2);
                exact.stencil.resize(stencil + lengths % 3 - 1, 3);
                checks.unpack(&exact);
                checks.pack(&exact);
            }
        }
    }
}

/// Every code from 0 to 300, and others.
fn formats(checks: &mut Checks, random: &mut XorShift) {
    let mut call = DepthCall::accepted(random, D24S8, 3, 2);
    let mut codes: Vec<u32> = (0..=300).collect();
    codes.extend((0..1000).map(|_| any_code(random)));
    for code in codes {
        call.format = code;
        checks.unpack(&call);
        checks.pack(&call);
    }
}

/// Accepted transfers with one to three things changed.
fn damaged(checks: &mut Checks, random: &mut XorShift, count: usize) {
    for _ in 0..count {
        let mut call = DepthCall::any(random);
        for _ in 0..=random.below(3) {
            call.damage(random);
        }
        if random.one_in(2) {
            checks.unpack(&call);
        } else {
            checks.pack(&call);
        }
    }
}

/// Layouts whose fields hold any numbers, on short buffers.
fn any_layouts(checks: &mut Checks, random: &mut XorShift, count: usize) {
    for _ in 0..count {
        let mut call = DepthCall::any(random);
        let planes = &mut call.planes;
        for number in [
            &mut planes.width,
            &mut planes.height,
            &mut planes.depth_pitch,
            &mut planes.stencil_pitch,
            &mut call.packed_pitch,
        ] {
            match random.below(6) {
                0 => *number = random.pick(&EDGES64) as usize,
                1 => *number = any64(random) as usize,
                2 => *number = random.below(20) as usize,
                _ => {}
            }
        }
        checks.unpack(&call);
        checks.pack(&call);
    }
}

/// Every D16 code, and every D24 code in one picture, with every stencil.
fn every_code(checks: &mut Checks, random: &mut XorShift) {
    let d16: Vec<u8> = (0..=0xffff_u16).flat_map(u16::to_le_bytes).collect();
    picture(checks, random, D16, 256, d16);
    let stencil = |code: u32| (code ^ code >> 8 ^ code >> 16) & 0xff;
    let d24s8 = |code: u32| (code << 8 | stencil(code)).to_le_bytes();
    let d24x8 = |code: u32| (code | stencil(code) << 24).to_le_bytes();
    picture(
        checks,
        random,
        D24S8,
        4096,
        (0..1 << 24).flat_map(d24s8).collect(),
    );
    picture(
        checks,
        random,
        D24X8,
        4096,
        (0..1 << 24).flat_map(d24x8).collect(),
    );
}

/// A picture of these pixels, without padding: unpacked; its planes packed; restored.
fn picture(checks: &mut Checks, random: &mut XorShift, format: u32, width: usize, packed: Vec<u8>) {
    let packed_pitch = width * rules::packed_bytes(format).expect("a depth format");
    let height = packed.len() / packed_pitch;
    let planes = Planes {
        width,
        height,
        depth_pitch: 4 * width,
        stencil_pitch: width,
    };
    let call = DepthCall {
        format,
        planes,
        depth: vec![0x5a; planes.depth_pitch * height],
        stencil: vec![0x5a; planes.stencil_pitch * height],
        packed,
        packed_pitch,
    };
    transfer(checks, random, &call);
}

/// Packs these depths in a format, `width` a row.
fn pack_depths(checks: &mut Checks, format: u32, width: usize, depths: Vec<u8>) {
    let height = depths.len() / 4 / width;
    let packed_pitch = width * rules::packed_bytes(format).expect("a depth format");
    checks.pack(&DepthCall {
        format,
        planes: Planes {
            width,
            height,
            depth_pitch: 4 * width,
            stencil_pitch: width,
        },
        packed: vec![0x5a; packed_pitch * height],
        packed_pitch,
        stencil: (0..width * height).map(|it| it as u8).collect(),
        depth: depths,
    });
}

/// NaNs, infinities, zeros, subnormals and others, of both signs.
fn special_depths(checks: &mut Checks) {
    let depths = both_signs(&MAGNITUDES);
    let bytes: Vec<u8> = depths.into_iter().flat_map(u32::to_le_bytes).collect();
    for (format, _) in DEPTHS {
        pack_depths(checks, format, 1, bytes.clone());
    }
}

/// Depths a hair around half of every code.
fn half_codes(checks: &mut Checks) {
    for (format, max) in DEPTHS {
        for codes in (0..max).step_by(1 << 20) {
            let codes = codes..max.min(codes + (1 << 20));
            let near = |code| tie(code, max) - 1..=tie(code, max) + 1;
            let depths = codes.flat_map(near).flat_map(u32::to_le_bytes).collect();
            pack_depths(checks, format, 3, depths);
        }
    }
}

/// Every binary32 pattern.
fn every_depth(checks: &mut Checks) {
    for (format, _) in DEPTHS {
        spread(checks, 1 << 10, |checks, high| {
            let patterns = (0..1 << 22).map(|low| high << 22 | low);
            let depths = patterns.flat_map(u32::to_le_bytes).collect();
            pack_depths(checks, format, 1024, depths);
        });
    }
}
