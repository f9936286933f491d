//! Shared by the programs of this folder, each of which uses a part: the random numbers, regions,
//! sets, planes and what is handed back (the structs that cross, by the declarations of the crate in
//! rust/), conversions of one texel by the original, frames of random texels.
#![allow(dead_code, unused_imports)]

#[path = "../rust/src/shapes.rs"]
pub mod shapes;

use original::pixel_convert::{ConvertRegion, convert_region};

/// The structs that cross, of any numbers, and the flat region that the crate in rust/ keeps; `Planes`
/// is the layout of a depth and a stencil plane.
pub use shapes::{
    ConvertRegion as FlatRegion, FillPixel, PlanarYuvLayout, PlaneLayout as Planes, Region, Side,
    YuvSet,
};

/// Marsaglia's xorshift generator of 64 bits, shifts 13, 7 and 17.
pub struct XorShift(u64);

impl XorShift {
    /// Where every program starts unless told otherwise, so that each run sees the same numbers.
    pub const SEED: u64 = 0x2545_f491_4f6c_dd1d;

    pub const fn seeded() -> Self {
        Self(Self::SEED)
    }

    /// The generator of `seed`, whose bits are mixed first (splitmix64): near seeds give unlike
    /// numbers.
    pub const fn from_seed(seed: u64) -> Self {
        let mut bits = seed.wrapping_add(0x9e37_79b9_7f4a_7c15);
        bits = (bits ^ bits >> 30).wrapping_mul(0xbf58_476d_1ce4_e5b9);
        bits = (bits ^ bits >> 27).wrapping_mul(0x94d0_49bb_1331_11eb);
        bits ^= bits >> 31;
        Self(if bits == 0 { Self::SEED } else { bits })
    }

    pub const fn next_u64(&mut self) -> u64 {
        self.0 ^= self.0 << 13;
        self.0 ^= self.0 >> 7;
        self.0 ^= self.0 << 17;
        self.0
    }

    /// The upper half of a number, whose bits are the better mixed ones.
    pub const fn next_u32(&mut self) -> u32 {
        (self.next_u64() >> 32) as u32
    }

    /// A multiple of 2^-24 from 0 up to, not including, 1.
    pub const fn next_unit(&mut self) -> f32 {
        (self.next_u32() >> 8) as f32 / 16_777_216.0
    }

    /// A number from 0 up to, not including, `bound`.
    pub const fn below(&mut self, bound: u64) -> u64 {
        (self.next_u64() as u128 * bound as u128 >> 64) as u64
    }

    /// True once in `times` draws.
    pub const fn one_in(&mut self, times: u64) -> bool {
        self.below(times) == 0
    }

    pub fn pick<T: Copy>(&mut self, from: &[T]) -> T {
        from[self.below(from.len() as u64) as usize]
    }
}

/// Whether the original has such a region: both starts are 0 and no pitch is negative.
pub const fn is_upright(region: &Region) -> bool {
    let (source, destination) = (&region.source, &region.destination);
    source.start == 0 && destination.start == 0 && source.pitch >= 0 && destination.pitch >= 0
}

/// The same region of the original's, of an upright one.
pub fn flat(region: &Region) -> FlatRegion {
    assert!(is_upright(region), "the original has no such region");
    FlatRegion {
        src_x: region.source.x,
        src_y: region.source.y,
        dst_x: region.destination.x,
        dst_y: region.destination.y,
        width: region.width,
        height: region.height,
        src_pitch: region.source.pitch as usize,
        dst_pitch: region.destination.pitch as usize,
        src_slice_pitch: region.source.slice_pitch,
        dst_slice_pitch: region.destination.slice_pitch,
        depth: region.depth,
    }
}

/// A flat region as the original declares it.
pub const fn originals(flat: &FlatRegion) -> ConvertRegion {
    ConvertRegion {
        src_x: flat.src_x,
        src_y: flat.src_y,
        dst_x: flat.dst_x,
        dst_y: flat.dst_y,
        width: flat.width,
        height: flat.height,
        src_pitch: flat.src_pitch,
        dst_pitch: flat.dst_pitch,
        src_slice_pitch: flat.src_slice_pitch,
        dst_slice_pitch: flat.dst_slice_pitch,
        depth: flat.depth,
    }
}

/// The region that covers `width` by `height` texels from the first byte of either buffer.
///
/// Its source slice is `height` rows, which for a planar source is the number of luma rows.
pub const fn whole_frame(width: u32, height: u32, src_pitch: usize, dst_pitch: usize) -> Region {
    Region {
        source: rows(src_pitch, height),
        destination: rows(dst_pitch, height),
        ..Region::new(width, height)
    }
}

/// A side of so many rows from its first byte on.
const fn rows(pitch: usize, height: u32) -> Side {
    Side {
        start: 0,
        pitch: pitch as i64,
        slice_pitch: pitch * height as usize,
        x: 0,
        y: 0,
    }
}

/// One texel's `N` destination bytes; `None` if the original refuses.
pub fn convert_texel<const N: usize>(
    dst_format: u32,
    src: &[u8],
    src_format: u32,
) -> Option<[u8; N]> {
    let mut dst = [0; N];
    let region = originals(&flat(&whole_frame(1, 1, src.len(), N)));
    convert_region(&mut dst, dst_format, src, src_format, &region).then_some(dst)
}

/// `length` random bytes.
pub fn random_bytes(random: &mut XorShift, length: usize) -> Vec<u8> {
    let mut bytes = vec![0; length];
    for chunk in bytes.chunks_mut(8) {
        chunk.copy_from_slice(&random.next_u64().to_le_bytes()[..chunk.len()]);
    }
    bytes
}

/// The bytes of `count` random binary32 numbers from 0 to 1.
pub fn random_units(random: &mut XorShift, count: usize) -> Vec<u8> {
    (0..count)
        .flat_map(|_| random.next_unit().to_le_bytes())
        .collect()
}

/// A seed in decimal, or in hexadecimal after 0x.
pub fn read_seed(word: &str) -> Option<u64> {
    match word.strip_prefix("0x") {
        Some(digits) => u64::from_str_radix(digits, 16).ok(),
        None => word.parse().ok(),
    }
}
