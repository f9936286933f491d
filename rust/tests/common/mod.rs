//! What the integration tests share: lent buffers whose bytes are known, and conversions that check
//! both forms of the call and every byte that must be kept.

#![allow(dead_code)] // each test program uses a part

use wentuqis::format::*;
use wentuqis::pixel_convert::{
    ConvertRegion, YuvSet, convert_region, convert_region_with_set, try_convert_region,
    try_convert_region_with_set,
};
use wentuqis::{Refusal, Refused};

/// The twelve RGB formats that convert into each other, with their bytes a texel.
pub const RGB: [(u32, usize); 12] = [
    (D3DFMT_R8G8B8, 3),
    (D3DFMT_A8R8G8B8, 4),
    (D3DFMT_X8R8G8B8, 4),
    (D3DFMT_R5G6B5, 2),
    (D3DFMT_X1R5G5B5, 2),
    (D3DFMT_A1R5G5B5, 2),
    (D3DFMT_A4R4G4B4, 2),
    (D3DFMT_A8, 1),
    (D3DFMT_A8B8G8R8, 4),
    (D3DFMT_X8B8G8R8, 4),
    (D3DFMT_L8, 1),
    (D3DFMT_A8L8, 2),
];

/// The formats that convert into A8R8G8B8 only, with their bytes a texel: the wide ones, normal maps
/// and ten-bit stills.
pub const TO_A8R8G8B8: [(u32, usize); 8] = [
    (D3DFMT_A16B16G16R16, 8),
    (D3DFMT_A32B32G32R32F, 16),
    (D3DFMT_A2R10G10B10, 4),
    (D3DFMT_A2B10G10R10, 4),
    (D3DFMT_G16R16, 4),
    (D3DFMT_L16, 2),
    (D3DFMT_V8U8, 2),
    (D3DFMT_Q8W8V8U8, 4),
];

/// `len` bytes that differ from their neighbours, so that a moved or written byte is seen.
pub fn bytes(len: usize) -> Vec<u8> {
    (0..len).map(|i| (i * 37 + 11) as u8).collect()
}

/// A value with some of its fields changed.
pub fn but<T>(mut value: T, change: impl FnOnce(&mut T)) -> T {
    change(&mut value);
    value
}

/// A region of one slice at the origin.
pub fn region(width: u32, height: u32, src_pitch: usize, dst_pitch: usize) -> ConvertRegion {
    ConvertRegion {
        width,
        height,
        src_pitch,
        dst_pitch,
        depth: 1,
        ..ConvertRegion::default()
    }
}

/// The destination after an accepted conversion; both forms of the call must agree.
pub fn converted(
    dst_len: usize,
    dst_format: u32,
    src: &[u8],
    src_format: u32,
    region: &ConvertRegion,
) -> Vec<u8> {
    both_accept(
        dst_len,
        |dst| try_convert_region(dst, dst_format, src, src_format, region),
        |dst| convert_region(dst, dst_format, src, src_format, region),
    )
}

/// The same by a set of numbers.
pub fn converted_with_set(
    dst_len: usize,
    dst_format: u32,
    src: &[u8],
    src_format: u32,
    region: &ConvertRegion,
    numbers: &YuvSet,
) -> Vec<u8> {
    both_accept(
        dst_len,
        |dst| try_convert_region_with_set(dst, dst_format, src, src_format, region, numbers),
        |dst| convert_region_with_set(dst, dst_format, src, src_format, region, numbers),
    )
}

fn both_accept(
    dst_len: usize,
    with_reason: impl FnOnce(&mut [u8]) -> Result<(), Refused>,
    without: impl FnOnce(&mut [u8]) -> bool,
) -> Vec<u8> {
    let (mut dst, mut again) = (bytes(dst_len), bytes(dst_len));
    assert_eq!(with_reason(&mut dst), Ok(()));
    assert!(without(&mut again));
    assert_eq!(dst, again);
    dst
}

/// Checks that both forms refuse, with this reason, and keep every byte that was lent.
#[track_caller]
pub fn refuses(
    refusal: Refusal,
    dst_len: usize,
    dst_format: u32,
    src_len: usize,
    src_format: u32,
    region: &ConvertRegion,
) {
    both_refuse(
        refusal,
        [dst_len, src_len],
        |dst, src| try_convert_region(dst, dst_format, src, src_format, region),
        |dst, src| convert_region(dst, dst_format, src, src_format, region),
    );
}

/// The same by a set of numbers.
#[track_caller]
pub fn refuses_with_set(
    refusal: Refusal,
    dst_len: usize,
    dst_format: u32,
    src_len: usize,
    src_format: u32,
    region: &ConvertRegion,
    numbers: &YuvSet,
) {
    both_refuse(
        refusal,
        [dst_len, src_len],
        |dst, src| try_convert_region_with_set(dst, dst_format, src, src_format, region, numbers),
        |dst, src| convert_region_with_set(dst, dst_format, src, src_format, region, numbers),
    );
}

#[track_caller]
fn both_refuse(
    refusal: Refusal,
    [dst_len, src_len]: [usize; 2],
    with_reason: impl FnOnce(&mut [u8], &[u8]) -> Result<(), Refused>,
    without: impl FnOnce(&mut [u8], &[u8]) -> bool,
) {
    let (mut dst, mut again, src) = (bytes(dst_len), bytes(dst_len), bytes(src_len));
    let refused = with_reason(&mut dst, &src).expect_err("refused");
    assert_eq!(refused.refusal, refusal, "{refused}");
    assert_eq!(refused.number(), refusal.number());
    assert!(!without(&mut again, &src));
    assert!(
        [dst, again] == [bytes(dst_len), bytes(dst_len)] && src == bytes(src_len),
        "lent bytes are kept"
    );
}

/// A sequence of numbers that look random and are the same in each run.
pub struct Numbers(u64);

impl Numbers {
    pub fn new(seed: u64) -> Self {
        Self(seed)
    }

    /// A number below `bound`.
    pub fn below(&mut self, bound: u64) -> u64 {
        self.0 ^= self.0 << 13;
        self.0 ^= self.0 >> 7;
        self.0 ^= self.0 << 17;
        self.0 % bound
    }
}

/// A small region with random numbers; with `extremes`, one number in forty, but of the source pitch, is
/// among the largest of 64 bits.
pub fn random_region(numbers: &mut Numbers, extremes: bool) -> ConvertRegion {
    let src_pitch = 2 * numbers.below(20) as usize;
    let mut small = |bound| {
        if extremes && numbers.below(40) == 0 {
            usize::MAX - numbers.below(4) as usize
        } else {
            numbers.below(bound) as usize
        }
    };
    ConvertRegion {
        src_x: small(4) as u32,
        src_y: small(4) as u32,
        dst_x: small(4) as u32,
        dst_y: small(4) as u32,
        width: (small(6) as u32).min(6),
        height: (small(6) as u32).min(6),
        src_pitch,
        dst_pitch: small(40),
        src_slice_pitch: src_pitch.wrapping_mul(small(10)),
        dst_slice_pitch: small(200),
        depth: small(3).min(3),
    }
}
