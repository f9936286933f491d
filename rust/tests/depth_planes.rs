//! Depth planes: refusals 6 to 13 at the edge of every buffer and at the largest numbers, and the
//! codes that are restored or nearest.

mod common;

use common::{Numbers, but, bytes};
use wentuqis::Refusal::{self, *};
use wentuqis::depth_texture::{PackedDepth, PlaneLayout};
use wentuqis::format::*;

/// Lengths of the packed buffer and of the two planes, and the packed pitch.
#[derive(Clone, Copy)]
struct Lent {
    packed: usize,
    pitch: usize,
    depth: usize,
    stencil: usize,
}

/// Checks that unpack and pack both refuse, with this reason, and keep every byte that was lent.
#[track_caller]
fn refuses(refusal: Refusal, format: u32, layout: &PlaneLayout, lent: Lent) {
    let (mut packed, mut depth, mut stencil) =
        (bytes(lent.packed), bytes(lent.depth), bytes(lent.stencil));
    let unpacked = layout
        .try_unpack(format, &packed, lent.pitch, &mut depth, &mut stencil)
        .expect_err("refused");
    let repacked = layout
        .try_pack(format, &depth, &stencil, &mut packed, lent.pitch)
        .expect_err("refused");
    assert_eq!((unpacked.refusal, repacked.refusal), (refusal, refusal));
    assert_eq!(unpacked, repacked);
    if let Some(kind) = PackedDepth::from_d3d(format) {
        assert!(!layout.unpack(&kind, &packed, lent.pitch, &mut depth, &mut stencil));
        assert!(!layout.pack(&kind, &depth, &stencil, &mut packed, lent.pitch));
    }
    assert_eq!(packed, bytes(lent.packed));
    assert_eq!(depth, bytes(lent.depth));
    assert_eq!(stencil, bytes(lent.stencil));
}

/// Three formats with buffers that just fit a layout, at a pitch of three bytes more than a row.
fn fitting(layout: &PlaneLayout) -> [(PackedDepth, Lent); 3] {
    [PackedDepth::D16, PackedDepth::D24X8, PackedDepth::D24S8].map(|format| {
        let row = layout.width * format.bytes_per_pixel();
        let stencil = if format.has_stencil() {
            layout.stencil_pitch * layout.height
        } else {
            0
        };
        let lent = Lent {
            packed: (layout.height - 1) * (row + 3) + row,
            pitch: row + 3,
            depth: layout.depth_pitch * layout.height,
            stencil,
        };
        (format, lent)
    })
}

#[test]
fn layouts() {
    for ((width, height, alignment), (depth_pitch, stencil_pitch)) in [
        ((5, 3, 0), (20, 8)),
        ((5, 3, 3), (20, 8)),
        ((5, 3, 4), (20, 8)),
        ((5, 3, 16), (32, 16)),
        ((1, 1, 1 << 31), (1 << 31, 1 << 31)),
        // 4 * (2^32 - 1) * 2^30 and 2^32 * (2^32 - 1) are the most that 64 bits count
        ((u32::MAX, 1 << 30, 4), (4 * (u32::MAX as usize), 1 << 32)),
        ((1 << 30, u32::MAX, 1 << 31), (1 << 32, 1 << 31)),
    ] {
        let layout = PlaneLayout::try_new(width, height, alignment).unwrap();
        let expected = PlaneLayout {
            width: width as usize,
            height: height as usize,
            depth_pitch,
            stencil_pitch,
        };
        assert_eq!(layout, expected);
        assert_eq!(PlaneLayout::new(width, height, alignment), Some(expected));
    }
}

#[test]
fn layouts_refused() {
    for ((width, height, alignment), refusal) in [
        ((0, 1, 4), ZeroSize),
        ((1, 0, 4), ZeroSize),
        ((0, 0, 6), ZeroSize),
        ((1, 1, 5), NoPowerOfTwo),
        ((1, 1, 6), NoPowerOfTwo),
        ((1, 1, u32::MAX), NoPowerOfTwo),
        ((u32::MAX, u32::MAX, 12), NoPowerOfTwo),
        ((u32::MAX, u32::MAX, 4), Over64Bits),
        (((1 << 30) + 1, u32::MAX, 1 << 31), Over64Bits),
        ((u32::MAX, (1 << 30) + 1, 4), Over64Bits),
    ] {
        let refused = PlaneLayout::try_new(width, height, alignment);
        assert_eq!(refused.map_err(|refused| refused.refusal), Err(refusal));
        assert_eq!(PlaneLayout::new(width, height, alignment), None);
    }
}

#[test]
fn buffers_that_just_fit() {
    let layout = PlaneLayout::new(5, 3, 8).unwrap();
    for (format, lent) in fitting(&layout) {
        let (mut depth, mut stencil) = (bytes(lent.depth), bytes(lent.stencil));
        let packed = bytes(lent.packed);
        assert!(layout.unpack(&format, &packed, lent.pitch, &mut depth, &mut stencil));
        let mut again = bytes(lent.packed);
        assert!(layout.pack(&format, &depth, &stencil, &mut again, lent.pitch));
        for (refusal, short) in [
            (ShortPacked, but(lent, |l| l.packed -= 1)),
            (ShortPacked, but(lent, |l| l.packed = 0)),
            (ShortDepth, but(lent, |l| l.depth -= 1)),
            (ShortDepth, but(lent, |l| l.depth = 0)),
        ] {
            refuses(refusal, format.code(), &layout, short);
        }
    }
}

#[test]
fn stencil_that_just_fits() {
    let layout = PlaneLayout::new(5, 3, 8).unwrap();
    let [_, _, (format, lent)] = fitting(&layout);
    for stencil in [0, lent.stencil - 1] {
        refuses(
            ShortStencil,
            format.code(),
            &layout,
            but(lent, |l| l.stencil = stencil),
        );
    }
}

#[test]
fn longer_buffers_keep_what_lies_behind() {
    let layout = PlaneLayout::new(5, 3, 8).unwrap();
    for (format, lent) in fitting(&layout) {
        let (mut depth, mut stencil) = (bytes(lent.depth + 1), bytes(lent.stencil + 1));
        let packed = bytes(lent.packed + 1);
        assert!(layout.unpack(&format, &packed, lent.pitch, &mut depth, &mut stencil));
        assert_eq!(depth[lent.depth], bytes(lent.depth + 1)[lent.depth]);
        assert_eq!(stencil[lent.stencil], bytes(lent.stencil + 1)[lent.stencil]);
        let mut again = bytes(lent.packed + 1);
        again.reverse();
        let before = again.clone();
        assert!(layout.pack(&format, &depth, &stencil, &mut again, lent.pitch));
        let row = layout.width * format.bytes_per_pixel();
        for (i, byte) in again.iter().enumerate() {
            if i % lent.pitch >= row || i >= lent.packed {
                assert_eq!(*byte, before[i], "padding is kept");
            }
        }
    }
}

#[test]
fn planes_stand_where_the_layout_says() {
    let layout = PlaneLayout::new(2, 2, 16).unwrap();
    let codes = [0_u32, 0xff_ffff, 0x80_0000, 1];
    let packed: Vec<u8> = (0..4)
        .flat_map(|i| (codes[i] << 8 | i as u32).to_le_bytes())
        .collect();
    let (mut depth, mut stencil) = (bytes(32), bytes(32));
    assert!(layout.unpack(&PackedDepth::D24S8, &packed, 8, &mut depth, &mut stencil));
    let (mut depths, mut stencils) = (bytes(32), bytes(32));
    for (i, code) in codes.into_iter().enumerate() {
        let (row, column) = (16 * (i / 2), i % 2);
        let number = code as f32 / 16_777_215.0;
        depths[row + 4 * column..][..4].copy_from_slice(&number.to_le_bytes());
        stencils[row + column] = i as u8;
    }
    assert_eq!((depth, stencil), (depths, stencils));
}

#[test]
fn other_formats() {
    let nonsense = PlaneLayout {
        width: 0,
        height: usize::MAX,
        depth_pitch: 1,
        stencil_pitch: 0,
    };
    let lent = Lent {
        packed: 8,
        pitch: 1,
        depth: 8,
        stencil: 8,
    };
    for format in [0, D3DFMT_A8R8G8B8, D3DFMT_NV12, 76, u32::MAX] {
        refuses(NotPackedDepth, format, &nonsense, lent);
        refuses(
            NotPackedDepth,
            format,
            &PlaneLayout::new(1, 1, 4).unwrap(),
            lent,
        );
        assert_eq!(PackedDepth::from_d3d(format), None);
    }
}

#[test]
fn layouts_that_do_not_stand() {
    let good = PlaneLayout::new(5, 3, 8).unwrap();
    let lent = Lent {
        packed: 100,
        pitch: 20,
        depth: 100,
        stencil: 100,
    };
    for bad in [
        but(good, |l| l.width = 0),
        but(good, |l| l.height = 0),
        but(good, |l| l.depth_pitch = 19),
        but(good, |l| l.depth_pitch = 0),
        but(good, |l| l.stencil_pitch = 4),
        but(good, |l| l.stencil_pitch = usize::MAX / 3 + 1),
        but(good, |l| l.depth_pitch = usize::MAX / 3 + 1),
        but(good, |l| l.width = usize::MAX),
        PlaneLayout {
            width: 1 << 62,
            height: 1,
            depth_pitch: usize::MAX,
            stencil_pitch: usize::MAX,
        },
        but(good, |l| l.height = usize::MAX),
    ] {
        for format in [D3DFMT_D16, D3DFMT_D24X8, D3DFMT_D24S8] {
            refuses(BadLayout, format, &bad, lent);
        }
    }
}

#[test]
fn packed_rows_that_are_too_short() {
    let layout = PlaneLayout::new(5, 3, 8).unwrap();
    for (format, lent) in fitting(&layout) {
        let row = layout.width * format.bytes_per_pixel();
        for pitch in [0, row - 1, usize::MAX / 2 + 1, usize::MAX] {
            refuses(
                ShortPacked,
                format.code(),
                &layout,
                but(lent, |l| l.pitch = pitch),
            );
        }
    }
    let high = PlaneLayout {
        width: 1,
        height: usize::MAX / 4,
        depth_pitch: 4,
        stencil_pitch: 1,
    };
    let lent = Lent {
        packed: 64,
        pitch: usize::MAX,
        depth: 64,
        stencil: 64,
    };
    refuses(ShortPacked, D3DFMT_D24S8, &high, lent);
}

#[test]
fn every_d16_code_is_restored() {
    let layout = PlaneLayout::new(256, 256, 4).unwrap();
    let packed: Vec<u8> = (0..=u16::MAX).flat_map(u16::to_le_bytes).collect();
    let (mut depth, mut again) = (vec![0; 4 << 16], vec![0; 2 << 16]);
    assert!(layout.unpack(&PackedDepth::D16, &packed, 512, &mut depth, &mut []));
    assert!(layout.pack(&PackedDepth::D16, &depth, &[], &mut again, 512));
    assert_eq!(again, packed);
}

#[test]
fn d24s8_pixels_are_restored_at_another_pitch() {
    let layout = PlaneLayout::new(257, 100, 64).unwrap();
    let mut numbers = Numbers::new(24);
    let packed: Vec<u8> = (0..1031 * 100).map(|_| numbers.below(256) as u8).collect();
    let mut depth = vec![0; layout.depth_pitch * 100];
    let mut stencil = vec![0; layout.stencil_pitch * 100];
    layout
        .try_unpack(D3DFMT_D24S8, &packed, 1031, &mut depth, &mut stencil)
        .unwrap();
    let mut again = vec![0; 1100 * 100];
    layout
        .try_pack(D3DFMT_D24S8, &depth, &stencil, &mut again, 1100)
        .unwrap();
    for y in 0..100 {
        assert_eq!(packed[y * 1031..][..1028], again[y * 1100..][..1028]);
        assert!(
            again[y * 1100 + 1028..(y + 1) * 1100]
                .iter()
                .all(|b| *b == 0)
        );
    }
}

#[test]
fn nearest_codes() {
    let layout = PlaneLayout::new(1, 1, 4).unwrap();
    for (depth, d16, d24) in [
        (0.0, 0, 0),
        (1.0, 0xffff, 0xff_ffff),
        (0.5, 32768, 8_388_608),
        (-1.0, 0, 0),
        (2.0, 0xffff, 0xff_ffff),
        (f32::NAN, 0, 0),
        (f32::INFINITY, 0xffff, 0xff_ffff),
        (f32::NEG_INFINITY, 0, 0),
        (f32::MIN_POSITIVE, 0, 0),
    ] {
        let (mut half, mut word) = ([9; 2], [9; 4]);
        let plane = depth.to_le_bytes();
        assert!(layout.pack(&PackedDepth::D16, &plane, &[], &mut half, 2));
        assert_eq!(u16::from_le_bytes(half), d16);
        assert!(layout.pack(&PackedDepth::D24X8, &plane, &[], &mut word, 4));
        assert_eq!(u32::from_le_bytes(word), d24, "X is 0");
        assert!(layout.pack(&PackedDepth::D24S8, &plane, &[7; 4], &mut word, 4));
        assert_eq!(u32::from_le_bytes(word), d24 << 8 | 7);
    }
}
