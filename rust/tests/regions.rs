//! Regions of two sides: the same conversions as those of flat regions, and what the value types are.

mod common;

use std::collections::HashSet;
use std::hash::Hash;

use common::{Numbers, RGB, TO_A8R8G8B8, bytes, random_region};
use wentuqis::convert::try_d3dcolor_fill_pixel_bytes;
use wentuqis::depth_texture::{PackedDepth, PlaneLayout};
use wentuqis::format::*;
use wentuqis::pixel_convert::{
    ConvertRegion, Region, Side, YuvSet, convert, try_convert_region, try_convert_region_with_set,
};
use wentuqis::planar_yuv::planar_yuv_layout;
use wentuqis::{Refusal, Refused, UnknownRefusal};

#[test]
fn a_flat_region_keeps_each_number() {
    let flat = ConvertRegion {
        src_x: 1,
        src_y: 2,
        dst_x: 3,
        dst_y: 4,
        width: 5,
        height: 6,
        src_pitch: 7,
        dst_pitch: 8,
        src_slice_pitch: 9,
        dst_slice_pitch: 10,
        depth: 11,
    };
    let region = Region {
        source: Side {
            start: 0,
            pitch: 7,
            slice_pitch: 9,
            x: 1,
            y: 2,
        },
        destination: Side {
            start: 0,
            pitch: 8,
            slice_pitch: 10,
            x: 3,
            y: 4,
        },
        depth: 11,
        width: 5,
        height: 6,
    };
    assert_eq!(Region::from(flat), region);
}

#[test]
fn a_new_region_has_one_slice_at_the_origins() {
    let flat = ConvertRegion {
        width: 7,
        height: 3,
        depth: 1,
        ..ConvertRegion::default()
    };
    assert_eq!(Region::new(7, 3), Region::from(flat));
}

#[test]
fn pitches_past_63_bits_are_held() {
    let half = 1_usize << 63;
    let flat = |src_pitch, src_slice_pitch, depth| ConvertRegion {
        src_pitch,
        src_slice_pitch,
        dst_pitch: usize::MAX,
        dst_slice_pitch: 9,
        depth,
        ..ConvertRegion::default()
    };
    for (pitch, slice_pitch, depth, held) in [
        // of one slice it is no multiple of the pitch just where it was none
        (half, 0, 1, 0),
        (half, half, 1, 0),
        (half, half + 1, 1, 1),
        (half, half - 1, 1, 1),
        (usize::MAX, usize::MAX, 1, 0),
        (usize::MAX, half, 1, 1),
        // of several it stays, since a source with lanes goes by it
        (half, 5, 2, 5),
        (half, 5, 0, 5),
        // and so does one with a pitch that is held by no one
        (half - 1, 5, 1, 5),
    ] {
        let region = Region::from(flat(pitch, slice_pitch, depth));
        assert_eq!(region.source.slice_pitch, held, "{pitch} {slice_pitch}");
        assert_eq!((region.source.pitch, region.source.start), (i64::MAX, 0));
        assert_eq!(region.destination.pitch, i64::MAX);
        assert_eq!(region.destination.slice_pitch, 9);
    }
}

#[test]
fn replies_to_pitches_past_63_bits() {
    let reply = |format, change: fn(&mut ConvertRegion)| {
        let mut flat = ConvertRegion {
            width: 2,
            height: 1,
            src_pitch: 1 << 63,
            dst_pitch: usize::MAX,
            depth: 1,
            ..ConvertRegion::default()
        };
        change(&mut flat);
        let (src, mut dst) = (bytes(64), bytes(64));
        let reply = try_convert_region(&mut dst, D3DFMT_A8R8G8B8, &src, format, &flat);
        assert!(reply.is_ok() || dst == bytes(64));
        reply.map_or_else(|refused| refused.number(), |()| 0)
    };
    // row 0 is where it was, and so are its slices
    for format in [D3DFMT_A8, D3DFMT_YUY2, D3DFMT_A16B16G16R16] {
        assert_eq!(reply(format, |_| ()), 0);
        assert_eq!(reply(format, |r| (r.depth, r.src_slice_pitch) = (2, 16)), 0);
        assert_eq!(reply(format, |r| r.src_y = 1), 3);
        assert_eq!(reply(format, |r| (r.src_pitch, r.height) = (0, 2)), 4);
    }
    // a planar source has no layout, but it may be empty
    for format in [D3DFMT_NV12, D3DFMT_YV12] {
        assert_eq!(reply(format, |_| ()), 3);
        assert_eq!(reply(format, |r| r.src_slice_pitch = 1 << 63), 3);
        assert_eq!(reply(format, |r| r.src_slice_pitch = 1), 2);
        assert_eq!(reply(format, |r| r.depth = 2), 2);
        assert_eq!(reply(format, |r| r.width = 0), 0);
        assert_eq!(reply(format, |r| (r.width, r.src_slice_pitch) = (0, 7)), 2);
    }
}

/// The rows of a picture in the other order.
fn turned(picture: &[u8], row_bytes: usize) -> Vec<u8> {
    picture.rchunks(row_bytes).flatten().copied().collect()
}

/// A side that is stored top row first.
fn top_down(row_bytes: u32) -> Side {
    Side {
        pitch: row_bytes.into(),
        ..Side::default()
    }
}

#[test]
fn a_picture_is_turned_over_and_back() {
    let (set, rows) = (&YuvSet::BT601, 3);
    let sources = RGB.iter().chain(&TO_A8R8G8B8).copied();
    for (format, texel) in sources.chain([(D3DFMT_YUY2, 2), (D3DFMT_UYVY, 2)]) {
        // four texels of a row, and padding
        let (row, wide) = (4 * texel as u32 + 4, 4 * 4 + 3);
        let picture = bytes((row * rows) as usize);
        let shown = |source, destination, picture: &[u8]| {
            let region = Region {
                source,
                destination,
                ..Region::new(4, rows)
            };
            let mut screen = vec![7; (wide * rows) as usize];
            let to = D3DFMT_A8R8G8B8;
            convert(&mut screen, to, picture, format, &region, set).unwrap();
            screen
        };
        let (up, down) = (Side::bottom_up(row, rows), Side::bottom_up(wide, rows));
        let upright = shown(top_down(row), top_down(wide), &picture);
        let over = shown(top_down(row), down, &picture);
        assert_eq!(over, turned(&upright, wide as usize));
        let grabbed = turned(&picture, row as usize);
        assert_eq!(shown(up, top_down(wide), &grabbed), upright);
        assert_eq!(shown(up, down, &grabbed), over);
    }
}

#[test]
fn bottom_up_sides() {
    let side = |row_bytes, rows| {
        let side = Side::bottom_up(row_bytes, rows);
        assert_eq!((side.slice_pitch, side.x, side.y), (0, 0, 0));
        (side.start, side.pitch)
    };
    assert_eq!(side(16, 3), (32, -16));
    assert_eq!(side(16, 1), (0, -16));
    assert_eq!(side(16, 0), (0, -16));
    assert_eq!(side(0, 9), (0, 0));
    let most = u64::from(u32::MAX);
    let widest = (most * (most - 1), -i64::from(u32::MAX));
    assert_eq!(side(u32::MAX, u32::MAX), widest);
}

#[test]
fn a_planar_frame_counts_from_its_start() {
    // two by two texels behind one byte, and the last V is the buffer's last byte
    for (format, frame) in [
        (D3DFMT_NV12, [99, 16, 16, 235, 235, 128, 100]),
        (D3DFMT_YV12, [99, 16, 16, 235, 235, 100, 128]),
    ] {
        let region = |start| Region {
            source: Side {
                start,
                pitch: 2,
                slice_pitch: 4,
                ..Side::default()
            },
            destination: top_down(8),
            ..Region::new(2, 2)
        };
        let (to, set) = (D3DFMT_A8R8G8B8, &YuvSet::BT601);
        let (mut plain, mut started) = ([0; 16], [1; 16]);
        convert(&mut plain, to, &frame[1..], format, &region(0), set).unwrap();
        convert(&mut started, to, &frame, format, &region(1), set).unwrap();
        assert_eq!(plain, started);
        for start in [2, u64::MAX] {
            let reply = convert(&mut started, to, &frame, format, &region(start), set);
            assert_eq!(reply.unwrap_err().refusal, Refusal::SourceOutside);
        }
    }
}

#[test]
fn parts_of_a_place_cancel() {
    // 2^64 - 1 + 1 - 2^24 × 2^40 is 0
    let far = Side {
        start: u64::MAX,
        pitch: -1 << 40,
        x: 1,
        y: 1 << 24,
        ..Side::default()
    };
    let near = top_down(1);
    let (format, set) = (D3DFMT_A8, &YuvSet::BT601);
    for (source, destination) in [(far, near), (near, far)] {
        let region = Region {
            source,
            destination,
            ..Region::new(1, 1)
        };
        let mut texel = [0];
        convert(&mut texel, format, &[5], format, &region, set).unwrap();
        assert_eq!(texel, [5]);
    }
}

#[test]
fn both_kinds_of_region_convert_alike() {
    let yuv = [D3DFMT_YV12, D3DFMT_NV12, D3DFMT_YUY2, D3DFMT_UYVY];
    let texels = RGB.iter().chain(&TO_A8R8G8B8).map(|(format, _)| *format);
    let formats: Vec<u32> = texels.chain(yuv).chain([D3DFMT_D16]).collect();
    let sets = [
        YuvSet::BT601,
        YuvSet::BT709,
        YuvSet {
            chroma_centre: 9,
            ..YuvSet::BT601
        },
    ];
    let mut numbers = Numbers::new(3);
    let mut replies = HashSet::new();
    for _ in 0..30_000 {
        let flat = random_region(&mut numbers, true);
        let mut pick = || formats[numbers.below(formats.len() as u64) as usize];
        let (from, to) = (pick(), pick());
        let set = &sets[numbers.below(3) as usize];
        let lens = [numbers.below(300) as usize, numbers.below(600) as usize];
        let (src, [mut dst, mut by_sides]) = (bytes(lens[0]), [0; 2].map(|_| bytes(lens[1])));
        let reply = try_convert_region_with_set(&mut dst, to, &src, from, &flat, set);
        let again = convert(&mut by_sides, to, &src, from, &flat.into(), set);
        let number = |reply: Result<(), Refused>| reply.map_err(|refused| refused.number());
        assert_eq!((number(reply), &dst), (number(again), &by_sides));
        // a pitch that no side has stands in the text as it was given
        let held = flat.dst_pitch > i64::MAX as usize;
        assert!(held || reply == again);
        if *set == YuvSet::BT601 {
            let mut plain = bytes(lens[1]);
            let once_more = try_convert_region(&mut plain, to, &src, from, &flat);
            assert_eq!((once_more, &plain), (reply, &by_sides));
        }
        replies.insert(reply.map_err(|refused| refused.number()));
    }
    for number in [1, 2, 3, 4, 15] {
        assert!(replies.contains(&Err(number)), "refusal {number}");
    }
    assert!(replies.contains(&Ok(())));
}

#[test]
fn the_constants_are_the_sets_of_the_library() {
    assert_eq!(YuvSet::bt601(), YuvSet::BT601);
    assert_eq!(YuvSet::bt709(), YuvSet::BT709);
}

#[test]
fn refusals_of_numbers() {
    for number in 1..=15 {
        assert_eq!(Refusal::try_from(number).unwrap().number(), number);
    }
    for number in [0, 16, u32::MAX] {
        let unknown: Box<dyn std::error::Error> = Box::new(Refusal::try_from(number).unwrap_err());
        assert!(unknown.to_string().starts_with(&number.to_string()));
        assert_eq!(Refusal::try_from(number), Err(UnknownRefusal(number)));
    }
}

/// Whether a value and its copy are one in a set, and another value is a second.
fn has_a_hash<T: Copy + Eq + Hash>(value: T, other: T) -> bool {
    HashSet::from([value, value, other]).len() == 2
}

#[test]
fn values_have_a_hash() {
    let refused = |height| PlaneLayout::try_new(0, height, 4).unwrap_err();
    let frame = |width| planar_yuv_layout(D3DFMT_NV12, width, 2).unwrap();
    let fill = |color| try_d3dcolor_fill_pixel_bytes(color, D3DFMT_A8).unwrap();
    let planes = |width| PlaneLayout::new(width, 1, 4).unwrap();
    let flat = |width| ConvertRegion {
        width,
        ..ConvertRegion::default()
    };
    let side = |x| Side {
        x,
        ..Side::default()
    };
    assert!(has_a_hash(Region::new(1, 1), Region::new(1, 2)));
    assert!(has_a_hash(side(1), side(2)));
    assert!(has_a_hash(flat(1), flat(2)));
    assert!(has_a_hash(YuvSet::BT601, YuvSet::BT709));
    assert!(has_a_hash(planes(1), planes(2)));
    assert!(has_a_hash(frame(2), frame(8)));
    assert!(has_a_hash(fill(0), fill(u32::MAX)));
    assert!(has_a_hash(refused(1), refused(2)));
    assert!(has_a_hash(PackedDepth::D16, PackedDepth::D24S8));
    assert!(has_a_hash(Refusal::NoFill, Refusal::ZeroSize));
}
