//! Conversions: refusals 1 to 4 at the edge of every buffer and at the largest numbers, and what is
//! written, and kept, where one is accepted.

mod common;

use common::{RGB, TO_A8R8G8B8, but, bytes, converted, refuses, region};
use wentuqis::Refusal::{DestinationOutside, PlanarShape, SourceOutside, UnsupportedPair};
use wentuqis::format::*;
use wentuqis::pixel_convert::{ConvertRegion, can_convert, can_convert_update};
use wentuqis::stretch_rect::{yuv_to_rgb8, yuv_to_rgb8_by_tables};

/// Every pair that converts: source, its bytes for an even column count, destination, its bytes.
fn pairs_of_texels() -> impl Iterator<Item = (u32, usize, u32, usize)> {
    let narrow = RGB
        .into_iter()
        .chain([(D3DFMT_YUY2, 2), (D3DFMT_UYVY, 2)])
        .flat_map(|(src, from)| RGB.map(|(dst, to)| (src, from, dst, to)));
    let others = TO_A8R8G8B8.map(|(src, from)| (src, from, D3DFMT_A8R8G8B8, 4));
    narrow.chain(others)
}

#[test]
fn pairs_that_convert() {
    for (src, _, dst, _) in pairs_of_texels() {
        assert!(can_convert(src, dst));
        let update = TO_A8R8G8B8.iter().all(|(code, _)| *code != src);
        assert_eq!(can_convert_update(src, dst), update);
    }
    for (dst, _) in RGB {
        for planar in [D3DFMT_YV12, D3DFMT_NV12] {
            assert!(can_convert(planar, dst) && !can_convert_update(planar, dst));
        }
    }
}

#[test]
fn unsupported_pairs_come_first() {
    let nonsense = ConvertRegion {
        src_x: u32::MAX,
        width: u32::MAX,
        height: u32::MAX,
        src_pitch: usize::MAX,
        depth: usize::MAX,
        ..ConvertRegion::default()
    };
    for (src, dst) in [
        (D3DFMT_A8R8G8B8, D3DFMT_YUY2),
        (D3DFMT_D16, D3DFMT_A8R8G8B8),
        (D3DFMT_NV12, D3DFMT_NV12),
        (0, D3DFMT_A8R8G8B8),
        (u32::MAX, u32::MAX),
    ] {
        assert!(!can_convert(src, dst));
        for region in [nonsense, ConvertRegion::default()] {
            refuses(UnsupportedPair, 16, dst, 16, src, &region);
            refuses(UnsupportedPair, 0, dst, 0, src, &region);
        }
    }
}

#[test]
fn sources_that_convert_into_a8r8g8b8_only() {
    for (src, from) in TO_A8R8G8B8 {
        let one = region(1, 1, from, 4);
        for (dst, _) in RGB.into_iter().filter(|(dst, _)| *dst != D3DFMT_A8R8G8B8) {
            assert!(!can_convert(src, dst) && !can_convert_update(src, dst));
            refuses(UnsupportedPair, 4, dst, from, src, &one);
        }
        assert!(!can_convert(D3DFMT_A8R8G8B8, src) && !can_convert(src, src));
        refuses(UnsupportedPair, from, src, 4, D3DFMT_A8R8G8B8, &one);
    }
}

#[test]
fn buffers_that_just_fit() {
    for (src, from, dst, to) in pairs_of_texels() {
        let region = region(4, 3, 4 * from + 3, 4 * to + 5);
        let (src_len, dst_len) = (
            2 * region.src_pitch + 4 * from,
            2 * region.dst_pitch + 4 * to,
        );
        let exact = converted(dst_len, dst, &bytes(src_len), src, &region);
        let longer = converted(dst_len + 1, dst, &bytes(src_len + 1), src, &region);
        assert_eq!(exact, longer[..dst_len]);
        assert_eq!(longer[dst_len], bytes(dst_len + 1)[dst_len]);
        refuses(SourceOutside, dst_len, dst, src_len - 1, src, &region);
        refuses(DestinationOutside, dst_len - 1, dst, src_len, src, &region);
        refuses(SourceOutside, dst_len - 1, dst, src_len - 1, src, &region);
        refuses(SourceOutside, 0, dst, 0, src, &region);
        refuses(DestinationOutside, 0, dst, src_len, src, &region);
    }
}

#[test]
fn planar_buffers_that_just_fit() {
    for (src, rows, total) in [(D3DFMT_NV12, 3_usize, 50), (D3DFMT_YV12, 4, 60)] {
        let mut region = region(10, rows as u32, 10, 40);
        region.src_slice_pitch = 10 * rows;
        let dst_len = 40 * rows;
        converted(dst_len, D3DFMT_A8R8G8B8, &bytes(total), src, &region);
        refuses(
            SourceOutside,
            dst_len,
            D3DFMT_A8R8G8B8,
            total - 1,
            src,
            &region,
        );
        refuses(
            DestinationOutside,
            dst_len - 1,
            D3DFMT_A8R8G8B8,
            total,
            src,
            &region,
        );
    }
}

#[test]
fn row_padding_is_kept() {
    let region = but(region(2, 2, 2, 16), |r| (r.dst_x, r.dst_y) = (1, 1));
    let dst = converted(64, D3DFMT_A8R8G8B8, &[10, 20, 30, 40], D3DFMT_L8, &region);
    let mut expected = bytes(64);
    for (at, grey) in [(20, 10), (24, 20), (36, 30), (40, 40)] {
        expected[at..at + 4].copy_from_slice(&[grey, grey, grey, 255]);
    }
    assert_eq!(dst, expected);
}

#[test]
fn slices_rows_and_columns_are_found() {
    let src = bytes(64);
    let region = ConvertRegion {
        src_x: 1,
        src_y: 2,
        width: 2,
        height: 2,
        src_pitch: 5,
        dst_pitch: 2,
        src_slice_pitch: 30,
        dst_slice_pitch: 4,
        depth: 2,
        ..ConvertRegion::default()
    };
    let dst = converted(8, D3DFMT_L8, &src, D3DFMT_L8, &region);
    let expected = [11, 12, 16, 17, 41, 42, 46, 47].map(|at| src[at]);
    assert_eq!(dst, expected);
}

#[test]
fn the_last_of_overlapping_texels_stands() {
    let dst = converted(2, D3DFMT_L8, &[1, 2, 3, 4], D3DFMT_L8, &region(2, 2, 2, 0));
    assert_eq!(dst, [3, 4]);
}

#[test]
fn planar_and_packed_frames_of_one_colour_agree() {
    let (y, u, v) = (90, 84, 216);
    let packed = region(2, 2, 4, 8);
    let planar = but(region(2, 2, 2, 8), |r| r.src_slice_pitch = 4);
    for (format, frame, region) in [
        (D3DFMT_YUY2, [y, u, y, v].repeat(2), &packed),
        (D3DFMT_UYVY, [u, y, v, y].repeat(2), &packed),
        (D3DFMT_NV12, vec![y, y, y, y, u, v], &planar),
        (D3DFMT_YV12, vec![y, y, y, y, v, u], &planar),
    ] {
        let dst = converted(16, D3DFMT_A8R8G8B8, &frame, format, region);
        assert_eq!(dst, [0, 31, 227, 255].repeat(4));
    }
}

#[test]
fn luma_starts_at_16_065_and_chroma_is_centred_on_127_5() {
    assert_eq!(yuv_to_rgb8(0, 0, 3).1, 132);
    assert_eq!(yuv_to_rgb8(0, 0, 0).1, 135);
}

#[test]
fn yuv_lies_within_a_half_and_a_500th() {
    let steps = || (0..=255_u8).step_by(5);
    for (y, u, v) in
        steps().flat_map(|y| steps().flat_map(move |u| steps().map(move |v| (y, u, v))))
    {
        // all in millionths
        let luma = 1164 * (1000 * i64::from(y) - 16_065);
        let [cb, cr] = [u, v].map(|chroma| 1000 * i64::from(chroma) - 127_500);
        let exact = [
            luma + 1596 * cr,
            luma - 392 * cb - 813 * cr,
            luma + 2017 * cb,
        ];
        let (r, g, b) = yuv_to_rgb8(y, u, v);
        for (byte, exact) in [r, g, b].into_iter().zip(exact) {
            let error = 1_000_000 * i64::from(byte) - exact.clamp(0, 255_000_000);
            assert!(error.abs() <= 502_000, "{y} {u} {v}");
        }
    }
}

#[test]
fn tables_give_every_sample_the_same_colour() {
    for (y, u) in (0..=255_u8).flat_map(|y| (0..=255_u8).map(move |u| (y, u))) {
        for v in 0..=255 {
            let colour = yuv_to_rgb8(y, u, v);
            assert_eq!(yuv_to_rgb8_by_tables(y, u, v), colour, "{y} {u} {v}");
        }
    }
}

#[test]
fn texels_of_normal_maps_and_ten_bit_stills() {
    for (format, texel, [red, green, blue, alpha]) in [
        // 255 x 512 / 1023 is 127.6, 255 x 2 / 1023 is 0.499, 255 x 3 / 1023 is 0.7
        (
            D3DFMT_A2R10G10B10,
            (1_u32 << 30 | 1023 << 20 | 512 << 10 | 2)
                .to_le_bytes()
                .to_vec(),
            [255, 128, 0, 85],
        ),
        (
            D3DFMT_A2B10G10R10,
            (2_u32 << 30 | 1023 << 20 | 512 << 10 | 3)
                .to_le_bytes()
                .to_vec(),
            [1, 128, 255, 170],
        ),
        // 32768 / 257 is 127.502, 32767 / 257 is 127.498
        (
            D3DFMT_G16R16,
            vec![0x00, 0x80, 0xff, 0x7f],
            [128, 127, 255, 255],
        ),
        (D3DFMT_G16R16, vec![0xff, 0xff, 0, 0], [255, 0, 255, 255]),
        (D3DFMT_L16, vec![0x00, 0x80], [128, 128, 128, 255]),
        (D3DFMT_L16, vec![0xff, 0x7f], [127, 127, 127, 255]),
        // 255 x 64 / 127 is 128.504, 255 x 63 / 127 is 126.496
        (D3DFMT_V8U8, vec![0x40, 0x3f], [129, 126, 255, 255]),
        (D3DFMT_V8U8, vec![0x00, 0x81], [0, 0, 255, 255]),
        (
            D3DFMT_Q8W8V8U8,
            vec![0x7f, 0x01, 0x80, 0xff],
            [255, 2, 0, 0],
        ),
        (D3DFMT_Q8W8V8U8, vec![0, 0x80, 0x40, 0x7f], [0, 0, 129, 255]),
    ] {
        let one = region(1, 1, texel.len(), 4);
        let dst = converted(4, D3DFMT_A8R8G8B8, &texel, format, &one);
        assert_eq!(dst, [blue, green, red, alpha]);
    }
}

#[test]
fn normal_maps_and_ten_bit_stills_lie_within_a_half() {
    type Texel = fn(u32) -> u32;
    // each code of 0 to max as red, or as the luminance
    let lanes: [(u32, usize, u32, Texel); 6] = [
        (D3DFMT_A2R10G10B10, 4, 1023, |code| code << 20),
        (D3DFMT_A2B10G10R10, 4, 1023, |code| code),
        (D3DFMT_G16R16, 4, 65535, |code| code),
        (D3DFMT_L16, 2, 65535, |code| code),
        (D3DFMT_V8U8, 2, 127, |code| code),
        (D3DFMT_Q8W8V8U8, 4, 127, |code| code),
    ];
    for (format, size, max, texel) in lanes {
        let src: Vec<u8> = (0..=max)
            .flat_map(|code| texel(code).to_le_bytes().into_iter().take(size))
            .collect();
        let row = region(max + 1, 1, 0, 0);
        let dst_len = 4 * (max as usize + 1);
        let dst = converted(dst_len, D3DFMT_A8R8G8B8, &src, format, &row);
        for (code, bytes) in (0..=max).zip(dst.chunks_exact(4)) {
            let error = (u32::from(bytes[2]) * max).abs_diff(255 * code);
            assert!(2 * error <= max, "format {format}, code {code}");
        }
    }
}

#[test]
fn x_is_stored_as_ones_and_read_as_opaque() {
    let one = region(1, 1, 4, 4);
    let from_x = converted(4, D3DFMT_A8R8G8B8, &[1, 2, 3, 0], D3DFMT_X8R8G8B8, &one);
    assert_eq!(from_x, [1, 2, 3, 255]);
    let to_x = converted(4, D3DFMT_X8R8G8B8, &[1, 2, 3, 0], D3DFMT_A8R8G8B8, &one);
    assert_eq!(to_x, [1, 2, 3, 255]);
}

#[test]
fn planar_shapes() {
    let good = but(region(4, 2, 4, 16), |r| r.src_slice_pitch = 8);
    converted(32, D3DFMT_A8R8G8B8, &bytes(12), D3DFMT_NV12, &good);
    for bad in [
        but(good, |r| r.depth = 0),
        but(good, |r| r.depth = 2),
        but(good, |r| r.depth = usize::MAX),
        but(good, |r| r.src_pitch = 0),
        but(good, |r| r.src_slice_pitch = 7),
        but(good, |r| r.src_slice_pitch = 9),
        but(good, |r| r.src_slice_pitch = usize::MAX),
        but(good, |r| (r.src_slice_pitch, r.width) = (7, 0)),
    ] {
        for src in [D3DFMT_NV12, D3DFMT_YV12] {
            refuses(PlanarShape, 32, D3DFMT_A8R8G8B8, 12, src, &bad);
        }
    }
}

#[test]
fn planar_texels_outside_their_layout() {
    let good = but(region(4, 2, 4, 16), |r| r.src_slice_pitch = 8);
    for bad in [
        but(good, |r| r.width = 5),
        but(good, |r| r.height = 3),
        but(good, |r| r.src_x = 1),
        but(good, |r| r.src_y = 1),
        but(good, |r| r.src_x = u32::MAX),
        // no layout: an odd pitch, no rows, more rows than a texture has
        but(good, |r| (r.src_pitch, r.width) = (1, 1)),
        but(good, |r| r.src_slice_pitch = 0),
        but(good, |r| r.src_slice_pitch = 4 * 10924),
    ] {
        for src in [D3DFMT_NV12, D3DFMT_YV12] {
            refuses(SourceOutside, 400, D3DFMT_A8R8G8B8, 100_000, src, &bad);
        }
    }
    let odd = but(good, |r| r.src_slice_pitch = 12);
    converted(32, D3DFMT_A8R8G8B8, &bytes(20), D3DFMT_NV12, &odd);
    refuses(SourceOutside, 32, D3DFMT_A8R8G8B8, 20, D3DFMT_YV12, &odd);
}

#[test]
fn empty_regions_write_nothing() {
    let largest = ConvertRegion {
        src_x: u32::MAX,
        src_y: u32::MAX,
        dst_x: u32::MAX,
        dst_y: u32::MAX,
        width: u32::MAX,
        height: u32::MAX,
        src_pitch: usize::MAX,
        dst_pitch: usize::MAX,
        src_slice_pitch: usize::MAX,
        dst_slice_pitch: usize::MAX,
        depth: usize::MAX,
    };
    for empty in [
        but(largest, |r| r.width = 0),
        but(largest, |r| r.height = 0),
        but(largest, |r| r.depth = 0),
    ] {
        for len in [0, 1, 9] {
            let dst = converted(len, D3DFMT_A8R8G8B8, &bytes(len), D3DFMT_R5G6B5, &empty);
            assert_eq!(dst, bytes(len));
        }
    }
    refuses(SourceOutside, 9, D3DFMT_A8, 9, D3DFMT_A8, &largest);
}

#[test]
fn coordinates_end_at_32_bits() {
    let still = region(1, 1, 0, 0);
    let last = but(still, |r| (r.src_y, r.dst_y) = (u32::MAX, u32::MAX));
    assert_eq!(converted(1, D3DFMT_A8, &[5], D3DFMT_A8, &last), [5]);
    let past = but(last, |r| r.height = 2);
    refuses(SourceOutside, 1, D3DFMT_A8, 1, D3DFMT_A8, &past);
    let past_destination = but(past, |r| r.src_y = 0);
    refuses(
        DestinationOutside,
        1,
        D3DFMT_A8,
        1,
        D3DFMT_A8,
        &past_destination,
    );
    let past_column = but(still, |r| {
        (r.dst_x, r.width, r.src_pitch) = (u32::MAX, 2, 2)
    });
    refuses(DestinationOutside, 8, D3DFMT_A8, 8, D3DFMT_A8, &past_column);
}

#[test]
fn offsets_do_not_wrap() {
    let half = 1_usize << 63;
    let one = region(1, 1, 1, 1);
    for wrapping in [
        // 2 * 2^63 is 2^64
        but(one, |r| (r.depth, r.src_slice_pitch) = (3, half)),
        but(one, |r| (r.height, r.src_pitch) = (3, half)),
        // (2^64 - 1)^2 + (2^64 - 1) is past 2^127
        but(one, |r| {
            (r.height, r.depth, r.src_pitch, r.src_slice_pitch) =
                (2, usize::MAX, usize::MAX, usize::MAX)
        }),
        but(one, |r| (r.src_y, r.src_pitch) = (u32::MAX, usize::MAX)),
    ] {
        refuses(SourceOutside, 64, D3DFMT_A8, 64, D3DFMT_A8, &wrapping);
    }
    for wrapping in [
        but(one, |r| (r.depth, r.dst_slice_pitch) = (3, half)),
        but(one, |r| (r.height, r.dst_pitch) = (3, half)),
        but(one, |r| (r.dst_y, r.dst_pitch) = (u32::MAX, usize::MAX)),
    ] {
        refuses(DestinationOutside, 64, D3DFMT_A8, 64, D3DFMT_A8, &wrapping);
    }
}
