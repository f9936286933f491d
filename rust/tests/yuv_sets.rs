//! YUV by a set of numbers: what the two named sets stand for, the bytes that any legal set gives,
//! and refusal 15 with its place among the others.

mod common;

use common::{
    Numbers, RGB, TO_A8R8G8B8, but, bytes, converted, converted_with_set, refuses_with_set, region,
};
use wentuqis::Refusal::{
    DestinationOutside, IllegalSet, PlanarShape, SourceOutside, UnsupportedPair,
};
use wentuqis::format::*;
use wentuqis::pixel_convert::{ConvertRegion, YuvSet};

const PACKED: [u32; 2] = [D3DFMT_YUY2, D3DFMT_UYVY];
const PLANAR: [u32; 2] = [D3DFMT_NV12, D3DFMT_YV12];

type Field = fn(&mut YuvSet) -> &mut u32;

/// Each number of a set, with the least and the largest that it may be.
const FIELDS: [(Field, u32, u32); 7] = [
    (|set| &mut set.luma_gain, 0, 262_143),
    (|set| &mut set.luma_offset, 0, 4_194_303),
    (|set| &mut set.v_to_red, 0, 262_143),
    (|set| &mut set.u_to_green, 0, 262_143),
    (|set| &mut set.v_to_green, 0, 262_143),
    (|set| &mut set.u_to_blue, 0, 262_143),
    (|set| &mut set.chroma_centre, 255, 256),
];

/// A set with one number outside its range.
const ILLEGAL: YuvSet = YuvSet {
    v_to_red: 262_144,
    ..YuvSet::BT709
};

fn yuv_formats() -> impl Iterator<Item = u32> {
    PACKED.into_iter().chain(PLANAR)
}

/// A set of the numbers that `choose` gives for the least and the largest of each.
fn set_of(mut choose: impl FnMut(u32, u32) -> u32) -> YuvSet {
    but(YuvSet::BT601, |set| {
        for (number, least, largest) in FIELDS {
            *number(set) = choose(least, largest);
        }
    })
}

/// The bytes of a frame without row padding, and the region that is all of it.
fn whole(format: u32, width: usize, height: usize, dst_bytes: usize) -> (usize, ConvertRegion) {
    let (pitch, rows) = if PACKED.contains(&format) {
        (2 * width, height)
    } else {
        (width, height + height / 2)
    };
    let all = region(width as u32, height as u32, pitch, dst_bytes * width);
    (
        pitch * rows,
        but(all, |r| r.src_slice_pitch = pitch * height),
    )
}

/// A frame of an even width and height.
struct Frame {
    format: u32,
    width: usize,
    height: usize,
    bytes: Vec<u8>,
}

impl Frame {
    fn random(format: u32, width: usize, height: usize, random: &mut Numbers) -> Self {
        let (len, _) = whole(format, width, height, 4);
        Self {
            format,
            width,
            height,
            bytes: (0..len).map(|_| random.below(256) as u8).collect(),
        }
    }

    /// YUY2 with every pair of U and V, each beside two random lumas.
    fn of_every_chroma(random: &mut Numbers) -> Self {
        let macropixels = (0..=255).flat_map(|u| (0..=255).map(move |v| (u, v)));
        Self {
            format: D3DFMT_YUY2,
            width: 512,
            height: 256,
            bytes: macropixels
                .flat_map(|(u, v)| [random.below(256) as u8, u, random.below(256) as u8, v])
                .collect(),
        }
    }

    /// Where luma, U and V of a texel lie; texels are counted row by row.
    fn offsets(&self, texel: usize) -> [usize; 3] {
        let (width, texels) = (self.width, self.width * self.height);
        let (x, y) = (texel % width, texel / width);
        let pair = (texel - x % 2) * 2;
        match self.format {
            D3DFMT_YUY2 => [pair + x % 2 * 2, pair + 1, pair + 3],
            D3DFMT_UYVY => [pair + x % 2 * 2 + 1, pair, pair + 2],
            D3DFMT_NV12 => {
                let u = texels + y / 2 * width + x / 2 * 2;
                [texel, u, u + 1]
            }
            _ => {
                let v = texels + y / 2 * (width / 2) + x / 2;
                [texel, v + texels / 4, v]
            }
        }
    }

    /// Luma, U and V of each texel, row by row.
    fn samples(&self) -> impl Iterator<Item = [u8; 3]> {
        let sample = |texel| self.offsets(texel).map(|offset| self.bytes[offset]);
        (0..self.width * self.height).map(sample)
    }

    /// One past the last byte that a texel needs: of packed YUV its whole macropixel.
    fn end(&self, texel: usize) -> usize {
        let end = self.offsets(texel).into_iter().max().unwrap_or(0) + 1;
        if PACKED.contains(&self.format) {
            end.next_multiple_of(4)
        } else {
            end
        }
    }

    /// The frame in another format by a set.
    fn converted(&self, dst_format: u32, dst_bytes: usize, set: &YuvSet) -> Vec<u8> {
        let (_, all) = whole(self.format, self.width, self.height, dst_bytes);
        let dst_len = all.dst_pitch * self.height;
        converted_with_set(dst_len, dst_format, &self.bytes, self.format, &all, set)
    }

    /// The frame in another format by the call that takes no set.
    fn converted_plainly(&self, dst_format: u32, dst_bytes: usize) -> Vec<u8> {
        let (_, all) = whole(self.format, self.width, self.height, dst_bytes);
        let dst_len = all.dst_pitch * self.height;
        converted(dst_len, dst_format, &self.bytes, self.format, &all)
    }
}

/// What luma, V in red, U in green, V in green and U in blue come to in red, green and blue.
fn channels([luma, v_red, u_green, v_green, u_blue]: [i128; 5]) -> [i128; 3] {
    [luma + v_red, luma - u_green - v_green, luma + u_blue]
}

/// Red, green and blue of a sample by the definition: the bytes, and the exact values in parts of
/// 2^32.
fn defined(set: &YuvSet, [y, u, v]: [u8; 3]) -> ([u8; 3], [i128; 3]) {
    let luma = (i128::from(y) * 65536 - i128::from(set.luma_offset)) * i128::from(set.luma_gain);
    let chroma = |sample: u8, gain: u32| {
        (i128::from(sample) * 2 - i128::from(set.chroma_centre)) * 32768 * i128::from(gain)
    };
    let parts = [
        luma,
        chroma(v, set.v_to_red),
        chroma(u, set.u_to_green),
        chroma(v, set.v_to_green),
        chroma(u, set.u_to_blue),
    ];
    let bytes = channels(parts.map(|part| part >> 16))
        .map(|channel| ((channel + 32768) >> 16).clamp(0, 255) as u8);
    (bytes, channels(parts))
}

/// Checks every texel of a frame by a set: its bytes, and how near they lie to the exact values.
#[track_caller]
fn holds(set: &YuvSet, frame: &Frame) {
    let dst = frame.converted(D3DFMT_A8R8G8B8, 4, set);
    for (sample, texel) in frame.samples().zip(dst.chunks_exact(4)) {
        let ([red, green, blue], exact) = defined(set, sample);
        assert_eq!(texel, [blue, green, red, 255], "{sample:?} by {set:?}");
        for (byte, exact) in [texel[2], texel[1], texel[0]].into_iter().zip(exact) {
            let error = (i128::from(byte) << 32) - exact.clamp(0, 255 << 32);
            assert!(
                error.abs() <= (1 << 31) + (1 << 18),
                "{sample:?} by {set:?}"
            );
        }
    }
}

/// The numbers of a standard in the order of a set: `r`, `g` and `b` are the parts of the colours in
/// luma, `cr` and `cb` the divisors of the colour differences.
fn of_standard([r, g, b]: [f64; 3], cr: f64, cb: f64) -> [f64; 7] {
    let (v_to_red, u_to_blue) = (cr * 255.0 / 224.0, cb * 255.0 / 224.0);
    [
        255.0 / 219.0,
        16.0,
        v_to_red,
        u_to_blue * b / g,
        v_to_red * r / g,
        u_to_blue,
        128.0,
    ]
}

#[test]
fn named_sets_are_those_of_the_standards() {
    let mut bt601 = of_standard([0.299, 0.587, 0.114], 1.402, 1.772);
    // where the original departs from the standard
    (bt601[1], bt601[6]) = (0.063 * 255.0, 255.0 / 2.0);
    let bt709 = of_standard([0.2126, 0.7152, 0.0722], 1.5748, 1.8556);
    for (mut set, standard, decimals) in [
        (
            YuvSet::BT601,
            bt601,
            [1164, 16065, 1596, 392, 813, 2017, 127_500],
        ),
        (
            YuvSet::BT709,
            bt709,
            [1164, 16000, 1793, 213, 533, 2112, 128_000],
        ),
    ] {
        // all in thousandths
        assert_eq!(standard.map(|x| (1000.0 * x).round() as i64), decimals);
        let numbers = FIELDS.map(|(number, _, _)| i64::from(*number(&mut set)));
        for (number, decimal) in numbers.into_iter().zip(decimals).take(6) {
            let apart = (1000 * number - 65536 * decimal).abs();
            assert!(2 * apart < 1000, "{number} is not the nearest to {decimal}");
        }
        assert_eq!(1000 * numbers[6], 2 * decimals[6]);
    }
}

#[test]
fn colours_of_a_bt709_camera_come_back() {
    let steps = || (0..=255_u8).step_by(51);
    for rgb in steps().flat_map(|r| steps().flat_map(move |g| steps().map(move |b| [r, g, b]))) {
        let [r, g, b] = rgb.map(|channel| f64::from(channel) / 255.0);
        let luma = 0.2126 * r + 0.7152 * g + 0.0722 * b;
        let (cb, cr) = ((b - luma) / 1.8556, (r - luma) / 1.5748);
        let y = (219.0 * luma + 16.0).round() as u8;
        let [u, v] = [cb, cr].map(|chroma| (224.0 * chroma + 128.0).round() as u8);
        let one = region(1, 1, 4, 4);
        let texel = converted_with_set(
            4,
            D3DFMT_A8R8G8B8,
            &[y, u, y, v],
            D3DFMT_YUY2,
            &one,
            &YuvSet::BT709,
        );
        // luma is off by at most 1/2 and so is chroma: 1.164 / 2 + 2.112 / 2 and the rounding
        for (found, channel) in [texel[2], texel[1], texel[0]].into_iter().zip(rgb) {
            assert!(
                found.abs_diff(channel) <= 2,
                "{rgb:?} came back as {texel:?}"
            );
        }
    }
}

#[test]
fn texels_by_bt709() {
    let dst = converted_with_set(
        8,
        D3DFMT_A8R8G8B8,
        &[120, 100, 235, 150],
        D3DFMT_YUY2,
        &region(2, 1, 4, 8),
        &YuvSet::BT709,
    );
    // U lies 28 below the centre and V 22 above it: 160.502, 115.294, 61.920 and 294.4, 249.2, 195.8
    assert_eq!(dst, [62, 115, 161, 255, 196, 249, 255, 255]);
}

#[test]
fn bt601_is_the_call_without_a_set() {
    let mut random = Numbers::new(601);
    for format in yuv_formats() {
        let frame = Frame::random(format, 256, 64, &mut random);
        for (dst, to) in RGB {
            let plainly = frame.converted_plainly(dst, to);
            assert_eq!(frame.converted(dst, to, &YuvSet::BT601), plainly);
            // A8 has no colour
            let same = frame.converted(dst, to, &YuvSet::BT709) == plainly;
            assert_eq!(same, dst == D3DFMT_A8);
        }
    }
}

#[test]
fn every_chroma_by_the_named_sets() {
    let frame = Frame::of_every_chroma(&mut Numbers::new(709));
    holds(&YuvSet::BT601, &frame);
    holds(&YuvSet::BT709, &frame);
    let plainly = frame.converted_plainly(D3DFMT_A8R8G8B8, 4);
    assert_eq!(frame.converted(D3DFMT_A8R8G8B8, 4, &YuvSet::BT601), plainly);
}

#[test]
fn sums_next_to_a_half() {
    let frame = Frame::of_every_chroma(&mut Numbers::new(2));
    // luma comes to y - 1/2 and chroma to a whole number, or either lies some 65536ths beside it
    for (luma_gain, gain, chroma_centre) in [
        (65536, 1, 255),
        (65536, 65537, 256),
        (65537, 65536, 256),
        (65535, 65535, 256),
    ] {
        let set = YuvSet {
            luma_gain,
            luma_offset: 32768,
            v_to_red: gain,
            u_to_green: gain,
            v_to_green: gain,
            u_to_blue: gain,
            chroma_centre,
        };
        holds(&set, &frame);
    }
}

#[test]
fn random_sets() {
    let mut random = Numbers::new(4);
    for _ in 0..500 {
        // numbers of many sizes, and each end of a range once in eight
        let set = set_of(|least, largest| match random.below(8) {
            0 => least,
            1 => largest,
            _ => {
                let span = u64::from(largest - least) + 1;
                least + (random.below(span) >> random.below(8)) as u32
            }
        });
        for format in yuv_formats() {
            holds(&set, &Frame::random(format, 16, 8, &mut random));
        }
    }
}

#[test]
fn every_destination_has_the_colours_of_the_set() {
    let mut random = Numbers::new(12);
    for format in yuv_formats() {
        let frame = Frame::random(format, 64, 32, &mut random);
        let colours = frame.converted(D3DFMT_A8R8G8B8, 4, &YuvSet::BT709);
        for (dst, to) in RGB {
            let all = region(64, 32, 4 * 64, to * 64);
            let expected = converted(to * 64 * 32, dst, &colours, D3DFMT_A8R8G8B8, &all);
            assert_eq!(frame.converted(dst, to, &YuvSet::BT709), expected);
        }
    }
}

/// The texels of a frame in another format, each by the definition.
fn defined_frame(set: &YuvSet, frame: &Frame, dst_format: u32, dst_bytes: usize) -> Vec<u8> {
    let colours: Vec<u8> = frame
        .samples()
        .map(|sample| defined(set, sample).0)
        .flat_map(|[red, green, blue]| [blue, green, red, 255])
        .collect();
    let (width, height) = (frame.width, frame.height);
    let all = region(width as u32, height as u32, 4 * width, dst_bytes * width);
    let dst_len = dst_bytes * width * height;
    converted(dst_len, dst_format, &colours, D3DFMT_A8R8G8B8, &all)
}

#[test]
fn rows_from_even_and_odd_columns() {
    let mut random = Numbers::new(133);
    let other =
        set_of(|least, largest| least + random.below(u64::from(largest - least) + 1) as u32);
    for set in [YuvSet::BT601, YuvSet::BT709, other] {
        for format in yuv_formats() {
            let frame = Frame::random(format, 136, 4, &mut random);
            for dst in RGB {
                let texels = defined_frame(&set, &frame, dst.0, dst.1);
                for src_x in 0..4 {
                    // around the ends of pairs and of blocks of 64
                    for width in (1..=4).chain(63..=68).chain(127..=133) {
                        rows_hold(&set, &frame, src_x, width, dst, &texels);
                    }
                }
            }
        }
    }
}

/// Checks two rows of a frame from a column on, and of packed YUV the same a row further down as a
/// second slice: every byte of a destination in which rows lie apart, on one another or in one
/// place, and which ends with the last texel or behind it. `texels` has the whole frame.
#[track_caller]
fn rows_hold(
    set: &YuvSet,
    frame: &Frame,
    src_x: usize,
    width: usize,
    (dst_format, to): (u32, usize),
    texels: &[u8],
) {
    let (_, all) = whole(frame.format, frame.width, frame.height, to);
    let slices = if PACKED.contains(&frame.format) { 2 } else { 1 };
    let src = &frame.bytes[..frame.end(frame.width * (1 + slices) + src_x + width - 1)];
    for (dst_pitch, behind) in [
        (to * (width + 3), 0),
        (to * (width + 3), 5),
        (to * width / 2, 0),
        (0, 0),
    ] {
        let part = but(all, |r| {
            (r.src_x, r.src_y, r.dst_x, r.dst_y) = (src_x as u32, 1, 1, 1);
            (r.width, r.height, r.depth) = (width as u32, 2, slices);
            (r.dst_pitch, r.dst_slice_pitch) = (dst_pitch, 2 * dst_pitch + 1);
            if slices > 1 {
                r.src_slice_pitch = r.src_pitch;
            }
        });
        let row_at = |slice, row| slice * part.dst_slice_pitch + (1 + row) * dst_pitch + to;
        let dst_len = row_at(slices - 1, 1) + to * width + behind;
        let mut expected = bytes(dst_len);
        for (slice, row) in (0..slices).flat_map(|slice| [(slice, 0), (slice, 1)]) {
            let (at, from) = (row_at(slice, row), frame.width * (1 + row + slice) + src_x);
            expected[at..at + to * width].copy_from_slice(&texels[to * from..to * (from + width)]);
        }
        let found = converted_with_set(dst_len, dst_format, src, frame.format, &part, set);
        assert_eq!(found, expected, "{set:?} {part:?}");
        if *set == YuvSet::BT601 {
            let plainly = converted(dst_len, dst_format, src, frame.format, &part);
            assert_eq!(plainly, expected, "{part:?}");
        }
        // with no byte less of either buffer
        if dst_format == D3DFMT_A8R8G8B8 && behind == 0 {
            for (refusal, dst_len, src_len) in [
                (SourceOutside, dst_len, src.len() - 1),
                (DestinationOutside, dst_len - 1, src.len()),
            ] {
                let format = frame.format;
                refuses_with_set(refusal, dst_len, dst_format, src_len, format, &part, set);
            }
        }
    }
}

#[test]
fn ends_of_the_ranges() {
    let mut random = Numbers::new(15);
    let mut sets = vec![set_of(|least, _| least), set_of(|_, largest| largest)];
    for (number, least, largest) in FIELDS {
        for end in [least, largest] {
            sets.push(but(YuvSet::BT601, |set| *number(set) = end));
            sets.push(but(YuvSet::BT709, |set| *number(set) = end));
        }
    }
    for set in sets {
        for format in yuv_formats() {
            holds(&set, &Frame::random(format, 32, 16, &mut random));
        }
    }
}

#[test]
fn numbers_outside_their_ranges() {
    for (number, least, largest) in FIELDS {
        // below 0 it is the largest of 32 bits
        let below = least.wrapping_sub(1);
        for outside in [below, largest + 1, largest + 65536, u32::MAX] {
            for legal in [YuvSet::BT601, YuvSet::BT709] {
                let set = but(legal, |set| *number(set) = outside);
                refused_everywhere(&set);
            }
        }
    }
    for centre in [0, 1, 127, 128, 254, 257, 511] {
        refused_everywhere(&but(YuvSet::BT601, |set| set.chroma_centre = centre));
    }
    refused_everywhere(&set_of(|_, _| u32::MAX));
}

/// Checks that a set is refused with each YUV source and each destination.
#[track_caller]
fn refused_everywhere(set: &YuvSet) {
    for format in yuv_formats() {
        for (dst, to) in RGB {
            let (len, all) = whole(format, 4, 2, to);
            converted_with_set(8 * to, dst, &bytes(len), format, &all, &YuvSet::BT709);
            refuses_with_set(IllegalSet, 8 * to, dst, len, format, &all, set);
        }
    }
}

#[test]
fn other_sources_do_not_look_at_the_set() {
    let among_rgb = RGB
        .into_iter()
        .flat_map(|(src, from)| RGB.map(|(dst, to)| (src, from, dst, to)));
    let to_one = TO_A8R8G8B8.map(|(src, from)| (src, from, D3DFMT_A8R8G8B8, 4));
    let nonsense = set_of(|_, _| u32::MAX);
    for (src, from, dst, to) in among_rgb.chain(to_one) {
        let region = region(4, 3, 4 * from + 3, 4 * to + 5);
        let (src_len, dst_len) = (
            2 * region.src_pitch + 4 * from,
            2 * region.dst_pitch + 4 * to,
        );
        let expected = converted(dst_len, dst, &bytes(src_len), src, &region);
        assert_ne!(expected, bytes(dst_len));
        for set in [nonsense, ILLEGAL, YuvSet::BT709] {
            let found = converted_with_set(dst_len, dst, &bytes(src_len), src, &region, &set);
            assert_eq!(found, expected);
        }
        let refuses = |refusal, dst_len, src_len| {
            refuses_with_set(refusal, dst_len, dst, src_len, src, &region, &nonsense);
        };
        refuses(SourceOutside, dst_len - 1, src_len - 1);
        refuses(DestinationOutside, dst_len - 1, src_len);
    }
}

#[test]
fn pairs_come_before_the_set() {
    for format in yuv_formats() {
        let (len, all) = whole(format, 4, 2, 4);
        for dst in [D3DFMT_YUY2, D3DFMT_NV12, D3DFMT_A16B16G16R16, 0] {
            for set in [ILLEGAL, YuvSet::BT709] {
                refuses_with_set(UnsupportedPair, 32, dst, len, format, &all, &set);
            }
        }
    }
    let one = region(1, 1, 8, 4);
    let (src, dst) = (D3DFMT_A16B16G16R16, D3DFMT_R5G6B5);
    refuses_with_set(UnsupportedPair, 8, dst, 8, src, &one, &ILLEGAL);
}

#[test]
fn planar_shapes_come_before_the_set() {
    for format in PLANAR {
        let (len, all) = whole(format, 4, 2, 4);
        for bad in [
            but(all, |r| r.depth = 0),
            but(all, |r| r.depth = 2),
            but(all, |r| r.src_pitch = 0),
            but(all, |r| r.src_slice_pitch = 7),
            but(all, |r| (r.src_slice_pitch, r.width) = (7, 0)),
        ] {
            for set in [ILLEGAL, YuvSet::BT709] {
                refuses_with_set(PlanarShape, 32, D3DFMT_A8R8G8B8, len, format, &bad, &set);
            }
        }
    }
}

#[test]
fn the_set_comes_before_empty_regions() {
    for format in yuv_formats() {
        let (_, all) = whole(format, 4, 2, 4);
        let mut empty = vec![but(all, |r| r.width = 0), but(all, |r| r.height = 0)];
        if PACKED.contains(&format) {
            empty.push(but(all, |r| r.depth = 0));
        }
        for empty in empty {
            for (dst, len) in [(D3DFMT_A8R8G8B8, 0), (D3DFMT_R5G6B5, 9)] {
                let (lent, legal) = (bytes(len), YuvSet::BT709);
                let kept = converted_with_set(len, dst, &lent, format, &empty, &legal);
                assert_eq!(kept, lent);
                refuses_with_set(IllegalSet, len, dst, len, format, &empty, &ILLEGAL);
            }
        }
    }
}

#[test]
fn the_set_comes_before_the_buffers() {
    for format in yuv_formats() {
        let (len, all) = whole(format, 4, 2, 4);
        let past = but(all, |r| (r.src_x, r.dst_y) = (u32::MAX, u32::MAX));
        for (region, dst_len, src_len, by_legal) in [
            (&all, 32, len - 1, SourceOutside),
            (&all, 31, len - 1, SourceOutside),
            (&all, 31, len, DestinationOutside),
            (&all, 0, 0, SourceOutside),
            (&past, 32, len, SourceOutside),
        ] {
            for (set, refusal) in [
                (YuvSet::BT601, by_legal),
                (YuvSet::BT709, by_legal),
                (ILLEGAL, IllegalSet),
            ] {
                let dst = D3DFMT_A8R8G8B8;
                refuses_with_set(refusal, dst_len, dst, src_len, format, region, &set);
            }
        }
    }
}
