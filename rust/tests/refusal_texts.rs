//! What a refusal says to a person: one text for each thing that can be wrong, and a sweep that lends
//! what a text asks for and sees the refusal go.

mod common;

use std::fmt::Debug;

use common::{Numbers, RGB, TO_A8R8G8B8, but, bytes, random_region, region};
use wentuqis::convert::try_d3dcolor_fill_pixel_bytes;
use wentuqis::depth_texture::PlaneLayout;
use wentuqis::format::*;
use wentuqis::pixel_convert::{
    ConvertRegion, Region, Side, YuvSet, convert, try_convert_region, try_convert_region_with_set,
};
use wentuqis::planar_yuv::{
    planar_yuv_layout_from_pitch, try_planar_yuv_layout, try_planar_yuv_layout_from_pitch,
};
use wentuqis::{Refusal, Refused};

/// What a refused call says.
fn text<T: Debug>(reply: Result<T, Refused>) -> String {
    reply.unwrap_err().to_string()
}

/// A conversion into A8R8G8B8 with buffers of these lengths, source first; refused, it keeps `dst`.
fn reply(lens: [usize; 2], src_format: u32, region: &ConvertRegion) -> Result<(), Refused> {
    let (src, mut dst) = (bytes(lens[0]), bytes(lens[1]));
    let reply = try_convert_region(&mut dst, D3DFMT_A8R8G8B8, &src, src_format, region);
    assert!(reply.is_ok() || dst == bytes(lens[1]));
    reply
}

/// What such a conversion says if it is refused.
fn convert_text(dst_len: usize, src_len: usize, src_format: u32, region: &ConvertRegion) -> String {
    text(reply([src_len, dst_len], src_format, region))
}

fn pair_text(src_format: u32, dst_format: u32) -> String {
    let region = ConvertRegion::default();
    let reply = try_convert_region(&mut [], dst_format, &[], src_format, &region);
    text(reply)
}

const RGB_NAMES: &str =
    "R8G8B8, A8R8G8B8, X8R8G8B8, R5G6B5, X1R5G5B5, A1R5G5B5, A4R4G4B4, A8, A8B8G8R8, X8B8G8R8";

#[test]
fn unsupported_pairs() {
    assert_eq!(
        pair_text(D3DFMT_A8R8G8B8, D3DFMT_NV12),
        format!(
            "unsupported pair: nothing converts into NV12; \
             the destinations are {RGB_NAMES}, L8 and A8L8"
        )
    );
    assert_eq!(
        pair_text(827_611_204, D3DFMT_A8R8G8B8),
        "unsupported pair: format 'DXT1' converts into nothing; \
         the sources are R8G8B8, A8R8G8B8, X8R8G8B8, R5G6B5, X1R5G5B5, A1R5G5B5, A4R4G4B4, A8, \
         A2B10G10R10, A8B8G8R8, X8B8G8R8, G16R16, A2R10G10B10, A16B16G16R16, L8, A8L8, V8U8, \
         Q8W8V8U8, L16, A32B32G32R32F, YUY2, UYVY, YV12 and NV12"
    );
    assert_eq!(
        pair_text(D3DFMT_A16B16G16R16, D3DFMT_R5G6B5),
        "unsupported pair: A16B16G16R16 does not convert into R5G6B5, only into A8R8G8B8"
    );
}

#[test]
fn codes_without_a_name() {
    let named = |code| {
        let said = text(try_planar_yuv_layout(code, 6, 4));
        let said = said.strip_prefix("no planar layout: ").unwrap();
        said.strip_suffix(" is not planar; use YV12 or NV12")
            .unwrap()
            .to_owned()
    };
    assert_eq!(named(D3DFMT_D16), "D16");
    assert_eq!(named(u32::from_le_bytes(*b"INTZ")), "format 'INTZ'");
    assert_eq!(named(u32::from_le_bytes(*b"R2  ")), "format 'R2  '");
    // no four letters: a number alone, a space before a letter, and bytes that are none
    assert_eq!(named(1), "format 1");
    assert_eq!(named(u32::from_le_bytes(*b"A\0\0\0")), "format 65");
    assert_eq!(named(u32::from_le_bytes(*b"A  B")), "format 1109401665");
    assert_eq!(named(u32::from_le_bytes(*b"    ")), "format 538976288");
    assert_eq!(named(u32::MAX), "format 4294967295");
}

#[test]
fn planar_shapes() {
    let good = but(region(4, 2, 4, 16), |r| r.src_slice_pitch = 8);
    for (bad, text) in [
        (
            but(good, |r| r.depth = 2),
            "planar shape: a frame of NV12 has one slice, and the region has depth 2; set it to 1",
        ),
        (
            but(good, |r| r.src_pitch = 0),
            "planar shape: the source pitch is 0; set it to the bytes from a luma row to the next",
        ),
        (
            but(good, |r| r.src_slice_pitch = 7),
            "planar shape: the source slice pitch 7 is no multiple of the source pitch 4; \
             2 luma rows have 8 bytes",
        ),
    ] {
        assert_eq!(convert_text(32, 12, D3DFMT_NV12, &bad), text);
    }
}

/// What a conversion of one texel of YUY2 says of BT.709 with some numbers changed.
fn set_text(change: impl FnOnce(&mut YuvSet)) -> String {
    let (numbers, one) = (but(YuvSet::BT709, change), region(1, 1, 4, 4));
    let (format, mut texel) = (D3DFMT_YUY2, bytes(4));
    let reply = try_convert_region_with_set(
        &mut texel,
        D3DFMT_A8R8G8B8,
        &[16, 128, 16, 128],
        format,
        &one,
        &numbers,
    );
    assert_eq!(texel, bytes(4));
    text(reply)
}

#[test]
fn illegal_sets() {
    type Change = fn(&mut YuvSet);
    let cases: [(Change, &str); 10] = [
        (
            |set| set.luma_gain = 262_144,
            "the set's luma gain is 262144, and a gain is at most 262143 (65536ths)",
        ),
        (
            |set| set.luma_offset = 4_194_304,
            "the set's luma offset is 4194304, and it is at most 4194303 (65536ths)",
        ),
        (
            |set| set.v_to_red = 262_144,
            "the set's v_to_red is 262144, and a gain is at most 262143 (65536ths)",
        ),
        (
            |set| set.u_to_green = 300_000,
            "the set's u_to_green is 300000, and a gain is at most 262143 (65536ths)",
        ),
        (
            |set| set.v_to_green = u32::MAX,
            "the set's v_to_green is 4294967295, and a gain is at most 262143 (65536ths)",
        ),
        (
            |set| set.u_to_blue = 262_144,
            "the set's u_to_blue is 262144, and a gain is at most 262143 (65536ths)",
        ),
        (
            |set| set.chroma_centre = 257,
            "the set's chroma centre is 257, and it is 255 or 256 (halves)",
        ),
        (
            |set| set.chroma_centre = 128,
            "the set's chroma centre is 128, and it is 255 or 256 (halves)",
        ),
        // of several the first in the order of the set
        (
            |set| (set.u_to_blue, set.luma_offset) = (262_144, 4_194_304),
            "the set's luma offset is 4194304, and it is at most 4194303 (65536ths)",
        ),
        (
            |set| (set.chroma_centre, set.v_to_green) = (254, 262_144),
            "the set's v_to_green is 262144, and a gain is at most 262143 (65536ths)",
        ),
    ];
    for (change, expected) in cases {
        assert_eq!(set_text(change), format!("illegal set: {expected}"));
    }
}

#[test]
fn other_refusals_by_a_set() {
    let good = but(region(4, 2, 4, 16), |r| r.src_slice_pitch = 8);
    let said = |dst_len, src_len, region: &ConvertRegion| {
        let (mut dst, src, set) = (bytes(dst_len), bytes(src_len), YuvSet::BT709);
        let (from, to) = (D3DFMT_NV12, D3DFMT_A8R8G8B8);
        text(try_convert_region_with_set(
            &mut dst, to, &src, from, region, &set,
        ))
    };
    assert_eq!(
        said(32, 12, &but(good, |r| r.depth = 2)),
        "planar shape: a frame of NV12 has one slice, and the region has depth 2; set it to 1"
    );
    assert_eq!(
        said(32, 11, &good),
        "source outside: the frame has 11 bytes, the region needs 12; \
         the first texel outside is column 2, row 0"
    );
    assert_eq!(
        said(31, 12, &good),
        "destination outside: the destination has 31 bytes, the region needs 32; \
         the first texel outside is column 3, row 1"
    );
}

#[test]
fn frames_one_byte_short() {
    let frame = region(64, 48, 256, 256);
    assert_eq!(
        convert_text(12288, 12287, D3DFMT_X8R8G8B8, &frame),
        "source outside: the frame has 12287 bytes, the region needs 12288; \
         the first texel outside is column 63, row 47"
    );
    assert_eq!(
        convert_text(12287, 12288, D3DFMT_X8R8G8B8, &frame),
        "destination outside: the destination has 12287 bytes, the region needs 12288; \
         the first texel outside is column 63, row 47"
    );
    let volume = but(region(2, 1, 4, 8), |r| {
        (r.src_x, r.src_y, r.src_slice_pitch, r.depth) = (1, 1, 8, 2)
    });
    assert_eq!(
        convert_text(8, 14, D3DFMT_L8, &volume),
        "source outside: the frame has 14 bytes, the region needs 15; \
         the first texel outside is column 2, row 1, slice 1"
    );
    assert_eq!(
        convert_text(8, 3, D3DFMT_YUY2, &region(2, 1, 4, 8)),
        "source outside: the frame has 3 bytes, the region needs 4; \
         the first texel outside is column 0, row 0"
    );
    assert_eq!(
        convert_text(8, 3, D3DFMT_V8U8, &region(2, 1, 4, 8)),
        "source outside: the frame has 3 bytes, the region needs 4; \
         the first texel outside is column 1, row 0"
    );
}

#[test]
fn planar_frames() {
    let good = but(region(4, 2, 4, 16), |r| r.src_slice_pitch = 8);
    assert_eq!(
        convert_text(32, 11, D3DFMT_NV12, &good),
        "source outside: the frame has 11 bytes, the region needs 12; \
         the first texel outside is column 2, row 0"
    );
    assert_eq!(
        convert_text(32, 12, D3DFMT_NV12, &but(good, |r| r.src_x = 1)),
        "source outside: the region's last texel is column 4, row 1, and the frame of NV12 has \
         4 columns (its pitch) and 2 rows (slice pitch / pitch)"
    );
    let odd = but(good, |r| r.src_slice_pitch = 12);
    assert_eq!(
        convert_text(32, 12, D3DFMT_YV12, &odd),
        "source outside: no frame of YV12 has this pitch and slice pitch: \
         YV12 has an even number of luma rows, not 3; \
         the slice pitch 12 is that of the whole frame, and without the chroma rows \
         it is 4 x 2 = 8"
    );
    assert_eq!(
        convert_text(32, 13, D3DFMT_YV12, &odd),
        "source outside: no frame of YV12 has this pitch and slice pitch: \
         YV12 has an even number of luma rows, not 3"
    );
}

#[test]
fn slice_pitches_of_planar_frames() {
    let zero = |format, rows, src_y| {
        let region = but(region(4, rows, 6, 16), |r| r.src_y = src_y);
        convert_text(96, 36, format, &region)
    };
    assert_eq!(
        zero(D3DFMT_NV12, 3, 0),
        "source outside: the source slice pitch is 0; set it to pitch x luma rows, 6 x 3 = 18 at least"
    );
    assert_eq!(
        zero(D3DFMT_YV12, 3, 2),
        "source outside: the source slice pitch is 0; set it to pitch x luma rows, 6 x 6 = 36 at least"
    );

    // a frame of 4 luma rows and 2 chroma rows, or of 5 and 3, whose chroma rows are counted too
    let whole = |rows, bytes| {
        let region = but(region(4, rows, 6, 16), |r| r.src_slice_pitch = bytes);
        convert_text(96, bytes, D3DFMT_NV12, &region)
    };
    assert_eq!(
        whole(4, 36),
        "source outside: the frame has 36 bytes, the region needs 46; \
         the first texel outside is column 0, row 0; \
         the slice pitch 36 is that of the whole frame, and without the chroma rows it is 6 x 4 = 24"
    );
    assert!(whole(5, 48).ends_with("without the chroma rows it is 6 x 5 = 30"));
    // no frame has 4 or 7 rows in all, and one of 6 has not the 5 rows of the region: no hint
    for (rows, bytes) in [(2, 24), (4, 42), (5, 36)] {
        assert!(!whole(rows, bytes).contains("chroma rows"), "{rows} rows");
    }
}

/// The slice pitch that a text names, if it names one.
fn named_slice_pitch(text: &str) -> Option<usize> {
    let (_, named) = text.rsplit_once(" = ")?;
    named.trim_end_matches(" at least").parse().ok()
}

/// What a conversion from a planar frame of this length says. The slice pitch that it names is
/// accepted, with a whole frame of it.
fn planar_text(src_len: usize, format: u32, region: &ConvertRegion) -> String {
    // the source is looked at first
    let said = convert_text(4, src_len, format, region);
    if let Some(named) = named_slice_pitch(&said) {
        let (pitch, rows) = (region.src_pitch, named / region.src_pitch);
        let dst_len = region.dst_pitch * region.height as usize;
        let layout = planar_yuv_layout_from_pitch(format, pitch, rows).expect(&said);
        let mended = but(*region, |r| r.src_slice_pitch = named);
        let lens = [layout.total_bytes(), dst_len];
        assert_eq!(reply(lens, format, &mended), Ok(()), "{said}");
    }
    said
}

/// What a text says of a pitch and luma rows that no frame of this format has.
fn no_frame(format: u32, pitch: usize, rows: usize) -> String {
    let name = String::from_utf8(format.to_le_bytes().to_vec()).unwrap();
    let said = text(try_planar_yuv_layout_from_pitch(format, pitch, rows));
    let why = said.strip_prefix("no planar layout: ").unwrap();
    format!("source outside: no frame of {name} has this pitch and slice pitch: {why}")
}

#[test]
fn slice_pitches_of_0_in_no_frame() {
    let (yv12, nv12) = (D3DFMT_YV12, D3DFMT_NV12);
    let zero = |format, pitch, rows| planar_text(0, format, &region(1, rows, pitch, 4));
    for (format, pitch, rows, expected) in [
        (
            nv12,
            9,
            1,
            "the pitch 9 is odd, and chroma needs an even one",
        ),
        (
            yv12,
            25,
            4,
            "the pitch 25 is odd, and chroma needs an even one",
        ),
        (nv12, 16386, 1, "the pitch is 1 to 16384, not 16386"),
        (
            yv12,
            1 << 63,
            2,
            "the pitch is 1 to 16384, not 9223372036854775808",
        ),
        // a frame has at most 10922 luma rows, with 5461 chroma rows
        (nv12, 2, 10923, "the luma rows are 1 to 16384, not 0"),
        (yv12, 2, 10923, "the luma rows are 1 to 16384, not 0"),
        (nv12, 2, u32::MAX, "the luma rows are 1 to 16384, not 0"),
    ] {
        let said = zero(format, pitch, rows);
        assert!(said.ends_with(expected), "{said}");
        assert_eq!(said, no_frame(format, pitch, 0));
    }
    for format in [yv12, nv12] {
        assert_eq!(
            zero(format, 2, 10922),
            "source outside: the source slice pitch is 0; \
             set it to pitch x luma rows, 2 x 10922 = 21844 at least"
        );
    }
}

#[test]
fn slice_pitches_of_whole_frames_that_are_none() {
    let whole = |format, pitch, all_rows| {
        let region = but(region(6, 1, pitch, 24), |r| {
            r.src_slice_pitch = all_rows * pitch;
        });
        planar_text(all_rows * pitch, format, &region)
    };
    // one luma row and one chroma row
    let short = "source outside: the frame has 12 bytes, the region needs 18; \
                 the first texel outside is column 0, row 0";
    assert_eq!(whole(D3DFMT_YV12, 6, 2), short);
    assert_eq!(
        whole(D3DFMT_NV12, 6, 2),
        format!(
            "{short}; the slice pitch 12 is that of the whole frame, \
             and without the chroma rows it is 6 x 1 = 6"
        )
    );
    assert_eq!(
        whole(D3DFMT_YV12, 6, 5),
        "source outside: no frame of YV12 has this pitch and slice pitch: \
         YV12 has an even number of luma rows, not 5"
    );
    // two luma rows and one chroma row, of a pitch that no frame has
    for (format, pitch) in [
        (D3DFMT_NV12, 9),
        (D3DFMT_NV12, 16386),
        (D3DFMT_YV12, 9),
        (D3DFMT_YV12, 16386),
    ] {
        assert_eq!(whole(format, pitch, 3), no_frame(format, pitch, 3));
    }
}

#[test]
fn a_slice_pitch_that_a_text_names_is_accepted() {
    let mut numbers = Numbers::new(11);
    let mut counts = [0; 3];
    for _ in 0..10_000 {
        let format = [D3DFMT_YV12, D3DFMT_NV12][numbers.below(2) as usize];
        let (mut pitch, mut rows) = (1 + numbers.below(12), 1 + numbers.below(8));
        match numbers.below(50) {
            0 => pitch += 16_374,
            1 => rows += 10_916,
            _ => {}
        }
        let (pitch, all_rows) = (pitch as usize, numbers.below(2) * numbers.below(16));
        let region = but(region(1, rows as u32, pitch, 4), |r| {
            r.src_y = numbers.below(4) as u32;
            r.src_slice_pitch = pitch * all_rows as usize;
        });
        let said = planar_text(region.src_slice_pitch, format, &region);
        let named = named_slice_pitch(&said).is_some();
        if all_rows > 0 {
            counts[0] += usize::from(named);
            continue;
        }
        let mut end = region.src_y as usize + rows as usize;
        if format == D3DFMT_YV12 {
            end += end % 2;
        }
        let frame = planar_yuv_layout_from_pitch(format, pitch, end).is_some();
        assert_eq!(named, frame, "{said}");
        counts[1 + usize::from(named)] += 1;
        assert!(named || said == no_frame(format, pitch, 0), "{said}");
    }
    assert!(counts[0] > 200, "{counts:?} were named");
    assert!(counts[1..].iter().all(|it| *it > 2_000), "{counts:?}");
}

#[test]
fn coordinates_and_lengths_past_their_bits() {
    let one = region(1, 1, 1, 4);
    let column = but(one, |r| (r.src_x, r.width) = (u32::MAX, 2));
    assert_eq!(
        convert_text(8, 8, D3DFMT_L8, &column),
        "source outside: the region's last column is 4294967296, and none is above 4294967295"
    );
    let row = but(one, |r| (r.dst_y, r.height, r.src_pitch) = (7, u32::MAX, 0));
    assert_eq!(
        convert_text(8, 8, D3DFMT_L8, &row),
        "destination outside: the region's last row is 4294967301, and none is above 4294967295"
    );
    let slices = but(one, |r| (r.src_slice_pitch, r.depth) = (usize::MAX, 3));
    assert_eq!(
        convert_text(8, 8, D3DFMT_L8, &slices),
        "source outside: the frame has 8 bytes, the region needs 36893488147419103231; \
         the first texel outside is column 0, row 0, slice 1"
    );
    let most = but(one, |r| {
        (r.height, r.src_pitch, r.src_slice_pitch, r.depth) =
            (u32::MAX, usize::MAX, usize::MAX, usize::MAX)
    });
    assert_eq!(
        convert_text(8, 8, D3DFMT_L8, &most),
        "source outside: the frame has 8 bytes, the region needs 2^128 or more; \
         the first texel outside is column 0, row 1, slice 0"
    );
}

/// What a conversion of a region by sides into A8R8G8B8 says, with buffers of these lengths.
fn side_text([src_len, dst_len]: [usize; 2], src_format: u32, region: &Region) -> String {
    let (src, mut dst) = (bytes(src_len), bytes(dst_len));
    let (to, set) = (D3DFMT_A8R8G8B8, &YuvSet::BT601);
    let reply = convert(&mut dst, to, &src, src_format, region, set);
    assert_eq!(dst, bytes(dst_len));
    text(reply)
}

/// A grab of L8 that is stored bottom row first, onto a screen.
fn grab(width: u32, height: u32) -> Region {
    Region {
        source: Side::bottom_up(width, height),
        destination: Side {
            pitch: 4 * i64::from(width),
            ..Side::default()
        },
        ..Region::new(width, height)
    }
}

#[test]
fn pictures_stored_bottom_row_first() {
    let good = grab(5, 3);
    // the row that is stored last is the top one
    assert_eq!(
        side_text([14, 60], D3DFMT_L8, &good),
        "source outside: the frame has 14 bytes, the region needs 15; \
         the first texel outside is column 4, row 0"
    );
    let low = but(good, |r| r.source.start = 9);
    assert_eq!(
        side_text([15, 60], D3DFMT_L8, &low),
        "source outside: the region's lowest texel starts 1 bytes below byte 0 of the frame; with the \
         pitch -5 the start must be at least 10, and it is 9; \
         the first texel outside is column 0, row 2"
    );
    let none = but(good, |r| r.source.start = 0);
    assert_eq!(
        side_text([15, 60], D3DFMT_L8, &none),
        "source outside: the region's lowest texel starts 10 bytes below byte 0 of the frame; with the \
         pitch -5 the start must be at least 10, and it is 0; \
         the first texel outside is column 0, row 1"
    );
    let screen = but(good, |r| {
        (r.destination.start, r.destination.pitch) = (39, -20)
    });
    assert_eq!(
        side_text([15, 60], D3DFMT_L8, &screen),
        "destination outside: the region's lowest texel starts 1 bytes below byte 0 of the \
         destination; with the pitch -20 the start must be at least 40, and it is 39; \
         the first texel outside is column 0, row 2"
    );
    // with a slice on top of it, and no start of 64 bits that would do
    let deep = but(good, |r| {
        (r.source.slice_pitch, r.depth) = (15, 2);
        r.destination.slice_pitch = 60;
    });
    assert_eq!(
        side_text([29, 120], D3DFMT_L8, &deep),
        "source outside: the frame has 29 bytes, the region needs 30; \
         the first texel outside is column 4, row 0, slice 1"
    );
    let least = but(good, |r| (r.source.start, r.source.pitch) = (1, i64::MIN));
    assert_eq!(
        side_text([15, 60], D3DFMT_L8, &least),
        "source outside: the region's lowest texel starts 18446744073709551615 bytes below byte 0 of \
         the frame; with the pitch -9223372036854775808 the start must be at least \
         18446744073709551616, and it is 1; the first texel outside is column 0, row 1"
    );
    let pair = but(grab(2, 2), |r| (r.source.pitch, r.source.start) = (-4, 3));
    assert_eq!(
        side_text([8, 16], D3DFMT_YUY2, &pair),
        "source outside: the region's lowest texel starts 1 bytes below byte 0 of the frame; with the \
         pitch -4 the start must be at least 4, and it is 3; \
         the first texel outside is column 0, row 1"
    );
}

#[test]
fn starts() {
    let late = but(grab(5, 3), |r| {
        (r.source.start, r.source.pitch) = (u64::MAX, 5)
    });
    assert_eq!(
        side_text([15, 60], D3DFMT_L8, &late),
        "source outside: the frame has 15 bytes, the region needs 18446744073709551630; \
         the first texel outside is column 0, row 0"
    );
    let planar = but(grab(4, 2), |r| {
        (r.source.start, r.source.pitch, r.source.slice_pitch) = (3, 4, 8)
    });
    assert_eq!(
        side_text([14, 32], D3DFMT_NV12, &planar),
        "source outside: the frame has 14 bytes, the region needs 15; \
         the first texel outside is column 2, row 0"
    );
    let whole = but(planar, |r| r.source.slice_pitch = 12);
    assert_eq!(
        side_text([15, 32], D3DFMT_NV12, &whole),
        "source outside: the frame has 15 bytes, the region needs 19; \
         the first texel outside is column 0, row 0; \
         the slice pitch 12 is that of the whole frame, and without the chroma rows it is 4 x 2 = 8"
    );
}

#[test]
fn planar_frames_are_stored_top_row_first() {
    for format in ["NV12", "YV12"] {
        let code = u32::from_le_bytes(format.as_bytes().try_into().unwrap());
        let frame = but(grab(4, 2), |r| r.source.slice_pitch = 8);
        assert_eq!(
            side_text([12, 32], code, &frame),
            format!(
                "planar shape: the source pitch is -4, and a frame of {format} is not stored bottom \
                 row first; a negative destination pitch turns the picture over"
            )
        );
    }
}

#[test]
fn texts_of_pitches_past_63_bits_have_them() {
    let half = 1_usize << 63;
    let low = but(region(4, 2, half, 16), |r| r.src_slice_pitch = 7);
    assert_eq!(
        convert_text(32, 12, D3DFMT_NV12, &low),
        "planar shape: the source slice pitch 7 is no multiple of the source pitch \
         9223372036854775808; 1 luma rows have 9223372036854775808 bytes"
    );
    assert_eq!(
        convert_text(32, 12, D3DFMT_NV12, &but(low, |r| r.src_slice_pitch = half)),
        "source outside: no frame of NV12 has this pitch and slice pitch: \
         the pitch is 1 to 16384, not 9223372036854775808"
    );
    assert_eq!(
        convert_text(8, 8, D3DFMT_L8, &region(1, 3, half, 4)),
        "source outside: the frame has 8 bytes, the region needs 18446744073709551617; \
         the first texel outside is column 0, row 1"
    );
}

#[test]
fn fills() {
    assert_eq!(
        text(try_d3dcolor_fill_pixel_bytes(0, D3DFMT_D16)),
        "no fill: D16 has no fill; the formats that have one are A8R8G8B8, X8R8G8B8, R5G6B5, \
         X1R5G5B5, A1R5G5B5, A4R4G4B4, A8, A2B10G10R10, A8B8G8R8, X8B8G8R8, G16R16, A2R10G10B10, \
         A16B16G16R16, L8, V8U8, Q8W8V8U8, V16U16, Q16W16V16U16, R16F, G16R16F, A16B16G16R16F, \
         R32F, G32R32F and A32B32G32R32F"
    );
}

#[test]
fn plane_layouts() {
    for ((width, height, alignment), expected) in [
        (
            (0, 480, 4),
            "zero size: the planes would be 0 x 480; both sizes are at least 1",
        ),
        (
            (5, 3, 6),
            "no power of two: the alignment is 6; 4 and 8 are powers of two",
        ),
        (
            (5, 3, u32::MAX),
            "no power of two: the alignment is 4294967295; 2147483648 is the largest power of two",
        ),
        (
            (u32::MAX, u32::MAX, 4),
            "over 64 bits: the depth plane would have 4294967295 rows of 17179869180 bytes, \
             73786976260478468100 in all; at this pitch the height is at most 1073741824",
        ),
    ] {
        let said = text(PlaneLayout::try_new(width, height, alignment));
        assert_eq!(said, expected);
    }
}

/// The text of an unpack that is refused.
fn unpack_text(
    format: u32,
    layout: PlaneLayout,
    (packed, pitch): (usize, usize),
    depth: usize,
    stencil: usize,
) -> String {
    let (mut depth, mut stencil) = (bytes(depth), bytes(stencil));
    text(layout.try_unpack(format, &bytes(packed), pitch, &mut depth, &mut stencil))
}

#[test]
fn depth_layouts() {
    let good = PlaneLayout::new(5, 3, 8).unwrap();
    for (layout, text) in [
        (
            but(good, |l| l.width = 0),
            "bad layout: the planes would be 0 x 3; both sizes are at least 1",
        ),
        (
            but(good, |l| l.depth_pitch = 19),
            "bad layout: the depth pitch 19 is below 4 x width, 20",
        ),
        (
            but(good, |l| l.stencil_pitch = 4),
            "bad layout: the stencil pitch 4 is below the width, 5",
        ),
        (
            but(good, |l| l.stencil_pitch = 1 << 63),
            "bad layout: the stencil plane would have 3 rows of 9223372036854775808 bytes, \
             27670116110564327424 in all; at this pitch the height is at most 1",
        ),
    ] {
        assert_eq!(unpack_text(D3DFMT_D24S8, layout, (60, 20), 72, 24), text);
    }
}

#[test]
fn depth_buffers() {
    let layout = PlaneLayout::new(5, 3, 8).unwrap();
    let said = |format, packed, depth, stencil| unpack_text(format, layout, packed, depth, stencil);
    assert_eq!(
        said(D3DFMT_A8R8G8B8, (60, 20), 72, 24),
        "not packed depth: A8R8G8B8 has no depth planes; use D16, D24X8 or D24S8"
    );
    assert_eq!(
        said(D3DFMT_D24S8, (60, 19), 72, 24),
        "short packed rows: the packed pitch 19 is below a row of 5 pixels, 20 bytes"
    );
    assert_eq!(
        said(D3DFMT_D24S8, (59, 20), 72, 24),
        "short packed rows: the packed buffer has 59 bytes, 3 rows at pitch 20 need 60"
    );
    assert_eq!(
        said(D3DFMT_D24S8, (60, 20), 71, 24),
        "short depth plane: the depth plane has 71 bytes, 3 rows at pitch 24 need 72"
    );
    assert_eq!(
        said(D3DFMT_D24S8, (60, 20), 72, 23),
        "short stencil plane: the stencil plane has 23 bytes, 3 rows at pitch 8 need 24"
    );
}

#[test]
fn planar_layouts() {
    let wide = |format, width, rows| text(try_planar_yuv_layout(format, width, rows));
    let pitched = |format, pitch, rows| text(try_planar_yuv_layout_from_pitch(format, pitch, rows));
    let (yuy2, yv12, nv12) = (D3DFMT_YUY2, D3DFMT_YV12, D3DFMT_NV12);
    for (said, expected) in [
        (wide(yuy2, 6, 4), "YUY2 is not planar; use YV12 or NV12"),
        (wide(nv12, 0, 4), "the width is 1 to 16384, not 0"),
        (
            pitched(nv12, 16386, 4),
            "the pitch is 1 to 16384, not 16386",
        ),
        (
            pitched(nv12, 7, 4),
            "the pitch 7 is odd, and chroma needs an even one",
        ),
        (
            wide(nv12, 6, 16385),
            "the luma rows are 1 to 16384, not 16385",
        ),
        (
            wide(yv12, 6, 3),
            "YV12 has an even number of luma rows, not 3",
        ),
        (
            wide(nv12, 6, 10923),
            "10923 luma rows and 5462 chroma rows are 16385, more than 16384",
        ),
    ] {
        assert_eq!(said, format!("no planar layout: {expected}"));
    }
}

#[test]
fn refusals_are_errors() {
    let refused: Box<dyn std::error::Error> = Box::new(PlaneLayout::try_new(1, 0, 4).unwrap_err());
    assert!(refused.to_string().starts_with("zero size"));
    assert_eq!(Refusal::from_number(15), Some(Refusal::IllegalSet));
    assert_eq!(Refusal::from_number(16), None);
}

/// The number after a word of the text and before the next mark, if the text has the word.
fn number_after(refused: &Refused, word: &str) -> Option<u64> {
    let text = refused.to_string();
    let (_, rest) = text.split_once(word)?;
    rest[..rest.find([';', ','])?].parse().ok()
}

/// Does what the texts ask for until none asks: lends so many bytes, starts so late. One byte less is
/// refused for the same reason.
fn mended(mut lens: [usize; 2], src_format: u32, mut region: Region) -> [usize; 2] {
    let reply = |lens: [usize; 2], region: &Region| {
        let (src, mut dst) = (bytes(lens[0]), bytes(lens[1]));
        let (to, set) = (D3DFMT_A8R8G8B8, &YuvSet::BT601);
        let reply = convert(&mut dst, to, &src, src_format, region, set);
        assert!(reply.is_ok() || dst == bytes(lens[1]));
        reply
    };
    let mut counts = [0; 2];
    while let Err(refused) = reply(lens, &region) {
        let of_source = refused.refusal == Refusal::SourceOutside;
        let still = if let Some(needed) = number_after(&refused, "the region needs ") {
            let (needed, len) = (needed as usize, &mut lens[usize::from(!of_source)]);
            assert!(needed > *len, "{refused}");
            counts[0] += 1;
            *len = needed - 1;
            let still = reply(lens, &region);
            lens[usize::from(!of_source)] = needed;
            still
        } else if let Some(start) = number_after(&refused, "must be at least ") {
            let side = |region: &mut Region, start| {
                let of = if of_source {
                    &mut region.source
                } else {
                    &mut region.destination
                };
                of.start = start;
            };
            counts[1] += 1;
            side(&mut region, start - 1);
            let still = reply(lens, &region);
            side(&mut region, start);
            still
        } else {
            return counts;
        };
        assert_eq!(still.unwrap_err().refusal, refused.refusal, "{refused}");
    }
    counts
}

#[test]
fn doing_what_a_text_asks_for_mends_it() {
    let yuv = [D3DFMT_YV12, D3DFMT_NV12, D3DFMT_YUY2, D3DFMT_UYVY];
    let texels = RGB.iter().chain(&TO_A8R8G8B8).map(|(format, _)| *format);
    let sources: Vec<u32> = texels.chain(yuv).collect();
    let mut numbers = Numbers::new(7);
    let mut counts = [0; 2];
    for _ in 0..20_000 {
        let flat = ConvertRegion {
            depth: 1 + numbers.below(2) as usize,
            ..random_region(&mut numbers, false)
        };
        let mut region = Region::from(flat);
        for side in [&mut region.source, &mut region.destination] {
            if numbers.below(3) == 0 {
                side.pitch = -side.pitch;
            }
            side.start = numbers.below(3) * numbers.below(60);
        }
        let src_format = sources[numbers.below(sources.len() as u64) as usize];
        let lens = [numbers.below(300) as usize, numbers.below(300) as usize];
        let [lengths, starts] = mended(lens, src_format, region);
        counts = [counts[0] + lengths, counts[1] + starts];
    }
    assert!(counts[0] > 10_000, "{counts:?} were mended");
    assert!(counts[1] > 3_000, "{counts:?} were mended");
}
