//! Usage: record FOLDER
//! Records the original's answers, in four files of the folder. `vectors` has the leaf arithmetic
//! of channels, as records of four little-endian 32-bit words: call, a, b, answer; `values`,
//! `buffers` and `sets` have every public call (record_calls.rs). README.md lists the calls. Every
//! answer comes from a public function of the original, and from stills.rs, sets.rs or the C
//! compiler where the port departs from the original; where several lanes or formats show the same
//! arithmetic, they must agree. Three more files, `wrong_vectors`, `wrong_values` and
//! `wrong_buffers`, have records of these in which one part of the answer is changed (wrong.rs).

mod answers;
mod by_texel;
mod calls;
mod common;
mod record_calls;
mod rules;
mod sets;
mod stills;
mod wrong;

use std::{path::Path, process::ExitCode};

use calls::{CLASSES, ConvertCall, both_signs, merged, tie};
use common::{XorShift, convert_texel, whole_frame};
use mtld3d_types::*;
use original::{convert::d3dcolor_fill_pixel_bytes, format::linear_row_pitch};
use record_calls::{BUFFERS, Recorder, SETS, VALUES};
use rules::{FORMATS, Kind};

/// Records of one call: a, b, answer.
type Sample = Vec<[u32; 3]>;

/// A call's number and name, and how its records are made.
type Call = (u32, &'static str, fn(&mut XorShift) -> Sample);

/// The calls; numbers 16 to 28, 30 and 31 are the public calls.
const CALLS: [Call; 16] = [
    (1, "expand4", |_| answers(0..16, expand4)),
    (2, "expand5", |_| answers(0..32, expand5)),
    (3, "expand6", |_| answers(0..64, expand6)),
    (4, "expand1", |_| answers(0..2, expand1)),
    (5, "truncate4", |_| answers(0..256, truncate4)),
    (6, "truncate5", |_| answers(0..256, truncate5)),
    (7, "truncate6", |_| answers(0..256, truncate6)),
    (8, "alpha bit", |_| answers(0..256, alpha_bit)),
    (9, "luminance", |random| answers(colours(random), luminance)),
    (10, "nearest code", |_| nearest_codes()),
    (11, "unorm8 to unorm16", |_| {
        answers(0..256, unorm8_to_unorm16)
    }),
    (12, "unorm16 to unorm8", |random| {
        answers(codes16(random), unorm16_to_unorm8)
    }),
    (13, "binary32 channel", |random| {
        answers(binary32s(random), binary32)
    }),
    (14, "linear_row_pitch", |_| {
        answers(widths(), |width| linear_row_pitch(width, 1))
    }),
    (15, "bytes a texel", |_| answers(sources(), bytes_a_texel)),
    (29, "nearest byte", |_| nearest_bytes()),
];

fn main() -> ExitCode {
    let words: Vec<String> = std::env::args().skip(1).collect();
    let [folder] = &words[..] else {
        eprintln!("record: usage: record FOLDER");
        return ExitCode::FAILURE;
    };
    println!("seed {:016X}", XorShift::SEED);
    let (vectors, values, buffers, sets) =
        (vectors(), public(&VALUES), public(&BUFFERS), public(&SETS));
    let lent = [&buffers[..], &sets[..]].concat();
    let files = [
        ("wrong_vectors", wrong::wrong(&vectors, 16)),
        ("wrong_values", wrong::wrong(&values, 64)),
        ("wrong_buffers", wrong::wrong(&lent, 512)),
        ("vectors", vectors),
        ("values", values),
        ("buffers", buffers),
        ("sets", sets),
    ];
    for (name, file) in files {
        println!("{name}: {} bytes", file.len());
        if let Err(error) = std::fs::write(Path::new(folder).join(name), file) {
            eprintln!("record: {folder}/{name}: {error}");
            return ExitCode::FAILURE;
        }
    }
    ExitCode::SUCCESS
}

/// The records of the channel arithmetic.
fn vectors() -> Vec<u8> {
    let mut random = XorShift::seeded();
    let mut file = Vec::new();
    for (call, name, sample) in CALLS {
        let records = sample(&mut random);
        println!("call {call:2} {name:28} {:5} records", records.len());
        for [a, b, answer] in records {
            file.extend([call, a, b, answer].map(u32::to_le_bytes).as_flattened());
        }
    }
    file
}

/// The records of public calls, each of which has random numbers of its own.
fn public(calls: &[record_calls::Call]) -> Vec<u8> {
    let mut file = Vec::new();
    for &(call, name, record) in calls {
        let random = XorShift::from_seed(XorShift::SEED ^ u64::from(call));
        let mut recorder = Recorder::new(random, call);
        record(&mut recorder);
        let (count, refused) = (recorder.count, recorder.refused);
        println!("call {call:2} {name:28} {count:5} records, {refused:5} refused");
        file.extend(recorder.records);
    }
    file
}

/// The records of a call with one argument; b is 0.
fn answers(inputs: impl IntoIterator<Item = u32>, answer: fn(u32) -> u32) -> Sample {
    inputs.into_iter().map(|a| [a, 0, answer(a)]).collect()
}

/// The number that all the lanes hold.
fn agreed(lanes: impl IntoIterator<Item = u32>) -> u32 {
    let mut lanes = lanes.into_iter();
    let first = lanes.next().expect("a lane");
    assert!(
        lanes.all(|lane| lane == first),
        "lanes of equal input differ"
    );
    first
}

/// The channels blue, green, red, alpha of a texel as A8R8G8B8.
fn decoded(format: u32, texel: &[u8]) -> [u32; 4] {
    let bytes: [u8; 4] =
        convert_texel(D3DFMT_A8R8G8B8, texel, format).expect("a pair that converts");
    bytes.map(u32::from)
}

/// A 16-bit texel's bytes.
fn texel16(texel: u32) -> [u8; 2] {
    u16::try_from(texel)
        .expect("a texel of 16 bits")
        .to_le_bytes()
}

fn expand4(code: u32) -> u32 {
    agreed(decoded(D3DFMT_A4R4G4B4, &texel16(code * 0x1111)))
}

fn expand5(code: u32) -> u32 {
    let [b, _, r, _] = decoded(D3DFMT_R5G6B5, &texel16(code << 11 | code));
    let [b5, g5, r5, _] = decoded(D3DFMT_A1R5G5B5, &texel16(code << 10 | code << 5 | code));
    agreed([b, r, b5, g5, r5])
}

fn expand6(code: u32) -> u32 {
    decoded(D3DFMT_R5G6B5, &texel16(code << 5))[1]
}

fn expand1(code: u32) -> u32 {
    decoded(D3DFMT_A1R5G5B5, &texel16(code << 15))[3]
}

/// The 16-bit texel of a colour whose four channels are `byte`.
fn encoded16(format: u32, byte: u32) -> u32 {
    let colour = (byte * 0x0101_0101).to_le_bytes();
    let texel = convert_texel(format, &colour, D3DFMT_A8R8G8B8).expect("a pair that converts");
    u32::from(u16::from_le_bytes(texel))
}

fn truncate4(byte: u32) -> u32 {
    let texel = encoded16(D3DFMT_A4R4G4B4, byte);
    agreed([0, 4, 8, 12].map(|low| texel >> low & 0xf))
}

fn truncate5(byte: u32) -> u32 {
    let r5g6b5 = encoded16(D3DFMT_R5G6B5, byte);
    let a1r5g5b5 = encoded16(D3DFMT_A1R5G5B5, byte);
    agreed(
        [
            r5g6b5,
            r5g6b5 >> 11,
            a1r5g5b5,
            a1r5g5b5 >> 5,
            a1r5g5b5 >> 10,
        ]
        .map(|lane| lane & 0x1f),
    )
}

fn truncate6(byte: u32) -> u32 {
    encoded16(D3DFMT_R5G6B5, byte) >> 5 & 0x3f
}

fn alpha_bit(byte: u32) -> u32 {
    encoded16(D3DFMT_A1R5G5B5, byte) >> 15
}

/// The bytes that a fill with `colour` writes.
fn fill(colour: u32, format: u32) -> Vec<u8> {
    d3dcolor_fill_pixel_bytes(colour, format).expect("a format that fills")
}

/// Luminance of 0x00RRGGBB, by both conversions and by the fill.
fn luminance(colour: u32) -> u32 {
    let source = colour.to_le_bytes();
    let [l8] = convert_texel(D3DFMT_L8, &source, D3DFMT_A8R8G8B8).expect("a pair that converts");
    let [a8l8, _] =
        convert_texel(D3DFMT_A8L8, &source, D3DFMT_A8R8G8B8).expect("a pair that converts");
    agreed([l8, a8l8, fill(colour, D3DFMT_L8)[0]].map(u32::from))
}

/// The corners of the colour cube, the greys, and random colours.
fn colours(random: &mut XorShift) -> Vec<u32> {
    let corners = [
        0x00_0000, 0x00_00ff, 0x00_ff00, 0x00_ffff, 0xff_0000, 0xff_00ff, 0xff_ff00, 0xff_ffff,
    ];
    let greys = (0..256).map(|grey| grey * 0x01_0101);
    let others = (0..1500).map(|_| random.next_u32() >> 8);
    corners.into_iter().chain(greys).chain(others).collect()
}

/// The nearest codes to channel × max / 255 in every fill that has lanes of such codes.
fn nearest_codes() -> Sample {
    type Code = fn(u32) -> u32;
    let lanes: [(u32, Code); 4] = [
        (3, |colour| {
            agreed(ten_bit_fills(colour).map(|texel| texel >> 30))
        }),
        (1023, |colour| {
            let lanes =
                ten_bit_fills(colour).map(|texel| [0, 10, 20].map(|low| texel >> low & 1023));
            agreed(lanes.into_iter().flatten())
        }),
        (127, |colour| {
            let bytes = [D3DFMT_V8U8, D3DFMT_Q8W8V8U8]
                .map(|format| fill(colour, format))
                .concat();
            agreed(bytes.into_iter().map(u32::from))
        }),
        (32767, |colour| {
            words16([D3DFMT_V16U16, D3DFMT_Q16W16V16U16].map(|format| fill(colour, format)))
        }),
    ];
    lanes
        .iter()
        .flat_map(|(max, code)| {
            (0..256).map(|channel| [channel, *max, code(channel * 0x0101_0101)])
        })
        .collect()
}

/// The texels of both ten-bit formats.
fn ten_bit_fills(colour: u32) -> [u32; 2] {
    [D3DFMT_A2R10G10B10, D3DFMT_A2B10G10R10].map(|format| {
        u32::from_le_bytes(fill(colour, format).try_into().expect("a texel of 32 bits"))
    })
}

/// The number that all 16-bit words of the texels hold.
fn words16(texels: [Vec<u8>; 2]) -> u32 {
    let bytes = texels.concat();
    agreed(
        bytes
            .chunks_exact(2)
            .map(|word| u32::from(u16::from_le_bytes([word[0], word[1]]))),
    )
}

fn unorm8_to_unorm16(byte: u32) -> u32 {
    words16([D3DFMT_G16R16, D3DFMT_A16B16G16R16].map(|format| fill(byte * 0x0101_0101, format)))
}

fn unorm16_to_unorm8(code: u32) -> u32 {
    agreed(decoded(D3DFMT_A16B16G16R16, &texel16(code).repeat(4)))
}

/// Both neighbours of every change of the answer, and random codes.
fn codes16(random: &mut XorShift) -> Vec<u32> {
    let answers: Vec<u32> = (0..65536).map(unorm16_to_unorm8).collect();
    let changes = (1..65536).filter(|&code| answers[code as usize] != answers[code as usize - 1]);
    let mut codes: Vec<u32> = changes.flat_map(|code| [code - 1, code]).collect();
    codes.extend((0..990).map(|_| random.next_u32() >> 16));
    codes
}

fn binary32(bits: u32) -> u32 {
    agreed(decoded(D3DFMT_A32B32G32R32F, &bits.to_le_bytes().repeat(4)))
}

/// Bit patterns around every byte's own value and around every tie between two bytes, the classes
/// of IEEE 754 that clamping meets, and random ones. The only tie that a binary32 number hits is
/// 0.5, between 127 and 128.
fn binary32s(random: &mut XorShift) -> Vec<u32> {
    let mut patterns = Vec::new();
    for byte in 0..256 {
        let exact = (f64::from(byte) / 255.0) as f32;
        patterns.extend(exact.to_bits().saturating_sub(1)..=exact.to_bits() + 1);
    }
    for byte in 0..255 {
        let tie = tie(byte, 255);
        patterns.extend(tie - 3..=tie + 3);
    }
    patterns.extend(both_signs(&SPECIAL));
    patterns.extend((0..200).map(|_| random.next_u32()));
    patterns.extend((0..200).map(|_| random.next_unit().to_bits()));
    patterns
}

/// Magnitudes, each recorded with both signs.
const SPECIAL: [u32; 26] = merged(
    &CLASSES,
    &[
        0x3e80_0000, // 0.25
        0x3f40_0000, // 0.75
        0x4000_0000, // 2
        0x437f_0000, // 255
        0x4380_0000, // 256
        0x4f80_0000, // 2^32
    ],
);

/// Small widths, those around powers of two, and the greatest.
fn widths() -> Vec<u32> {
    let around = (7..14).flat_map(|power| (1 << power) - 2..=(1 << power) + 2);
    (1..=64).chain(around).chain(16380..=16384).collect()
}

/// The codes of all sources but YUV.
fn sources() -> impl Iterator<Item = u32> {
    let of_own_bytes = |kind| matches!(kind, Kind::Rgb | Kind::Wide | Kind::Still);
    let formats = FORMATS.iter().filter(move |it| of_own_bytes(it.kind));
    formats.map(|it| it.code)
}

/// The least source length from which one texel converts to A8R8G8B8.
fn bytes_a_texel(format: u32) -> u32 {
    let converts = |length: &usize| {
        let call = ConvertCall {
            dst_format: D3DFMT_A8R8G8B8,
            dst: vec![0; 4],
            src_format: format,
            src: vec![0; *length],
            region: whole_frame(1, 1, *length, 4),
            set: None,
        };
        answers::convert(&call).0
    };
    let least = (0..=64).find(converts);
    least.expect("a format that converts") as u32
}

/// The nearest bytes to 255 × code / max, which the original has no call for: of every code of two and of
/// ten bits, and of eight bits with a sign.
fn nearest_bytes() -> Sample {
    let record = |code, part, max| [code, max, stills::nearest(part, max).into()];
    let unsigned = [3, 1023]
        .into_iter()
        .flat_map(|max| (0..=max).map(move |code| record(code, code, max)));
    let signed = (0..=255).map(|code| record(code, stills::positive(code as u8), 127));
    unsigned.chain(signed).collect()
}
