//! The sources that the original refuses and the port converts, each channel an exact fraction
//! (docs/RULES.md, Channels): the byte nearest to it is found by trying every byte, in whole
//! numbers. Neither the original nor the port stands behind it; rules.rs says which calls are
//! accepted, and how many bytes a texel has.
#![allow(dead_code)]

use std::{collections::HashMap, sync::LazyLock};

use crate::{
    calls::ConvertCall,
    rules::{self, AnyRegion, Format},
};
use Lane::{Lacking, Signed, Unsigned};

/// Where a channel of a texel comes from.
#[derive(Clone, Copy)]
enum Lane {
    /// So many bits, from the low one on.
    Unsigned { low: u32, width: u32 },
    /// The byte from the low bit on, in two's complement.
    Signed { low: u32 },
    /// The format lacks the channel.
    Lacking,
}

const fn unsigned(low: u32, width: u32) -> Lane {
    Unsigned { low, width }
}

const fn signed(low: u32) -> Lane {
    Signed { low }
}

/// The lanes of blue, green, red and alpha, which is the order of the bytes of A8R8G8B8.
const LANES: [(&str, [Lane; 4]); 6] = [
    (
        "A2R10G10B10",
        [
            unsigned(0, 10),
            unsigned(10, 10),
            unsigned(20, 10),
            unsigned(30, 2),
        ],
    ),
    (
        "A2B10G10R10",
        [
            unsigned(20, 10),
            unsigned(10, 10),
            unsigned(0, 10),
            unsigned(30, 2),
        ],
    ),
    (
        "G16R16",
        [Lacking, unsigned(16, 16), unsigned(0, 16), Lacking],
    ),
    (
        "L16",
        [unsigned(0, 16), unsigned(0, 16), unsigned(0, 16), Lacking],
    ),
    ("V8U8", [Lacking, signed(8), signed(0), Lacking]),
    ("Q8W8V8U8", [signed(16), signed(8), signed(0), signed(24)]),
];

/// What a channel means: 255 × part / whole.
#[derive(Clone, Copy)]
struct Value {
    part: u32,
    whole: u32,
}

impl Value {
    /// How far a byte is from it, times `whole`.
    const fn distance(self, byte: u8) -> u32 {
        (255 * self.part).abs_diff(byte as u32 * self.whole)
    }
}

impl Lane {
    fn value(self, texel: u32) -> Value {
        match self {
            Unsigned { low, width } => {
                let whole = (1 << width) - 1;
                let part = texel >> low & whole;
                Value { part, whole }
            }
            Signed { low } => Value {
                part: positive((texel >> low) as u8),
                whole: 127,
            },
            Lacking => Value { part: 1, whole: 1 },
        }
    }
}

/// A code in two's complement, and 0 where it is negative.
pub fn positive(code: u8) -> u32 {
    u32::try_from(code as i8).unwrap_or(0)
}

/// The byte nearest to 255 × part / whole; two that are equally near are an error.
pub fn nearest(part: u32, whole: u32) -> u8 {
    let value = Value { part, whole };
    let least = (0..=255).map(|byte| value.distance(byte)).min();
    let mut bytes = (0..=255).filter(|byte| Some(value.distance(*byte)) == least);
    let (Some(byte), None) = (bytes.next(), bytes.next()) else {
        panic!("no single byte is the nearest to 255 x {part} / {whole}");
    };
    byte
}

/// The nearest bytes to all parts of each whole.
static NEAREST: LazyLock<HashMap<u32, Vec<u8>>> = LazyLock::new(|| {
    let bytes = |whole| (0..=whole).map(|part| nearest(part, whole)).collect();
    [1, 3, 127, 1023, 65535]
        .map(|whole| (whole, bytes(whole)))
        .into()
});

/// The channels of a texel, in the order of the bytes of A8R8G8B8.
fn channels(format: &Format, texel: &[u8]) -> [Value; 4] {
    let found = LANES.iter().find(|(name, _)| *name == format.name);
    let (_, lanes) = found.expect("a source of this file");
    let mut word = [0; 4];
    word[..texel.len()].copy_from_slice(texel);
    lanes.map(|lane| lane.value(u32::from_le_bytes(word)))
}

/// Whether no byte is further than 1/2 from what its channel of the texel means.
pub fn near(format: &Format, texel: &[u8], bytes: &[u8]) -> bool {
    let channels = channels(format, texel);
    let mut both = channels.iter().zip(bytes);
    both.all(|(value, byte)| 2 * value.distance(*byte) <= value.whole)
}

/// Whether a conversion is accepted, and its destination.
pub fn convert(call: &ConvertCall) -> (bool, Vec<u8>) {
    let mut dst = call.dst.clone();
    let accepted = call.conversion().reply() == 0;
    if accepted && !call.conversion().region.is_empty() {
        write(call, &mut dst);
    }
    (accepted, dst)
}

/// Writes an accepted region that has texels, by slice, row and column.
fn write(call: &ConvertCall, dst: &mut [u8]) {
    let from = rules::find(call.src_format).expect("a source");
    let region = AnyRegion::from(&call.region);
    for texel in region.texels() {
        let start = region.source.texel(texel, from.bytes);
        let channels = channels(from, &call.src[start..start + from.bytes]);
        let bytes = channels.map(|it| NEAREST[&it.whole][it.part as usize]);
        let start = region.destination.texel(texel, bytes.len());
        dst[start..start + bytes.len()].copy_from_slice(&bytes);
    }
}
