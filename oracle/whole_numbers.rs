//! docs/RULES.md read once more, for regions with signed row pitches and starting offsets: what a
//! conversion replies, and the bytes after it. Places are whole numbers of 192 bits, which never
//! wrap, and channels are fractions of whole numbers. Nothing of the other files of this folder
//! stands behind it, so it compiles by itself: `rustc --edition 2024 --test whole_numbers.rs`.
#![allow(dead_code)]

/// The whole number `high` × 2^64 + `low`, so of 192 bits.
///
/// Sums and products that it cannot hold panic; of 64-bit numbers there are none.
#[derive(Clone, Copy, Debug, PartialEq, Eq, PartialOrd, Ord)]
pub struct Whole {
    high: i128,
    low: u64,
}

impl From<u64> for Whole {
    fn from(low: u64) -> Self {
        Self { high: 0, low }
    }
}

impl From<i64> for Whole {
    fn from(number: i64) -> Self {
        // The low 64 bits, and what remains above them: 0, or -1 below zero.
        Self {
            high: i128::from(number) >> 64,
            low: number as u64,
        }
    }
}

impl Whole {
    pub fn plus(self, other: Self) -> Self {
        let low = u128::from(self.low) + u128::from(other.low);
        let high = self.high.checked_add(other.high);
        Self::carried(high, low)
    }

    pub fn times(self, factor: u64) -> Self {
        let low = u128::from(self.low) * u128::from(factor);
        let high = self.high.checked_mul(i128::from(factor));
        Self::carried(high, low)
    }

    /// `high` × 2^64 + `low`.
    fn carried(high: Option<i128>, low: u128) -> Self {
        let carry = (low >> 64) as i128;
        let high = high.and_then(|high| high.checked_add(carry));
        Self {
            high: high.expect("192 bits hold the number"),
            low: low as u64,
        }
    }

    /// The same number as a place in a buffer of `length` bytes; none if it is none of its places.
    pub fn index(self, length: usize) -> Option<usize> {
        (self >= Self::from(0_u64) && self < Self::from(length as u64)).then_some(self.low as usize)
    }
}

/// Where a picture lies in its buffer, and its first texel.
#[derive(Clone, Copy, Debug, PartialEq, Eq)]
pub struct Side {
    pub start: u64,
    pub pitch: i64,
    pub slice_pitch: usize,
    pub x: u32,
    pub y: u32,
}

/// What a conversion covers.
#[derive(Clone, Copy, Debug, PartialEq, Eq)]
pub struct Region {
    pub source: Side,
    pub destination: Side,
    pub depth: usize,
    pub width: u32,
    pub height: u32,
}

impl Region {
    /// How many texels it has; `convert` takes a time of that order.
    pub fn texels(&self) -> u128 {
        u128::from(self.width) * u128::from(self.height) * self.depth as u128
    }
}

/// The numbers by which a YUV sample becomes a colour.
#[derive(Clone, Copy, Debug, PartialEq, Eq)]
pub struct Set {
    pub luma_gain: u32,
    pub luma_offset: u32,
    pub v_to_red: u32,
    pub u_to_green: u32,
    pub v_to_green: u32,
    pub u_to_blue: u32,
    pub chroma_centre: u32,
}

impl Set {
    fn is_legal(&self) -> bool {
        let gains = [
            self.luma_gain,
            self.v_to_red,
            self.u_to_green,
            self.v_to_green,
            self.u_to_blue,
        ];
        gains.iter().all(|&gain| gain <= 262_143)
            && self.luma_offset <= 4_194_303
            && (self.chroma_centre == 255 || self.chroma_centre == 256)
    }
}

/// The original's set, by which a call that takes none converts.
pub const BT601: Set = Set {
    luma_gain: 76284,
    luma_offset: 1_052_836,
    v_to_red: 104_595,
    u_to_green: 25690,
    v_to_green: 53281,
    u_to_blue: 132_186,
    chroma_centre: 255,
};

/// The other set with a name.
pub const BT709: Set = Set {
    luma_gain: 76284,
    luma_offset: 1_048_576,
    v_to_red: 117_506,
    u_to_green: 13959,
    v_to_green: 34931,
    u_to_blue: 138_412,
    chroma_centre: 256,
};

/// A lane: the channel, with U, V, W, Q as R, G, B, A, and its top and its bottom bit.
type Lane = (char, u32, u32);

/// What a format's bytes hold.
#[derive(Clone, Copy, PartialEq, Eq)]
enum Holds {
    /// A texel of so many bytes, with lanes of unsigned codes.
    Unsigned(u64, &'static [Lane]),
    /// The same with codes that have a sign.
    Signed(u64, &'static [Lane]),
    /// The same with binary32 numbers.
    Binary32(u64, &'static [Lane]),
    /// Macropixels: where Y of the even column, Y of the odd one, U and V are in their four bytes.
    Macropixels([usize; 4]),
    /// A planar frame.
    Planes,
}

/// What a format converts into.
#[derive(Clone, Copy, PartialEq, Eq)]
enum Converts {
    /// The twelve, one of which it is.
    TheTwelveAsOne,
    /// The twelve.
    TheTwelve,
    /// A8R8G8B8 alone.
    A8R8G8B8,
}

struct Format {
    name: &'static str,
    code: u32,
    converts: Converts,
    holds: Holds,
}

const A8R8G8B8: u32 = 21;
const A8: u32 = 28;
const YUY2: u32 = u32::from_le_bytes(*b"YUY2");
const UYVY: u32 = u32::from_le_bytes(*b"UYVY");
const YV12: u32 = u32::from_le_bytes(*b"YV12");
const NV12: u32 = u32::from_le_bytes(*b"NV12");

const fn format(name: &'static str, code: u32, converts: Converts, holds: Holds) -> Format {
    Format {
        name,
        code,
        converts,
        holds,
    }
}

/// One of the twelve.
const fn rgb(name: &'static str, code: u32, bytes: u64, lanes: &'static [Lane]) -> Format {
    format(
        name,
        code,
        Converts::TheTwelveAsOne,
        Holds::Unsigned(bytes, lanes),
    )
}

/// Every format that converts.
#[rustfmt::skip]
const FORMATS: [Format; 24] = [
    rgb("R8G8B8", 20, 3, &[('R', 23, 16), ('G', 15, 8), ('B', 7, 0)]),
    rgb("A8R8G8B8", 21, 4, &[('A', 31, 24), ('R', 23, 16), ('G', 15, 8), ('B', 7, 0)]),
    rgb("X8R8G8B8", 22, 4, &[('X', 31, 24), ('R', 23, 16), ('G', 15, 8), ('B', 7, 0)]),
    rgb("R5G6B5", 23, 2, &[('R', 15, 11), ('G', 10, 5), ('B', 4, 0)]),
    rgb("X1R5G5B5", 24, 2, &[('X', 15, 15), ('R', 14, 10), ('G', 9, 5), ('B', 4, 0)]),
    rgb("A1R5G5B5", 25, 2, &[('A', 15, 15), ('R', 14, 10), ('G', 9, 5), ('B', 4, 0)]),
    rgb("A4R4G4B4", 26, 2, &[('A', 15, 12), ('R', 11, 8), ('G', 7, 4), ('B', 3, 0)]),
    rgb("A8", 28, 1, &[('A', 7, 0)]),
    rgb("A8B8G8R8", 32, 4, &[('A', 31, 24), ('B', 23, 16), ('G', 15, 8), ('R', 7, 0)]),
    rgb("X8B8G8R8", 33, 4, &[('X', 31, 24), ('B', 23, 16), ('G', 15, 8), ('R', 7, 0)]),
    rgb("L8", 50, 1, &[('L', 7, 0)]),
    rgb("A8L8", 51, 2, &[('A', 15, 8), ('L', 7, 0)]),
    format("A2B10G10R10", 31, Converts::A8R8G8B8,
        Holds::Unsigned(4, &[('A', 31, 30), ('B', 29, 20), ('G', 19, 10), ('R', 9, 0)])),
    format("G16R16", 34, Converts::A8R8G8B8, Holds::Unsigned(4, &[('G', 31, 16), ('R', 15, 0)])),
    format("A2R10G10B10", 35, Converts::A8R8G8B8,
        Holds::Unsigned(4, &[('A', 31, 30), ('R', 29, 20), ('G', 19, 10), ('B', 9, 0)])),
    format("A16B16G16R16", 36, Converts::A8R8G8B8,
        Holds::Unsigned(8, &[('A', 63, 48), ('B', 47, 32), ('G', 31, 16), ('R', 15, 0)])),
    format("V8U8", 60, Converts::A8R8G8B8, Holds::Signed(2, &[('G', 15, 8), ('R', 7, 0)])),
    format("Q8W8V8U8", 63, Converts::A8R8G8B8,
        Holds::Signed(4, &[('A', 31, 24), ('B', 23, 16), ('G', 15, 8), ('R', 7, 0)])),
    format("L16", 81, Converts::A8R8G8B8, Holds::Unsigned(2, &[('L', 15, 0)])),
    format("A32B32G32R32F", 116, Converts::A8R8G8B8,
        Holds::Binary32(16, &[('A', 127, 96), ('B', 95, 64), ('G', 63, 32), ('R', 31, 0)])),
    format("YUY2", YUY2, Converts::TheTwelve, Holds::Macropixels([0, 2, 1, 3])),
    format("UYVY", UYVY, Converts::TheTwelve, Holds::Macropixels([1, 3, 0, 2])),
    format("YV12", YV12, Converts::TheTwelve, Holds::Planes),
    format("NV12", NV12, Converts::TheTwelve, Holds::Planes),
];

/// The format of a code, if it converts.
fn format_of(code: u32) -> Option<&'static Format> {
    FORMATS.iter().find(|format| format.code == code)
}

/// The source's and the destination's format, if the pair converts.
fn pair(src_format: u32, dst_format: u32) -> Option<(&'static Format, &'static Format)> {
    let from = format_of(src_format)?;
    let to = format_of(dst_format)?;
    let both = match from.converts {
        Converts::TheTwelveAsOne | Converts::TheTwelve => to.converts == Converts::TheTwelveAsOne,
        Converts::A8R8G8B8 => to.code == A8R8G8B8,
    };
    both.then_some((from, to))
}

/// Whether a pair of formats converts.
pub fn can_convert(src_format: u32, dst_format: u32) -> bool {
    pair(src_format, dst_format).is_some()
}

// Where bytes lie.

/// A texel of a picture.
#[derive(Clone, Copy, Debug)]
struct Texel {
    slice: u64,
    row: u64,
    column: u64,
}

impl Side {
    /// The picture's texel at a slice, row and column of the region.
    fn texel(&self, slice: u64, row: u64, column: u64) -> Texel {
        Texel {
            slice,
            row: u64::from(self.y) + row,
            column: u64::from(self.x) + column,
        }
    }

    /// start + slice × slice pitch + row × pitch + `unit` × `size`, where `unit` is a column of
    /// texels or of macropixels.
    fn place(&self, texel: Texel, unit: u64, size: u64) -> Whole {
        Whole::from(self.start)
            .plus(Whole::from(texel.slice).times(self.slice_pitch as u64))
            .plus(Whole::from(self.pitch).times(texel.row))
            .plus(Whole::from(unit).times(size))
    }
}

/// `count` places from the first on.
fn run(first: Whole, count: u64) -> Vec<Whole> {
    (0..count)
        .map(|offset| first.plus(Whole::from(offset)))
        .collect()
}

/// The chroma rows of a planar layout, if one exists.
fn chroma_rows(code: u32, pitch: u64, luma_rows: u64) -> Option<u64> {
    let chroma_rows = luma_rows.div_ceil(2);
    let exists = (1..=16384).contains(&pitch)
        && pitch.is_multiple_of(2)
        && (1..=16384).contains(&luma_rows)
        && (code != YV12 || luma_rows.is_multiple_of(2))
        && luma_rows + chroma_rows <= 16384;
    exists.then_some(chroma_rows)
}

/// The places of Y, U and V of a texel of a planar frame, if the frame has it.
fn planar_places(code: u32, side: &Side, texel: Texel) -> Option<Vec<Whole>> {
    let pitch = u64::try_from(side.pitch).ok().filter(|&pitch| pitch > 0)?;
    let luma_rows = side.slice_pitch as u64 / pitch;
    let chroma_rows = chroma_rows(code, pitch, luma_rows)?;
    let Texel { row, column, .. } = texel;
    if column >= pitch || row >= luma_rows {
        return None;
    }
    // All of these are below 2^29.
    let base = pitch * luma_rows;
    let (u, v) = if code == NV12 {
        let u = base + (row / 2) * pitch + 2 * (column / 2);
        (u, u + 1)
    } else {
        let v = base + (row / 2) * (pitch / 2) + column / 2;
        (v + chroma_rows * (pitch / 2), v)
    };
    let offsets = [row * pitch + column, u, v];
    let start = Whole::from(side.start);
    Some(
        offsets
            .map(|offset| start.plus(Whole::from(offset)))
            .to_vec(),
    )
}

/// The places of a texel's bytes, if it has any.
fn places(format: &Format, side: &Side, texel: Texel) -> Option<Vec<Whole>> {
    match format.holds {
        Holds::Unsigned(bytes, _) | Holds::Signed(bytes, _) | Holds::Binary32(bytes, _) => {
            Some(run(side.place(texel, texel.column, bytes), bytes))
        }
        Holds::Macropixels(_) => Some(run(side.place(texel, texel.column / 2, 4), 4)),
        Holds::Planes => planar_places(format.code, side, texel),
    }
}

/// Where a texel's bytes are in a buffer of `length` bytes; none if the texel is outside it.
fn inside(format: &Format, side: &Side, texel: Texel, length: usize) -> Option<Vec<usize>> {
    let most = u64::from(u32::MAX);
    if texel.column > most || texel.row > most {
        return None;
    }
    places(format, side, texel)?
        .into_iter()
        .map(|place| place.index(length))
        .collect()
}

// Replies.

/// Up to so many texels of a region are tried one by one.
const EACH: u128 = 4096;

/// Which texels of a region are tried.
///
/// The place of each byte of a texel is a sum of a number by its slice, one by its row and one by
/// its column, and each of these only rises or only falls along its range. So the least and the
/// greatest place, row and column are found at ends of the three ranges.
#[derive(Clone, Copy)]
enum Tried {
    Each,
    Ends,
}

impl Tried {
    /// The numbers below `count` that are tried: each, or the first two and the last two.
    fn of(self, count: u64) -> Vec<u64> {
        match self {
            Self::Each => (0..count).collect(),
            Self::Ends => (0..count.min(2))
                .chain(count.saturating_sub(2)..count)
                .collect(),
        }
    }
}

/// Whether some texel of a region, on this side, is outside a buffer of `length` bytes.
fn some_outside(
    format: &Format,
    side: &Side,
    length: usize,
    region: &Region,
    tried: Tried,
) -> bool {
    tried.of(region.depth as u64).iter().any(|&slice| {
        tried.of(region.height.into()).iter().any(|&row| {
            tried.of(region.width.into()).iter().any(|&column| {
                inside(format, side, side.texel(slice, row, column), length).is_none()
            })
        })
    })
}

/// The reply to a conversion between buffers of these lengths.
pub fn reply(
    src_length: usize,
    src_format: u32,
    dst_length: usize,
    dst_format: u32,
    region: &Region,
    set: &Set,
) -> u32 {
    let tried = if region.texels() <= EACH {
        Tried::Each
    } else {
        Tried::Ends
    };
    let formats = [src_format, dst_format];
    reply_by(tried, formats, [src_length, dst_length], region, set)
}

/// The same, by the texels that are tried.
fn reply_by(
    tried: Tried,
    [src_format, dst_format]: [u32; 2],
    [src_length, dst_length]: [usize; 2],
    region: &Region,
    set: &Set,
) -> u32 {
    let Some((from, to)) = pair(src_format, dst_format) else {
        return 1;
    };
    let Region {
        source,
        destination,
        ..
    } = region;
    if from.holds == Holds::Planes
        && (region.depth != 1
            || source.pitch <= 0
            || !(source.slice_pitch as u64).is_multiple_of(source.pitch as u64))
    {
        return 2;
    }
    let is_yuv = matches!(from.holds, Holds::Macropixels(_) | Holds::Planes);
    if is_yuv && !set.is_legal() {
        return 15;
    }
    if region.texels() == 0 {
        return 0;
    }
    if some_outside(from, source, src_length, region, tried) {
        return 3;
    }
    if some_outside(to, destination, dst_length, region, tried) {
        return 4;
    }
    0
}

// Channels.

/// The whole number nearest to `numerator` / `denominator`, neither below zero, a tie up.
const fn nearest(numerator: u128, denominator: u128) -> u128 {
    (2 * numerator + denominator) / (2 * denominator)
}

/// A code of at most eight bits as a byte: its bits again and again, and of these the top eight.
const fn expand(code: u128, bits: u32) -> u128 {
    let (mut repeated, mut length) = (code, bits);
    while length < 8 {
        repeated = repeated << bits | code;
        length += bits;
    }
    repeated >> (length - 8)
}

/// A byte as a code of at most eight bits, without its low bits.
const fn truncate(byte: u128, bits: u32) -> u128 {
    byte >> (8 - bits)
}

/// 255 times a binary32 number, clamped to 0..1 and a NaN as 0, to the nearest, a tie up.
fn binary32_channel(bits: u128) -> u128 {
    let (sign, exponent, fraction) = (bits >> 31, bits >> 23 & 255, bits & 0x7f_ffff);
    if exponent == 255 && fraction != 0 || sign == 1 {
        return 0;
    }
    if exponent >= 127 {
        return 255; // 1 and above, the infinity too
    }
    // The number is significand / 2^below: below 1, and 2^-149 the least step.
    let (significand, below) = match exponent {
        0 => (fraction, 149),
        _ => (fraction | 0x80_0000, 150 - exponent),
    };
    if below > 100 {
        return 0; // 255 × 2^24 / 2^101 is below a half
    }
    nearest(255 * significand, 1 << below)
}

/// Luminance of red, green and blue.
const fn luminance([red, green, blue]: [u128; 3]) -> u128 {
    (2125 * red + 7154 * green + 721 * blue + 5000) / 10000
}

/// Red, green, blue and alpha, each 0 to 255.
type Colour = [u128; 4];

impl Format {
    /// The lanes and bytes of a texel.
    const fn lanes(&self) -> (u64, &'static [Lane]) {
        match self.holds {
            Holds::Unsigned(bytes, lanes)
            | Holds::Signed(bytes, lanes)
            | Holds::Binary32(bytes, lanes) => (bytes, lanes),
            Holds::Macropixels(_) | Holds::Planes => (0, &[]),
        }
    }

    /// The code in a channel's lane of a word, and its bits, if the format has the lane.
    fn code_in(&self, word: u128, channel: char) -> Option<(u128, u32)> {
        let (_, lanes) = self.lanes();
        let &(_, top, bottom) = lanes.iter().find(|(named, ..)| *named == channel)?;
        let bits = top - bottom + 1;
        Some((word >> bottom & ((1 << bits) - 1), bits))
    }

    /// A channel of a word, as a byte, if the format has it.
    fn channel(&self, word: u128, channel: char) -> Option<u128> {
        let (code, bits) = self.code_in(word, channel)?;
        Some(match self.holds {
            Holds::Signed(..) if code > 127 => 0,
            Holds::Signed(..) => nearest(255 * code, 127),
            Holds::Binary32(..) => binary32_channel(code),
            _ if bits <= 8 => expand(code, bits),
            _ => nearest(255 * code, (1 << bits) - 1),
        })
    }

    /// The colour of a texel's bytes; `column` is the texel's in its picture.
    fn open(&self, bytes: &[u8], column: u64, set: &Set) -> Colour {
        let sample = match self.holds {
            Holds::Macropixels([even, odd, u, v]) => {
                let luma = if column.is_multiple_of(2) { even } else { odd };
                [luma, u, v]
            }
            Holds::Planes => [0, 1, 2],
            _ => return self.open_word(word(bytes)),
        };
        let [red, green, blue] = sample_colour(sample.map(|place| bytes[place]), set);
        [red, green, blue, 255]
    }

    fn open_word(&self, word: u128) -> Colour {
        let missing = if self.code == A8 { 0 } else { 255 };
        let grey = self.channel(word, 'L').unwrap_or(missing);
        let colour = |channel| self.channel(word, channel).unwrap_or(grey);
        let alpha = self.channel(word, 'A').unwrap_or(255);
        [colour('R'), colour('G'), colour('B'), alpha]
    }

    /// A colour as a texel's bytes, of one of the twelve.
    fn close(&self, [red, green, blue, alpha]: Colour) -> Vec<u8> {
        let (bytes, lanes) = self.lanes();
        let mut word = 0;
        for &(channel, top, bottom) in lanes {
            let bits = top - bottom + 1;
            let code = match channel {
                'R' => truncate(red, bits),
                'G' => truncate(green, bits),
                'B' => truncate(blue, bits),
                'A' if bits == 1 => u128::from(alpha >= 128),
                'A' => truncate(alpha, bits),
                'L' => luminance([red, green, blue]),
                _ => (1 << bits) - 1,
            };
            word |= code << bottom;
        }
        word.to_le_bytes()[..bytes as usize].to_vec()
    }
}

/// A texel's word.
fn word(bytes: &[u8]) -> u128 {
    bytes
        .iter()
        .rev()
        .fold(0, |word, &byte| word << 8 | u128::from(byte))
}

/// Red, green and blue of a YUV sample.
fn sample_colour([y, u, v]: [u8; 3], set: &Set) -> [u128; 3] {
    // >> 16, which rounds down also below zero.
    let shifted = |product: i128| product.div_euclid(65536);
    let centred = |chroma: u8| (2 * i128::from(chroma) - i128::from(set.chroma_centre)) * 32768;
    let (u, v) = (centred(u), centred(v));
    let above_offset = 65536 * i128::from(y) - i128::from(set.luma_offset);
    let luma = shifted(above_offset * i128::from(set.luma_gain));
    let red = luma + shifted(v * i128::from(set.v_to_red));
    let green =
        luma - shifted(u * i128::from(set.u_to_green)) - shifted(v * i128::from(set.v_to_green));
    let blue = luma + shifted(u * i128::from(set.u_to_blue));
    [red, green, blue].map(|channel| shifted(channel + 32768).clamp(0, 255) as u128)
}

// Conversions.

/// Converts, and replies; refused, `dst` is what it was.
pub fn convert(
    dst: &mut [u8],
    dst_format: u32,
    src: &[u8],
    src_format: u32,
    region: &Region,
    set: &Set,
) -> u32 {
    let reply = reply(src.len(), src_format, dst.len(), dst_format, region, set);
    let Some((from, to)) =
        pair(src_format, dst_format).filter(|_| reply == 0 && region.texels() > 0)
    else {
        return reply;
    };
    for slice in 0..region.depth as u64 {
        for row in 0..u64::from(region.height) {
            for column in 0..u64::from(region.width) {
                let read = region.source.texel(slice, row, column);
                let written = region.destination.texel(slice, row, column);
                let bytes: Vec<u8> = inside(from, &region.source, read, src.len())
                    .expect("a source texel of an accepted conversion")
                    .into_iter()
                    .map(|place| src[place])
                    .collect();
                let places = inside(to, &region.destination, written, dst.len())
                    .expect("a destination texel of an accepted conversion");
                let texel = to.close(from.open(&bytes, read.column, set));
                for (place, byte) in places.into_iter().zip(texel) {
                    dst[place] = byte;
                }
            }
        }
    }
    0
}

#[cfg(test)]
mod tests {
    use super::*;

    const R8G8B8: u32 = 20;
    const R5G6B5: u32 = 23;
    const L8: u32 = 50;
    const A8L8: u32 = 51;
    const V8U8: u32 = 60;
    const A16B16G16R16: u32 = 36;
    const A32B32G32R32F: u32 = 116;
    const HALF: usize = 1 << 63;
    const MOST: u64 = u64::MAX;

    fn side(start: u64, pitch: i64, slice_pitch: usize, x: u32, y: u32) -> Side {
        Side {
            start,
            pitch,
            slice_pitch,
            x,
            y,
        }
    }

    /// A region of one slice, with both sides from the first byte on.
    fn flat(width: u32, height: u32, src_pitch: i64, dst_pitch: i64) -> Region {
        Region {
            source: side(0, src_pitch, 0, 0, 0),
            destination: side(0, dst_pitch, 0, 0, 0),
            depth: 1,
            width,
            height,
        }
    }

    /// The reply to A8 from `source`, `width` by `height` texels, into texels that are all byte 0.
    fn reply_a8(source: Side, depth: usize, width: u32, height: u32, src_length: usize) -> u32 {
        let region = Region {
            source,
            destination: side(0, 0, 0, 0, 0),
            depth,
            width,
            height,
        };
        reply(src_length, A8, width as usize, A8, &region, &BT601)
    }

    /// The bytes that one texel of a source becomes.
    fn texel(src_format: u32, src: &[u8], dst_format: u32) -> Vec<u8> {
        let (bytes, _) = format_of(dst_format).unwrap().lanes();
        let mut dst = vec![0; bytes as usize];
        let region = flat(1, 1, 2, 0);
        let reply = convert(&mut dst, dst_format, src, src_format, &region, &BT601);
        assert_eq!(reply, 0);
        dst
    }

    /// Every pair that converts, source first.
    fn pairs() -> Vec<(&'static Format, &'static Format)> {
        let all = FORMATS
            .iter()
            .flat_map(|from| FORMATS.iter().map(move |to| (from, to)));
        all.filter(|(from, to)| can_convert(from.code, to.code))
            .collect()
    }

    /// A generator of 64 bits (xorshift).
    struct Random(u64);

    impl Random {
        fn next(&mut self) -> u64 {
            self.0 ^= self.0 << 13;
            self.0 ^= self.0 >> 7;
            self.0 ^= self.0 << 17;
            self.0
        }

        fn below(&mut self, bound: u64) -> u64 {
            ((u128::from(self.next()) * u128::from(bound)) >> 64) as u64
        }

        fn pick<T: Copy>(&mut self, from: &[T]) -> T {
            from[self.below(from.len() as u64) as usize]
        }

        fn bytes(&mut self, length: usize) -> Vec<u8> {
            (0..length).map(|_| (self.next() >> 32) as u8).collect()
        }
    }

    #[test]
    fn small_numbers_are_those_of_128_bits() {
        let mut random = Random(1);
        for _ in 0..100_000 {
            let [a, b] = [0; 2].map(|_| random.next() as i64 >> random.below(64));
            let factor = random.next() >> random.below(64) >> 1;
            let whole = Whole::from(a).times(factor).plus(Whole::from(b));
            let exact = i128::from(a) * i128::from(factor) + i128::from(b);
            let as_whole = Whole {
                high: exact >> 64,
                low: exact as u64,
            };
            assert_eq!(whole, as_whole);
            let length = random.next() as usize >> random.below(64);
            let index = (exact >= 0 && exact < length as i128).then_some(exact as usize);
            assert_eq!(whole.index(length), index);
            assert_eq!(
                Whole::from(a).cmp(&Whole::from(b)),
                a.cmp(&b),
                "{a} and {b}"
            );
        }
    }

    #[test]
    fn great_numbers_do_not_wrap() {
        // (2^64 - 1)^2 = (2^64 - 2) × 2^64 + 1.
        let square = Whole::from(MOST).times(MOST);
        let high = i128::from(MOST) - 1;
        assert_eq!(square, Whole { high, low: 1 });
        // Twice that, 2^129 - 2^66 + 2, is above every i128.
        let twice = square.plus(square);
        assert_eq!(
            twice,
            Whole {
                high: 2 * high,
                low: 2
            }
        );
        assert_eq!(twice.index(usize::MAX), None);
        // -2^63 × (2^64 - 1) = -2^63 × 2^64 + 2^63.
        let least = Whole::from(i64::MIN).times(MOST);
        let low = 1 << 63;
        let high = -(1 << 63);
        assert_eq!(least, Whole { high, low });
        assert!(least < Whole::from(i64::MIN) && twice > square);
        // 2^64 - 1 - 2^63 × 2 = -1, and one more is 0.
        let below = Whole::from(MOST).plus(Whole::from(i64::MIN).times(2));
        assert_eq!(below, Whole::from(-1_i64));
        assert_eq!(below.index(1), None);
        assert_eq!(below.plus(Whole::from(1_u64)).index(1), Some(0));
        assert_eq!(Whole::from(MOST).index(usize::MAX), None);
        assert_eq!(
            Whole::from(MOST - 1).index(usize::MAX),
            Some(usize::MAX - 1)
        );
    }

    #[test]
    fn lanes_are_those_of_the_names() {
        let lanes_of = |name: &str| -> Vec<(char, u32)> {
            let mut lanes = Vec::new();
            for letter in name.trim_end_matches('F').chars() {
                match letter.to_digit(10) {
                    None => lanes.push((letter, 0)),
                    Some(digit) => {
                        let (_, bits) = lanes.last_mut().unwrap();
                        *bits = *bits * 10 + digit;
                    }
                }
            }
            lanes
        };
        for format in &FORMATS {
            let (bytes, lanes) = format.lanes();
            if lanes.is_empty() {
                continue;
            }
            let mut above = 8 * bytes as u32;
            for &(_, top, bottom) in lanes {
                assert_eq!(above, top + 1, "{}", format.name);
                above = bottom;
            }
            assert_eq!(above, 0, "{}", format.name);
            let colour = |letter| match letter {
                'U' => 'R',
                'V' => 'G',
                'W' => 'B',
                'Q' => 'A',
                other => other,
            };
            let named = lanes_of(format.name);
            let named: Vec<_> = named.iter().map(|&(a, b)| (colour(a), b)).collect();
            let laid: Vec<_> = lanes.iter().map(|&(a, b, c)| (a, b - c + 1)).collect();
            assert_eq!(laid, named, "{}", format.name);
        }
    }

    #[test]
    fn pairs_are_those_of_the_rules() {
        assert_eq!(pairs().len(), 12 * 12 + 4 * 12 + 8);
        assert!(can_convert(NV12, A8L8) && can_convert(V8U8, A8R8G8B8));
        assert!(!can_convert(A8R8G8B8, V8U8) && !can_convert(V8U8, A8));
        assert!(!can_convert(A8, YUY2) && !can_convert(YUY2, UYVY) && !can_convert(80, A8));
        assert_eq!(YUY2, 0x3259_5559);
        assert_eq!(UYVY, 0x5956_5955);
        assert_eq!(YV12, 0x3231_5659);
        assert_eq!(NV12, 0x3231_564e);
    }

    #[test]
    fn the_worked_table() {
        // P1, P2: a lone texel of YUY2, blue first.
        assert_eq!(texel(YUY2, &[16, 128, 16, 128], R8G8B8), [1, 0, 1]);
        assert_eq!(texel(YUY2, &[235, 128, 0, 128], R8G8B8), [255, 254, 255]);
        assert_eq!(texel(UYVY, &[128, 235, 128, 0], R8G8B8), [255, 254, 255]);
        // P3: pure red, green and blue.
        let pure = [[0, 0, 255], [0, 255, 0], [255, 0, 0]];
        let codes = pure.map(|bytes: [u8; 3]| texel(R8G8B8, &bytes, L8)[0]);
        assert_eq!(codes, [54, 182, 18]);
        // 2125 × 40 is 8 and a half.
        assert_eq!(texel(R8G8B8, &[0, 0, 40], L8), [9]);
        // P4.
        assert_eq!(texel(R5G6B5, &[0, 0xf8], A8R8G8B8), [0, 0, 255, 255]);
        // P6: red is 32767, the rest 32768.
        let wide = [0xff, 0x7f, 0, 0x80, 0, 0x80, 0, 0x80];
        assert_eq!(texel(A16B16G16R16, &wide, A8R8G8B8), [128, 128, 127, 128]);
        // P7.
        let half = 0.5_f32.to_le_bytes().repeat(4);
        assert_eq!(texel(A32B32G32R32F, &half, A8R8G8B8), [128; 4]);
        // P10: NV12 of 6 × 3, pitch 8. (5, 2) is column 5, row 2.
        let at = |row, column| Texel {
            slice: 0,
            row,
            column,
        };
        let places = planar_places(NV12, &side(0, 8, 24, 0, 0), at(2, 5)).unwrap();
        assert_eq!(places, [21, 36, 37].map(Whole::from as fn(u64) -> Whole));
        assert_eq!(chroma_rows(NV12, 8, 3), Some(2));
        // P11: YV12 of 6 × 4, V of (5, 3), and 6 × 3.
        let places = planar_places(YV12, &side(0, 8, 32, 0, 0), at(3, 5)).unwrap();
        assert_eq!(places, [29, 46, 38].map(Whole::from as fn(u64) -> Whole));
        assert_eq!(chroma_rows(YV12, 8, 3), None);
        assert_eq!(chroma_rows(NV12, 2, 10922), Some(5461));
        assert_eq!(chroma_rows(NV12, 2, 10923), None);
        // A row of one texel.
        let one = flat(1, 1, 4, 4);
        assert_eq!(reply(4, YUY2, 4, A8R8G8B8, &one, &BT601), 0);
        assert_eq!(reply(3, YUY2, 4, A8R8G8B8, &one, &BT601), 3);
    }

    #[test]
    fn a_place_is_found_beyond_64_bits() {
        // 2^64 - 1 - 2^40 × 2^24 + 1 = 0.
        let far = side(MOST, -(1 << 40), 0, 1, 1 << 24);
        assert_eq!(reply_a8(far, 1, 1, 1, 1), 0);
        assert_eq!(reply_a8(far, 1, 1, 1, 0), 3);
        assert_eq!(reply_a8(far, 1, 2, 1, 2), 0);
        assert_eq!(reply_a8(far, 1, 2, 1, 1), 3);
        assert_eq!(reply_a8(far, 1, 1, 2, 1), 3);
        assert_eq!(reply_a8(Side { x: 0, ..far }, 1, 1, 1, 1), 3);
        let mut region = flat(1, 1, 0, 0);
        region.source = far;
        let mut dst = [0];
        assert_eq!(convert(&mut dst, A8, &[77], A8, &region, &BT601), 0);
        assert_eq!(dst, [77]);
        region.destination = far;
        region.source = side(1, 5, 0, 0, 0);
        assert_eq!(convert(&mut dst, A8, &[1, 78], A8, &region, &BT601), 0);
        assert_eq!(dst, [78]);
        region.destination.x = 0;
        assert_eq!(convert(&mut dst, A8, &[1, 79], A8, &region, &BT601), 4);
        assert_eq!(dst, [78]);
    }

    #[test]
    fn slices_and_rows_beyond_64_bits_meet() {
        // Row 1 takes back a start of 2^63, and slice 1 is 2^63 bytes on.
        let both = side(1 << 63, i64::MIN, HALF, 0, 1);
        assert_eq!(reply_a8(both, 1, 1, 1, 1), 0);
        assert_eq!(reply_a8(both, 2, 1, 1, HALF), 3);
        assert_eq!(reply_a8(both, 2, 1, 1, HALF + 1), 0);
        assert_eq!(reply_a8(both, 3, 1, 1, usize::MAX), 3);
        // The same from byte 0: slice 1 is at byte 0, and slice 0 below it.
        let below = side(0, i64::MIN, HALF, 0, 1);
        assert_eq!(reply_a8(below, 2, 1, 1, usize::MAX), 3);
        // (2^64 - 2) × (2^64 - 1) lies beyond 127 bits, and modulo 2^64 it is 2.
        let deep = side(0, 0, usize::MAX, 0, 0);
        assert_eq!(reply_a8(deep, usize::MAX, 1, 1, 9), 3);
        // 2^31 rows of -2^63 come to -2^94; any number of slices at one place stands.
        let low = side(0, i64::MIN, 0, 0, 0);
        assert_eq!(reply_a8(low, usize::MAX, 1, 1 << 31, 9), 3);
        assert_eq!(reply_a8(low, usize::MAX, 9, 1, 9), 0);
        assert_eq!(reply_a8(low, usize::MAX, 10, 1, 9), 3);
    }

    #[test]
    fn the_least_pitch() {
        let rows = |y, height, start| {
            let source = side(start, i64::MIN, 0, 0, y);
            reply_a8(source, 1, 1, height, 1)
        };
        assert_eq!(rows(0, 1, 0), 0);
        assert_eq!(rows(1, 1, 0), 3);
        assert_eq!(rows(1, 1, 1 << 63), 0);
        assert_eq!(rows(1, 1, (1 << 63) - 1), 3);
        assert_eq!(rows(1, 1, (1 << 63) + 1), 3);
        assert_eq!(rows(0, 2, 1 << 63), 3);
        assert_eq!(rows(2, 1, MOST), 3);
        // Row 2 is at -1 + the column.
        let second = |x| reply_a8(side(MOST, i64::MIN, 0, x, 2), 1, 1, 1, 1);
        assert_eq!([second(0), second(1), second(2)], [3, 0, 3]);
        // The greatest: row 2 is at 2^64 - 2.
        assert_eq!(reply_a8(side(0, i64::MAX, 0, 2, 2), 1, 1, 1, 1), 3);
    }

    #[test]
    fn pitch_zero_and_starts_at_the_end() {
        assert_eq!(reply_a8(side(5, 0, 0, 0, u32::MAX), 1, 1, 1, 6), 0);
        assert_eq!(reply_a8(side(5, 0, 0, 0, 9), 7, 1, 1000, 5), 3);
        assert_eq!(reply_a8(side(MOST, 0, 0, 0, 0), 1, 1, 1, 1), 3);
        assert_eq!(reply_a8(side(MOST, 0, 0, 1, 0), 1, 1, 1, 1), 3);
        assert_eq!(reply_a8(side(MOST, -1, 0, 0, u32::MAX), 1, 1, 1, 1), 3);
        // Texels of sixteen bytes: 2^64 - 16 and sixteen more is 2^64, not 0.
        let mut region = flat(1, 1, 0, 4);
        for (start, x) in [(MOST - 15, 0), (MOST - 15, 1), (MOST, 0), (MOST, 1)] {
            region.source = side(start, 0, 0, x, 0);
            let reply = reply(64, A32B32G32R32F, 4, A8R8G8B8, &region, &BT601);
            assert_eq!(reply, 3);
        }
        // The next row is 16 bytes above 2^64 - 16 - 2^64.
        region.source = side(MOST - 15, i64::MIN, 0, 1, 2);
        let replies =
            [15, 16].map(|length| reply(length, A32B32G32R32F, 4, A8R8G8B8, &region, &BT601));
        assert_eq!(replies, [3, 0]);
        region.source = side(MOST, i64::MIN, 0, 1, 2);
        let replies =
            [30, 31].map(|length| reply(length, A32B32G32R32F, 4, A8R8G8B8, &region, &BT601));
        assert_eq!(replies, [3, 0]);
    }

    #[test]
    fn macropixels_count_from_the_start() {
        // Two rows, the second below the first, from byte 9: columns 1 to 3 need both macropixels.
        let mut region = flat(3, 2, 0, 3);
        region.source = side(9, -8, 0, 1, 0);
        let replies = [16, 17].map(|length| reply(length, YUY2, 6, L8, &region, &BT601));
        assert_eq!(replies, [3, 0]);
        region.source.start = 7;
        assert_eq!(reply(99, YUY2, 6, L8, &region, &BT601), 3);
        // A macropixel of which one byte is below 0, though the texel's own is not.
        region = flat(1, 1, 0, 1);
        region.source = side(MOST, i64::MIN, 0, 0, 2);
        assert_eq!(reply(9, UYVY, 1, L8, &region, &BT601), 3);
        region.source.x = 1;
        assert_eq!(reply(9, UYVY, 1, L8, &region, &BT601), 3);
        region.source.x = 2;
        assert_eq!(reply(6, UYVY, 1, L8, &region, &BT601), 3);
        assert_eq!(reply(7, UYVY, 1, L8, &region, &BT601), 0);
        // Greys of the luma codes 16 and 235, with chroma 128: from byte 3, the odd column first.
        let src = [0, 0, 0, 16, 128, 235, 128, 235, 128, 16, 128];
        region = flat(3, 1, 0, 9);
        region.source = side(3, 0, 0, 1, 0);
        let mut dst = [9; 10];
        let set = &BT709;
        assert_eq!(convert(&mut dst, R8G8B8, &src, YUY2, &region, set), 0);
        assert_eq!(dst, [255, 255, 255, 255, 255, 255, 0, 0, 0, 9]);
    }

    #[test]
    fn a_planar_layout_counts_from_the_start() {
        // NV12 and YV12 of 2 × 2: luma 4 bytes, then U and V of one block.
        for (format, chroma) in [(NV12, [200, 100]), (YV12, [100, 200])] {
            let src = [&[7, 16, 50, 100, 235][..], &chroma].concat();
            let mut region = flat(2, 2, 2, 6);
            region.source = side(1, 2, 4, 0, 0);
            let mut dst = [9; 12];
            let six = reply(6, format, 12, R8G8B8, &region, &BT601);
            assert_eq!(six, 3);
            let code = convert(&mut dst, R8G8B8, &src, format, &region, &BT601);
            assert_eq!(code, 0);
            for (place, luma) in [16, 50, 100, 235].into_iter().enumerate() {
                let [red, green, blue] = sample_colour([luma, 200, 100], &BT601);
                let bytes = [blue, green, red].map(|channel| channel as u8);
                assert_eq!(dst[3 * place..][..3], bytes);
            }
            region.source.start = MOST;
            assert_eq!(reply(6, format, 12, R8G8B8, &region, &BT601), 3);
        }
    }

    #[test]
    fn planar_refusals() {
        let of = |format, depth, pitch, slice_pitch, set: &Set| {
            let mut region = flat(1, 1, 0, 0);
            region.source = side(0, pitch, slice_pitch, 0, 0);
            region.depth = depth;
            reply(1 << 40, format, 1, A8, &region, set)
        };
        for format in [NV12, YV12] {
            assert_eq!(of(format, 1, 8, 16, &BT601), 0);
            assert_eq!(of(format, 2, 8, 16, &BT601), 2);
            assert_eq!(of(format, 0, 8, 16, &BT601), 2);
            for pitch in [0, -1, -8, i64::MIN] {
                assert_eq!(of(format, 1, pitch, 16, &BT601), 2);
                assert_eq!(of(format, 1, pitch, 0, &BT601), 2);
                assert_eq!(of(format, 1, pitch, HALF, &BT601), 2);
            }
            assert_eq!(of(format, 1, 8, 15, &BT601), 2);
            // No layout: odd pitch, no rows, too many of either.
            assert_eq!(of(format, 1, 7, 14, &BT601), 3);
            assert_eq!(of(format, 1, 8, 0, &BT601), 3);
            assert_eq!(of(format, 1, 16384, 2 * 16384, &BT601), 0);
            assert_eq!(of(format, 1, 16386, 2 * 16386, &BT601), 3);
            assert_eq!(of(format, 1, 4, 4 * 10922, &BT601), 0);
            assert_eq!(of(format, 1, 4, 4 * 10924, &BT601), 3);
            assert_eq!(of(format, 1, i64::MAX, i64::MAX as usize, &BT601), 3);
            assert_eq!(of(format, 1, 2, HALF, &BT601), 3);
        }
        // Odd rows stand in NV12 alone.
        assert_eq!([NV12, YV12].map(|one| of(one, 1, 8, 8, &BT601)), [0, 3]);
        // Outside the layout, though the bytes are there: a column, and a row.
        let mut region = flat(9, 2, 0, 0);
        region.source = side(0, 8, 16, 0, 0);
        assert_eq!(reply(1000, NV12, 1000, A8, &region, &BT601), 3);
        region.width = 8;
        assert_eq!(reply(1000, NV12, 1000, A8, &region, &BT601), 0);
        region.height = 3;
        assert_eq!(reply(1000, NV12, 1000, A8, &region, &BT601), 3);
    }

    #[test]
    fn empty_regions() {
        let wild = side(MOST, i64::MIN, usize::MAX, u32::MAX, u32::MAX);
        for [width, height, depth] in [[0, 5, 5], [5, 0, 5], [5, 5, 0], [0, u32::MAX, u32::MAX]] {
            let region = Region {
                source: wild,
                destination: wild,
                depth: depth as usize,
                width,
                height,
            };
            let mut dst = [1, 2, 3];
            assert_eq!(convert(&mut dst, A8, &[], A8, &region, &BT601), 0);
            assert_eq!(convert(&mut dst, A8, &[], YUY2, &region, &BT601), 0);
            assert_eq!(convert(&mut dst, A8, &[], NV12, &region, &BT601), 2);
            assert_eq!(convert(&mut dst, V8U8, &[], A8, &region, &BT601), 1);
            let set = Set {
                chroma_centre: 254,
                ..BT601
            };
            assert_eq!(convert(&mut dst, A8, &[], YUY2, &region, &set), 15);
            assert_eq!(convert(&mut dst, A8, &[], A8, &region, &set), 0);
            assert_eq!(dst, [1, 2, 3]);
        }
        let mut region = flat(0, 1, 2, 0);
        assert_eq!(reply(0, YV12, 0, A8, &region, &BT601), 0);
        region.source.pitch = -2;
        assert_eq!(reply(0, YV12, 0, A8, &region, &BT601), 2);
    }

    #[test]
    fn the_first_of_two_refusals() {
        let illegal = Set {
            luma_gain: 262_144,
            ..BT601
        };
        // Both sides, the source's alone, the destination's alone.
        let region = flat(2, 2, -2, -2);
        assert_eq!(reply(9, A8, 9, A8, &region, &BT601), 3);
        let region = flat(2, 2, -2, 2);
        assert_eq!(reply(9, A8, 9, A8, &region, &BT601), 3);
        let region = flat(2, 2, 2, -2);
        assert_eq!(reply(9, A8, 9, A8, &region, &BT601), 4);
        // The destination's first texel is outside, and the source's last one.
        let mut region = flat(2, 2, 2, 2);
        region.destination.start = 100;
        assert_eq!(reply(3, A8, 4, A8, &region, &BT601), 3);
        assert_eq!(reply(4, A8, 4, A8, &region, &BT601), 4);
        // 1 before 2 before 15 before 3.
        let mut region = flat(2, 2, -2, -2);
        region.depth = 2;
        assert_eq!(reply(0, NV12, 0, V8U8, &region, &illegal), 1);
        assert_eq!(reply(0, NV12, 0, A8, &region, &illegal), 2);
        region = flat(2, 2, 2, -2);
        assert_eq!(reply(0, NV12, 0, A8, &region, &illegal), 15);
        assert_eq!(reply(0, NV12, 0, A8, &region, &BT709), 3);
        assert_eq!(reply(0, UYVY, 0, A8, &region, &illegal), 15);
    }

    #[test]
    fn coordinates_above_32_bits() {
        let at = |x, y, width, height| reply_a8(side(0, 0, 0, x, y), 1, width, height, HALF);
        let most = u32::MAX;
        assert_eq!(at(most, most, 1, 1), 0);
        assert_eq!(at(most, 0, 2, 1), 3);
        assert_eq!(at(0, most, 1, 2), 3);
        assert_eq!(at(most - 1, most - 1, 2, 2), 0);
        assert_eq!(at(1, 1, most, most), 0);
        assert_eq!(at(2, 1, most, most), 3);
        assert_eq!(at(1, 2, most, most), 3);
        // The destination too; a slice has no bound of its own.
        let mut region = flat(1, 2, 0, 0);
        region.destination.y = most;
        assert_eq!(reply(1, A8, 1, A8, &region, &BT601), 4);
        region.height = 1;
        region.depth = usize::MAX;
        assert_eq!(reply(1, A8, 1, A8, &region, &BT601), 0);
    }

    #[test]
    fn legal_sets() {
        let zero = Set {
            luma_gain: 0,
            luma_offset: 0,
            v_to_red: 0,
            u_to_green: 0,
            v_to_green: 0,
            u_to_blue: 0,
            chroma_centre: 256,
        };
        assert!(zero.is_legal() && BT601.is_legal() && BT709.is_legal());
        type Number = fn(&mut Set) -> &mut u32;
        let gains: [Number; 5] = [
            |set| &mut set.luma_gain,
            |set| &mut set.v_to_red,
            |set| &mut set.u_to_green,
            |set| &mut set.v_to_green,
            |set| &mut set.u_to_blue,
        ];
        let changed = |number: Number, to| {
            let mut set = zero;
            *number(&mut set) = to;
            set.is_legal()
        };
        for gain in gains {
            assert!(changed(gain, 262_143) && !changed(gain, 262_144));
        }
        let offset: Number = |set| &mut set.luma_offset;
        assert!(changed(offset, 4_194_303) && !changed(offset, 4_194_304));
        let centre: Number = |set| &mut set.chroma_centre;
        let centres: Vec<_> = (0..600).filter(|&to| changed(centre, to)).collect();
        assert_eq!(centres, [255, 256]);
    }

    #[test]
    fn ends_reply_as_each_texel_does() {
        let mut random = Random(2);
        let pairs = pairs();
        let mut replies = [0; 16];
        for case in 0..60_000 {
            let (from, to) = random.pick(&pairs);
            let [width, height] = [0; 2].map(|_| 1 + random.below(6) as u32);
            let depth = 1 + random.below(3) as usize * usize::from(from.holds != Holds::Planes);
            let mut any_side = |planar: bool| {
                let pitch = random.below(12) as i64 * 2 - if planar { 0 } else { 11 };
                let rows = random.below(8);
                Side {
                    start: random.below(60) * random.below(2),
                    pitch,
                    slice_pitch: if planar { pitch as u64 * rows } else { rows } as usize,
                    x: random.below(4) as u32,
                    y: random.below(3) as u32,
                }
            };
            let mut region = Region {
                source: any_side(from.holds == Holds::Planes),
                destination: any_side(false),
                depth,
                width,
                height,
            };
            // Once in four times the least texel is moved near byte 0 by going around 2^64.
            if random.below(4) == 0 && from.holds != Holds::Planes {
                region.source.start = MOST - random.below(3);
                region.source.pitch = i64::MIN + random.below(3) as i64;
                region.source.y = 2;
                region.height = 1;
            }
            let lengths = [0; 2].map(|_| random.below(300) as usize);
            let formats = [from.code, to.code];
            let [each, ends] = [Tried::Each, Tried::Ends]
                .map(|tried| reply_by(tried, formats, lengths, &region, &BT601));
            assert_eq!(each, ends, "case {case}: {region:?}");
            replies[each as usize] += 1;
        }
        for code in [0, 2, 3, 4] {
            assert!(replies[code] > 500, "{replies:?}");
        }
    }

    #[test]
    fn replies_are_those_of_places_in_128_bits() {
        // RGB pictures, whose every byte is worked out in i128, by another way of counting.
        let mut random = Random(3);
        let rgb: Vec<_> = FORMATS
            .iter()
            .filter(|format| format.converts == Converts::TheTwelveAsOne)
            .collect();
        let mut replies = [0; 5];
        for _ in 0..40_000 {
            let pair = [0; 2].map(|_| random.pick(&rgb));
            let sides = [0; 2].map(|_| Side {
                start: random.pick(&[0, 1, 40, MOST, MOST - 40, 1 << 63, (1 << 63) + 40]),
                pitch: random.pick(&[0, 1, -1, 8, -8, i64::MIN, i64::MAX, i64::MIN + 1]),
                slice_pitch: random.pick(&[0, 8, HALF, HALF - 8, usize::MAX]),
                x: random.pick(&[0, 1, 2, 1 << 31, u32::MAX]),
                y: random.pick(&[0, 1, 2, 3, u32::MAX]),
            });
            let lengths = [0; 2].map(|_| random.pick(&[0, 1, 8, 50, 200, HALF, usize::MAX]));
            let [width, height, depth] = [0; 3].map(|_| 1 + random.below(3) as u32);
            let outside = |which: usize| {
                let (place, length) = (sides[which], lengths[which] as i128);
                let (bytes, _) = pair[which].lanes();
                (0..width * height * depth).any(|texel| {
                    let column = i128::from(place.x) + i128::from(texel % width);
                    let row = i128::from(place.y) + i128::from(texel / width % height);
                    let slice = i128::from(texel / width / height);
                    let first = i128::from(place.start)
                        + slice * place.slice_pitch as i128
                        + row * i128::from(place.pitch)
                        + column * i128::from(bytes);
                    let limit = 1 << 32;
                    column >= limit
                        || row >= limit
                        || first < 0
                        || first + i128::from(bytes) > length
                })
            };
            let expected = match [0, 1].map(outside) {
                [true, _] => 3,
                [_, true] => 4,
                _ => 0,
            };
            let region = Region {
                source: sides[0],
                destination: sides[1],
                depth: depth as usize,
                width,
                height,
            };
            let formats = pair.map(|format| format.code);
            let found = reply(
                lengths[0], formats[0], lengths[1], formats[1], &region, &BT601,
            );
            assert_eq!(found, expected, "{formats:?} {lengths:?} {region:?}");
            replies[found as usize] += 1;
        }
        for code in [0, 3, 4] {
            assert!(replies[code] > 200, "{replies:?}");
        }
    }

    #[test]
    fn a_picture_bottom_row_first_is_the_flipped_one() {
        let mut random = Random(4);
        for (from, to) in pairs() {
            if from.holds == Holds::Planes {
                continue;
            }
            let (width, height) = (5, 4_usize);
            let (src_pitch, dst_pitch) = (90, 25);
            let src = random.bytes(height * src_pitch);
            let old = random.bytes(height * dst_pitch);
            let flipped = |bytes: &[u8], pitch: usize| -> Vec<u8> {
                bytes.chunks(pitch).rev().flatten().copied().collect()
            };
            let upright = flat(width, height as u32, src_pitch as i64, dst_pitch as i64);
            let last = |pitch: usize| Side {
                start: ((height - 1) * pitch) as u64,
                pitch: -(pitch as i64),
                ..upright.source
            };
            let mut expected = old.clone();
            let (to, from) = (to.code, from.code);
            assert_eq!(convert(&mut expected, to, &src, from, &upright, &BT601), 0);
            // The source bottom row first.
            let mut dst = old.clone();
            let region = Region {
                source: last(src_pitch),
                ..upright
            };
            let turned = flipped(&src, src_pitch);
            assert_eq!(convert(&mut dst, to, &turned, from, &region, &BT601), 0);
            assert_eq!(dst, expected);
            // The destination bottom row first.
            let mut dst = flipped(&old, dst_pitch);
            let region = Region {
                destination: last(dst_pitch),
                ..upright
            };
            assert_eq!(convert(&mut dst, to, &src, from, &region, &BT601), 0);
            assert_eq!(flipped(&dst, dst_pitch), expected);
            // Both from byte 3 on.
            let mut dst = [&[1, 2, 3][..], &old].concat();
            let mut region = upright;
            region.source.start = 3;
            region.destination.start = 3;
            let moved = [&[9, 9, 9][..], &src].concat();
            assert_eq!(convert(&mut dst, to, &moved, from, &region, &BT601), 0);
            assert_eq!(dst, [&[1, 2, 3][..], &expected].concat());
        }
    }

    #[test]
    fn overlapping_texels_end_with_the_last() {
        // Texels of two bytes, luminance 0 and alpha above it, each row one byte below the one
        // before: the later row's alpha stands where the earlier row's luminance was.
        let src = [10, 20, 30, 40];
        let mut region = flat(1, 4, 1, -1);
        region.destination.start = 4;
        let mut dst = [9; 7];
        assert_eq!(convert(&mut dst, A8L8, &src, A8, &region, &BT601), 0);
        assert_eq!(dst, [9, 0, 40, 30, 20, 10, 9]);
        // Rows in one place.
        let mut region = flat(2, 2, 2, 0);
        let mut dst = [0; 2];
        assert_eq!(convert(&mut dst, A8, &src, A8, &region, &BT601), 0);
        assert_eq!(dst, [30, 40]);
        // Slices in one place, and rows that are read bottom first.
        region = flat(2, 1, -2, 2);
        region.depth = 2;
        region.source = side(2, -2, 2, 0, 1);
        let mut dst = [0; 2];
        assert_eq!(convert(&mut dst, A8, &src, A8, &region, &BT601), 0);
        assert_eq!(dst, [30, 40]);
    }

    #[test]
    fn expanding_and_truncating() {
        for bits in [1, 2, 4, 5, 6, 8] {
            let codes = 1 << bits;
            for code in 0..codes {
                let byte = expand(code, bits);
                // The bits repeated without end are code / (codes - 1); of these the top eight.
                assert_eq!(byte, (256 * code / (codes - 1)).min(255));
                assert_eq!(truncate(byte, bits), code);
            }
            for byte in 0..256 {
                assert_eq!(truncate(byte, bits), codes * byte / 256);
            }
        }
        // Codes 3, 11 and 3, which are nearer to 25, 45 and 25.
        assert_eq!(texel(R5G6B5, &[0x63, 0x19], 21), [24, 44, 24, 255]);
        let codes = |byte: u8| texel(A8, &[byte], 25)[1] >> 7;
        assert_eq!([0, 127, 128, 255].map(codes), [0, 0, 1, 1]);
        assert_eq!(texel(A8, &[5], 22), [0, 0, 0, 255]);
        assert_eq!(texel(22, &[1, 2, 3, 4], 21), [1, 2, 3, 255]);
        assert_eq!(texel(V8U8, &[0x7f, 0x80], 21), [255, 0, 255, 255]);
        assert_eq!(texel(34, &[0, 0, 255, 255], 21), [255, 255, 0, 255]);
        assert_eq!(texel(81, &[0x7f, 0x7f], 21), [127, 127, 127, 255]);
    }

    #[test]
    fn binary32_channels() {
        let channel = |number: f32| binary32_channel(number.to_bits().into());
        let wild = [f32::NAN, -f32::NAN, f32::NEG_INFINITY, -1.0, -0.0, 0.0];
        assert_eq!(wild.map(channel), [0; 6]);
        assert_eq!([1.0, 1.5, f32::MAX, f32::INFINITY].map(channel), [255; 4]);
        let tiny = [f32::MIN_POSITIVE, f32::from_bits(1), 0.001];
        assert_eq!(tiny.map(channel), [0; 3]);
        let mut random = Random(5);
        for case in 0..200_000_u32 {
            // Around each tie, then anywhere below 1.
            let number = if case < 2550 {
                let tie = (f64::from(case / 10) + 0.5) / 255.0;
                f32::from_bits((tie as f32).to_bits() + case % 10 - 5)
            } else {
                f32::from_bits(random.below(0x3f80_0000) as u32)
            };
            // A product of 24 and 8 bits, and the sum with a half, are exact in binary64 where
            // the number is not too small to matter.
            let exact = (f64::from(number) * 255.0 + 0.5).floor();
            assert_eq!(channel(number), exact as u128, "{number}");
        }
    }

    /// What a channel of a source stands for, as a fraction in 255ths, if the source has it.
    fn meant(format: &Format, word: u128, channel: char) -> Option<(u128, u128)> {
        let (code, bits) = format.code_in(word, channel)?;
        Some(match format.holds {
            Holds::Signed(..) if code > 127 => (0, 1),
            Holds::Signed(..) => (255 * code, 127),
            Holds::Binary32(..) => {
                let number = f32::from_bits(code as u32);
                // In 2^-60ths, below which nothing is lost that a bound could tell.
                let parts = f64::from(number.clamp(0.0, 1.0)) * (1_u64 << 60) as f64;
                (255 * parts as u128, 1 << 60)
            }
            _ => (255 * code, (1 << bits) - 1),
        })
    }

    #[test]
    fn steps_hold_for_every_pair_of_lanes() {
        let mut random = Random(6);
        for (from, to) in pairs() {
            let (bytes, lanes) = from.lanes();
            if lanes.is_empty() {
                continue;
            }
            for _ in 0..300 {
                let mut src = random.bytes(bytes as usize);
                if matches!(from.holds, Holds::Binary32(..)) {
                    src = (0..4)
                        .flat_map(|_| (random.below(1 << 24) as f32 / 8e6 - 0.5).to_le_bytes())
                        .collect();
                }
                let dst = texel(from.code, &src, to.code);
                let (read, written) = (word(&src), word(&dst));
                let missing = if from.code == A8 { (0, 1) } else { (255, 1) };
                let grey = meant(from, read, 'L').unwrap_or(missing);
                let exact = |channel| meant(from, read, channel).unwrap_or(grey);
                for &(channel, ..) in to.lanes().1 {
                    let (code, bits) = to.code_in(written, channel).unwrap();
                    let ((numerator, denominator), step) = match channel {
                        'X' => {
                            assert_eq!(code, (1 << bits) - 1);
                            continue;
                        }
                        'L' => {
                            let parts = ['R', 'G', 'B'].map(exact);
                            let common: u128 = parts.iter().map(|(_, below)| below).product();
                            let sum: u128 = parts
                                .iter()
                                .zip([2125, 7154, 721])
                                .map(|(&(above, below), weight)| weight * above * (common / below))
                                .sum();
                            ((sum, 10000 * common), 2)
                        }
                        'A' => {
                            let alpha = meant(from, read, 'A').unwrap_or((255, 1));
                            (alpha, 4 * ((1 << (8 - bits)) - 1))
                        }
                        _ => (exact(channel), 4 * ((1 << (8 - bits)) - 1)),
                    };
                    // |255 code / (2^bits - 1) - exact| ≤ step / 4 + 3 / 4, both sides multiplied.
                    let most = (1 << bits) - 1;
                    let apart = (255 * code * denominator).abs_diff(numerator * most);
                    assert!(
                        4 * apart <= (step + 3) * most * denominator,
                        "{} to {}, {channel}: {src:x?} {dst:x?}",
                        from.name,
                        to.name
                    );
                }
            }
        }
    }

    #[test]
    fn samples_are_calculated_by_shifts() {
        let mut random = Random(8);
        for case in 0..200_000 {
            let set = [BT601, BT709][case % 2];
            let sample = random.next().to_le_bytes();
            let [y, u, v] = [sample[0], sample[1], sample[2]];
            let [luma, cb, cr] = [y, u, v].map(i64::from);
            let number = i64::from;
            let centre = number(set.chroma_centre);
            let luma = (((luma << 16) - number(set.luma_offset)) * number(set.luma_gain)) >> 16;
            let (cb, cr) = ((2 * cb - centre) << 15, (2 * cr - centre) << 15);
            let red = luma + ((cr * number(set.v_to_red)) >> 16);
            let from_u = (cb * number(set.u_to_green)) >> 16;
            let green = luma - from_u - ((cr * number(set.v_to_green)) >> 16);
            let blue = luma + ((cb * number(set.u_to_blue)) >> 16);
            let rounded = [red, green, blue].map(|channel| (channel + 32768) >> 16);
            let bytes = rounded.map(|channel| channel.clamp(0, 255) as u128);
            assert_eq!(sample_colour([y, u, v], &set), bytes, "{y} {u} {v}");
        }
        // Samples of which the rules of this library give a byte.
        let green = |set: &Set, v| sample_colour([0, 0, v], set)[1];
        assert_eq!([0, 3, 62].map(|v| green(&BT601, v)), [135, 132, 85]);
        assert_eq!(green(&BT709, 57), 46);
        assert_eq!(sample_colour([16, 128, 128], &BT709), [0, 0, 0]);
        // U and V where each format has them; the other texel of the macropixel is 9.
        let [red, green, blue] = sample_colour([60, 200, 100], &BT601).map(|byte| byte as u8);
        let macropixels = [(YUY2, [60, 200, 9, 100]), (UYVY, [200, 60, 100, 9])];
        for (format, bytes) in macropixels {
            assert_eq!(texel(format, &bytes, R8G8B8), [blue, green, red]);
        }
    }

    #[test]
    fn colours_of_samples_are_near() {
        let mut random = Random(7);
        let mut any_set = |bt601: bool| {
            if bt601 {
                return BT601;
            }
            let mut gain = || random.pick(&[0, 1, 65536, 262_143, 99_999, 7]);
            Set {
                luma_gain: gain(),
                v_to_red: gain(),
                u_to_green: gain(),
                v_to_green: gain(),
                u_to_blue: gain(),
                luma_offset: gain() * 16,
                chroma_centre: 255 + gain() % 2,
            }
        };
        let sets: Vec<_> = (0..40).map(|place| any_set(place == 0)).collect();
        for case in 0..200_000_usize {
            let set = &sets[case % sets.len()];
            let sample = [0; 3].map(|_| random.pick(&[0, 255, random.0 as u8, 128]));
            let _ = random.next();
            let [y, u, v] = sample.map(i128::from);
            let own = |number: u32| i128::from(number);
            let centre = own(set.chroma_centre);
            // In 2^33rds: gains and luma by 65536, chroma by 2 more.
            let luma = 2 * own(set.luma_gain) * (65536 * y - own(set.luma_offset));
            let add = |gain: u32, chroma: i128| own(gain) * (2 * chroma - centre) * 65536;
            let exact = [
                luma + add(set.v_to_red, v),
                luma - add(set.u_to_green, u) - add(set.v_to_green, v),
                luma + add(set.u_to_blue, u),
            ];
            for (byte, exact) in sample_colour(sample, set).into_iter().zip(exact) {
                let one = 1 << 33;
                let apart = ((byte as i128) * one - exact.clamp(0, 255 * one)).abs();
                assert!(apart <= one / 2 + one / 16384, "{set:?} {sample:?}");
            }
        }
        // The decimals of BT.601, in 2000ths and by halves: 1/2 + 1/500.
        for case in (0..1_u32 << 24).step_by(97) {
            let [y, u, v, _] = case.to_le_bytes();
            let [luma, cb, cr] = [y, u, v].map(i128::from);
            // In 10^6ths.
            let luma = 1164 * (1000 * luma - 16065);
            let chroma = |weight: i128, number: i128| weight * (1000 * number - 127_500);
            let exact = [
                luma + chroma(1596, cr),
                luma - chroma(392, cb) - chroma(813, cr),
                luma + chroma(2017, cb),
            ];
            for (byte, exact) in sample_colour([y, u, v], &BT601).into_iter().zip(exact) {
                let apart = (byte as i128 * 1_000_000 - exact.clamp(0, 255_000_000)).abs();
                assert!(apart <= 502_000, "{y} {u} {v}");
            }
        }
    }
}
