//! The rules of every call (docs/RULES.md) as a program: the reply to it, 0 where it accepts, else
//! the number of the refusal; which formats convert, and which pairs the original refuses that the
//! port converts; where the bytes of a YUV texel lie; the named sets; and the interval in which
//! binary16 departs from the original. Written from the rules alone, to judge the port by: neither
//! the original's code nor the port's stands behind it, but for the formats that the original
//! converts, whose lists are the original's, and the structs that cross. Numbers have 128 bits. Places
//! have a sign; a product or sum that would not fit stays at the greatest number, which lies past
//! every buffer even less what the rows go back, 2^96 at most.
#![allow(dead_code)]

use crate::common::{FlatRegion, Planes, Region, Side, YuvSet};

/// Whether the bits are a binary32 number whose magnitude lies above 2^-25 and below 2^-24: there
/// binary16 is the nearest number, and zero in the original.
pub fn is_faint(bits: u32) -> bool {
    let magnitude = f32::from_bits(bits).abs();
    2.0_f32.powi(-25) < magnitude && magnitude < 2.0_f32.powi(-24)
}

/// What a texel of a format needs of the source.
#[derive(Clone, Copy, Debug, PartialEq, Eq)]
pub enum Kind {
    /// Its own bytes; source and destination.
    Rgb,
    /// Its own bytes; converts to A8R8G8B8 alone.
    Wide,
    /// The same; the original has no such source.
    Still,
    /// The macropixel of 4 bytes that starts at its even column.
    PackedYuv,
    /// A luma byte and two chroma bytes of a planar layout.
    PlanarYuv,
}

/// A format that converts. `bytes` is what a texel adds to its row, the luma row if it is planar.
#[derive(Clone, Copy, Debug)]
pub struct Format {
    pub name: &'static str,
    pub code: u32,
    pub kind: Kind,
    pub bytes: usize,
}

const fn format(name: &'static str, code: u32, kind: Kind, bytes: usize) -> Format {
    Format {
        name,
        code,
        kind,
        bytes,
    }
}

/// The four letters of a code, the first lowest.
const fn letters(code: &[u8; 4]) -> u32 {
    u32::from_le_bytes(*code)
}

pub const A8R8G8B8: u32 = 21;
pub const NV12: u32 = letters(b"NV12");
pub const YV12: u32 = letters(b"YV12");
pub const D24S8: u32 = 75;
pub const D24X8: u32 = 77;
pub const D16: u32 = 80;

/// Every source; those of kind Rgb are the destinations.
pub const FORMATS: [Format; 24] = [
    format("R8G8B8", 20, Kind::Rgb, 3),
    format("A8R8G8B8", A8R8G8B8, Kind::Rgb, 4),
    format("X8R8G8B8", 22, Kind::Rgb, 4),
    format("R5G6B5", 23, Kind::Rgb, 2),
    format("X1R5G5B5", 24, Kind::Rgb, 2),
    format("A1R5G5B5", 25, Kind::Rgb, 2),
    format("A4R4G4B4", 26, Kind::Rgb, 2),
    format("A8", 28, Kind::Rgb, 1),
    format("A8B8G8R8", 32, Kind::Rgb, 4),
    format("X8B8G8R8", 33, Kind::Rgb, 4),
    format("L8", 50, Kind::Rgb, 1),
    format("A8L8", 51, Kind::Rgb, 2),
    format("A16B16G16R16", 36, Kind::Wide, 8),
    format("A32B32G32R32F", 116, Kind::Wide, 16),
    format("YUY2", letters(b"YUY2"), Kind::PackedYuv, 2),
    format("UYVY", letters(b"UYVY"), Kind::PackedYuv, 2),
    format("YV12", YV12, Kind::PlanarYuv, 1),
    format("NV12", NV12, Kind::PlanarYuv, 1),
    format("A2R10G10B10", 35, Kind::Still, 4),
    format("A2B10G10R10", 31, Kind::Still, 4),
    format("G16R16", 34, Kind::Still, 4),
    format("L16", 81, Kind::Still, 2),
    format("V8U8", 60, Kind::Still, 2),
    format("Q8W8V8U8", 63, Kind::Still, 4),
];

/// The codes that fill: all of docs/RULES.md, Formats and lanes, but R8G8B8, A8L8, L16, depth and YUV.
const FILLS: [u32; 24] = [
    21, 22, 23, 24, 25, 26, 28, 31, 32, 33, 34, 35, 36, 50, 60, 63, 64, 110, 111, 112, 113, 114,
    115, 116,
];

/// The greatest edge of a texture, in texels.
const MAX_TEXTURE_DIM: u128 = 16384;

pub fn find(code: u32) -> Option<&'static Format> {
    FORMATS.iter().find(|format| format.code == code)
}

/// The format of a name that is in the list.
pub fn named(name: &str) -> &'static Format {
    let format = FORMATS.iter().find(|format| format.name == name);
    format.expect("a format that converts")
}

fn kind(code: u32) -> Option<Kind> {
    find(code).map(|format| format.kind)
}

pub fn can_convert_update(src_format: u32, dst_format: u32) -> bool {
    matches!(kind(src_format), Some(Kind::Rgb | Kind::PackedYuv))
        && kind(dst_format) == Some(Kind::Rgb)
}

pub fn can_convert(src_format: u32, dst_format: u32) -> bool {
    let stretches = match kind(src_format) {
        Some(Kind::Wide | Kind::Still) => dst_format == A8R8G8B8,
        Some(Kind::PlanarYuv) => kind(dst_format) == Some(Kind::Rgb),
        _ => false,
    };
    stretches || can_convert_update(src_format, dst_format)
}

/// Whether the pair converts though the original refuses it.
pub fn original_refuses(src_format: u32, dst_format: u32) -> bool {
    kind(src_format) == Some(Kind::Still) && can_convert(src_format, dst_format)
}

/// Whether a source of this code is planar.
pub fn is_planar(code: u32) -> bool {
    kind(code) == Some(Kind::PlanarYuv)
}

/// Whether a source of this code goes by a set of YUV numbers.
pub fn is_yuv(code: u32) -> bool {
    matches!(kind(code), Some(Kind::PackedYuv | Kind::PlanarYuv))
}

/// The numbers of a set, in the order of the call that takes one: luma gain, luma offset, V to red,
/// U to green, V to green, U to blue, chroma centre.
pub fn numbers(set: &YuvSet) -> [u32; 7] {
    [
        set.luma_gain,
        set.luma_offset,
        set.v_to_red,
        set.u_to_green,
        set.v_to_green,
        set.u_to_blue,
        set.chroma_centre,
    ]
}

/// The set of these numbers, in the same order.
pub const fn set(numbers: [u32; 7]) -> YuvSet {
    let [
        luma_gain,
        luma_offset,
        v_to_red,
        u_to_green,
        v_to_green,
        u_to_blue,
        chroma_centre,
    ] = numbers;
    YuvSet {
        luma_gain,
        luma_offset,
        v_to_red,
        u_to_green,
        v_to_green,
        u_to_blue,
        chroma_centre,
    }
}

/// The least and the greatest gain, in 65536ths.
const GAINS: [u32; 2] = [0, 262_143];

/// The same of a luma offset, in 65536ths.
const OFFSETS: [u32; 2] = [0, 4_194_303];

/// The same of a chroma centre, in halves.
const CENTRES: [u32; 2] = [255, 256];

/// The least and the greatest legal number in each place of a set.
pub const LEGAL: [[u32; 2]; 7] = [GAINS, OFFSETS, GAINS, GAINS, GAINS, GAINS, CENTRES];

pub fn is_legal(set: &YuvSet) -> bool {
    let mut both = numbers(set).into_iter().zip(LEGAL);
    both.all(|(number, [least, most])| (least..=most).contains(&number))
}

/// The set that the original has always used, and so the one of a call that takes none.
pub const BT601: YuvSet = set([76_284, 1_052_836, 104_595, 25_690, 53_281, 132_186, 255]);

/// BT.709 by its decimals (docs/RULES.md, Sets of numbers).
pub const BT709: YuvSet = set([
    nearest16_16(1164),
    nearest16_16(16_000),
    nearest16_16(1793),
    nearest16_16(213),
    nearest16_16(533),
    nearest16_16(2112),
    256,
]);

/// The number of 65536ths nearest to so many thousandths: no tie, since 500 is no multiple of 8.
const fn nearest16_16(thousandths: u32) -> u32 {
    (thousandths * 65536 + 500) / 1000
}

/// A side of a region, whose pitch may be any number of 64 bits, with a sign or without.
#[derive(Clone, Copy, Debug)]
pub struct AnySide {
    pub start: u64,
    pub pitch: i128,
    pub slice_pitch: usize,
    pub x: u32,
    pub y: u32,
}

impl From<&Side> for AnySide {
    fn from(side: &Side) -> Self {
        Self {
            start: side.start,
            pitch: side.pitch.into(),
            slice_pitch: side.slice_pitch,
            x: side.x,
            y: side.y,
        }
    }
}

/// A region of such sides, made of one that crosses, or of a flat one as it was given.
#[derive(Clone, Copy, Debug)]
pub struct AnyRegion {
    pub source: AnySide,
    pub destination: AnySide,
    pub depth: usize,
    pub width: u32,
    pub height: u32,
}

impl From<&Region> for AnyRegion {
    fn from(region: &Region) -> Self {
        Self {
            source: (&region.source).into(),
            destination: (&region.destination).into(),
            depth: region.depth,
            width: region.width,
            height: region.height,
        }
    }
}

impl From<&FlatRegion> for AnyRegion {
    fn from(flat: &FlatRegion) -> Self {
        let side = |pitch: usize, slice_pitch, x, y| AnySide {
            start: 0,
            pitch: pitch as i128,
            slice_pitch,
            x,
            y,
        };
        Self {
            source: side(flat.src_pitch, flat.src_slice_pitch, flat.src_x, flat.src_y),
            destination: side(flat.dst_pitch, flat.dst_slice_pitch, flat.dst_x, flat.dst_y),
            depth: flat.depth,
            width: flat.width,
            height: flat.height,
        }
    }
}

/// A texel of a region, counted from the region's first one.
#[derive(Clone, Copy)]
pub struct Texel {
    pub slice: u128,
    pub row: u128,
    pub column: u128,
}

/// Up to this many texels a region is decided texel by texel.
const FEW: u128 = 4096;

impl AnyRegion {
    fn sizes(&self) -> [u128; 3] {
        [self.depth as u128, self.height.into(), self.width.into()]
    }

    /// Whether the region has no texel.
    pub fn is_empty(&self) -> bool {
        self.sizes().contains(&0)
    }

    /// Every texel, by slice, row, column.
    pub fn texels(&self) -> impl Iterator<Item = Texel> + use<> {
        every(self.sizes(), [1; 3])
    }

    /// The texels of a region of few, by slice, row, column; of a larger one those at its corners.
    ///
    /// These suffice. All that decides about a texel moves one way, or stays, from one slice to the
    /// next, and so from row to row and from column to column, wherever the other two are: its
    /// coordinates, the places of its bytes in either buffer (halving rounds down), and how far right
    /// and down it lies in a planar layout. So the least and the greatest of each are at corners.
    fn deciding(&self) -> impl Iterator<Item = Texel> + use<> {
        let sizes = self.sizes();
        let few = sizes.into_iter().fold(1, u128::saturating_mul) <= FEW;
        let step = |size: u128| {
            if few {
                1
            } else {
                size.saturating_sub(1).max(1) as usize
            }
        };
        every(sizes, sizes.map(step))
    }
}

/// The texels at these steps of slices, rows and columns, by slice, row, column.
fn every(sizes: [u128; 3], [slices, rows, columns]: [usize; 3]) -> impl Iterator<Item = Texel> {
    let is_empty = sizes.contains(&0);
    let [depth, height, width] = if is_empty { [0; 3] } else { sizes };
    (0..depth).step_by(slices).flat_map(move |slice| {
        (0..height).step_by(rows).flat_map(move |row| {
            let columns = (0..width).step_by(columns);
            columns.map(move |column| Texel { slice, row, column })
        })
    })
}

/// The bytes that a texel needs: the first of them, and one past the last.
#[derive(Clone, Copy)]
struct Bytes {
    first: i128,
    end: i128,
}

impl Bytes {
    /// So many bytes from a place on.
    const fn from(first: i128, count: usize) -> Self {
        Self {
            first,
            end: first.saturating_add(count as i128),
        }
    }

    /// These bytes, the others, and all between.
    fn with(self, other: Self) -> Self {
        Self {
            first: self.first.min(other.first),
            end: self.end.max(other.end),
        }
    }
}

impl AnySide {
    /// A texel's column and row in the picture; none above 4294967295.
    fn coordinates(&self, texel: Texel) -> Option<(u128, u128)> {
        let (x, y) = (
            u128::from(self.x) + texel.column,
            u128::from(self.y) + texel.row,
        );
        (x.max(y) <= u32::MAX.into()).then_some((x, y))
    }

    /// The place of a byte that so many bytes of its row come before, in row `y` of a slice.
    fn place(&self, slice: u128, y: u128, in_row: u128) -> i128 {
        let slices = slice.checked_mul(self.slice_pitch as u128);
        let slices = slices.and_then(|it| i128::try_from(it).ok());
        slices
            .unwrap_or(i128::MAX)
            .saturating_add(i128::from(self.start) + in_row as i128)
            .saturating_add(y as i128 * self.pitch)
    }

    /// Where a texel of so many bytes starts that lies inside its buffer.
    pub fn texel(&self, texel: Texel, bytes: usize) -> usize {
        let (x, y) = self.coordinates(texel).expect("a texel inside");
        let place = self.place(texel.slice, y, x * bytes as u128);
        usize::try_from(place).expect("a texel inside")
    }

    /// The bytes that a texel of the destination needs, or one of a source with lanes.
    fn bytes(&self, format: &Format, texel: Texel) -> Option<Bytes> {
        let (x, y) = self.coordinates(texel)?;
        let first = self.place(texel.slice, y, x * format.bytes as u128);
        Some(Bytes::from(first, format.bytes))
    }

    /// The bytes that a texel needs of the source; none where it has no such bytes.
    fn source_bytes(&self, format: &Format, texel: Texel) -> Option<Bytes> {
        match format.kind {
            Kind::Rgb | Kind::Wide | Kind::Still => self.bytes(format, texel),
            Kind::PackedYuv => {
                let (x, y) = self.coordinates(texel)?;
                Some(Bytes::from(self.place(texel.slice, y, x / 2 * 4), 4))
            }
            Kind::PlanarYuv => {
                let places = self.sample(format, texel)?;
                let (first, last) = (places.into_iter().min()?, places.into_iter().max()?);
                let end = last + 1;
                Some(Bytes { first, end })
            }
        }
    }

    /// Where the luma, the U and the V of a YUV texel lie in the source.
    pub fn sample(&self, format: &Format, texel: Texel) -> Option<[i128; 3]> {
        let (x, y) = self.coordinates(texel)?;
        let second = 2 * (x % 2) as i128;
        let in_macropixel = match format.name {
            "YUY2" => [second, 1, 3],
            "UYVY" => [1 + second, 0, 2],
            _ => return self.planar_sample(format.code, x, y),
        };
        let start = self.place(texel.slice, y, x / 2 * 4);
        Some(in_macropixel.map(|it| start.saturating_add(it)))
    }

    /// The same in a planar layout, which counts from the start.
    fn planar_sample(&self, code: u32, x: u128, y: u128) -> Option<[i128; 3]> {
        let pitch = usize::try_from(self.pitch).ok()?;
        let luma_rows = self.slice_pitch.checked_div(pitch)?;
        let (0, [pitch, luma_rows, chroma_rows, _]) =
            planar_layout_from_pitch(code, pitch, luma_rows)
        else {
            return None;
        };
        let [pitch, luma_rows, chroma_rows] = [pitch, luma_rows, chroma_rows].map(u128::from);
        if x >= pitch || y >= luma_rows {
            return None;
        }
        let luma = y * pitch + x;
        let base = pitch * luma_rows;
        let (u, v) = if code == NV12 {
            let u = base + y / 2 * pitch + 2 * (x / 2);
            (u, u + 1)
        } else {
            let v = base + y / 2 * (pitch / 2) + x / 2;
            (v + chroma_rows * (pitch / 2), v)
        };
        Some([luma, u, v].map(|it| i128::from(self.start) + it as i128))
    }
}

fn outside(bytes: Option<Bytes>, length: usize) -> bool {
    bytes.is_none_or(|it| it.first < 0 || it.end > length as i128)
}

/// A conversion as far as its reply depends on it.
pub struct Conversion {
    pub dst_format: u32,
    pub dst_length: usize,
    pub src_format: u32,
    pub src_length: usize,
    pub region: AnyRegion,
    pub set: YuvSet,
}

impl Conversion {
    /// Refusals 1 to 4 and 15.
    pub fn reply(&self) -> u32 {
        let region = &self.region;
        let source = &region.source;
        if !can_convert(self.src_format, self.dst_format) {
            return 1;
        }
        if is_planar(self.src_format)
            && (region.depth != 1
                || source.pitch <= 0
                || source.slice_pitch as i128 % source.pitch != 0)
        {
            return 2;
        }
        if is_yuv(self.src_format) && !is_legal(&self.set) {
            return 15;
        }
        if region.is_empty() {
            return 0;
        }
        if region.deciding().any(|texel| self.source_outside(texel)) {
            return 3;
        }
        if region
            .deciding()
            .any(|texel| self.destination_outside(texel))
        {
            return 4;
        }
        0
    }

    fn source_outside(&self, texel: Texel) -> bool {
        let source = &self.region.source;
        let bytes = find(self.src_format).and_then(|it| source.source_bytes(it, texel));
        outside(bytes, self.src_length)
    }

    fn destination_outside(&self, texel: Texel) -> bool {
        let destination = &self.region.destination;
        let bytes = find(self.dst_format).and_then(|it| destination.bytes(it, texel));
        outside(bytes, self.dst_length)
    }

    /// The first byte that the region needs of source and of destination, and one past the last; none
    /// where a texel has no bytes.
    fn reach(&self) -> Option<[Bytes; 2]> {
        let (from, to) = (find(self.src_format)?, find(self.dst_format)?);
        let mut reach: Option<[Bytes; 2]> = None;
        for texel in self.region.deciding() {
            let source = self.region.source.source_bytes(from, texel)?;
            let destination = self.region.destination.bytes(to, texel)?;
            let both = [source, destination];
            reach = Some(reach.map_or(both, |reach| [0, 1].map(|it| reach[it].with(both[it]))));
        }
        reach
    }

    /// The first byte that the region needs of source and of destination.
    pub fn lowest(&self) -> Option<[i128; 2]> {
        Some(self.reach()?.map(|bytes| bytes.first))
    }

    /// The least lengths of source and destination with which the pair converts the region; none
    /// where no lengths would do.
    pub fn least_lengths(&self) -> Option<(u128, u128)> {
        if self.region.is_empty() {
            return Some((0, 0));
        }
        let [source, destination] = self.reach()?;
        let inside = source.first >= 0 && destination.first >= 0;
        inside.then_some((source.end as u128, destination.end as u128))
    }

    /// Whether 32-bit coordinates and 64-bit offsets hold those of every texel, for a pair that
    /// converts and sides that the original has. Planar offsets always fit: only texels inside the
    /// layout have them.
    pub fn sums_fit(&self) -> bool {
        let fits = |bytes: Bytes| bytes.end <= u64::MAX.into();
        let (Some(from), Some(to)) = (find(self.src_format), find(self.dst_format)) else {
            return false;
        };
        let AnyRegion {
            source,
            destination,
            ..
        } = &self.region;
        self.region.deciding().all(|texel| {
            let source = if from.kind == Kind::PlanarYuv {
                source.coordinates(texel).is_some()
            } else {
                source.source_bytes(from, texel).is_some_and(fits)
            };
            source && destination.bytes(to, texel).is_some_and(fits)
        })
    }

    /// Whether one of the first `count` texels, by slice, row and column, is outside.
    pub fn stops_among(&self, count: usize) -> bool {
        let mut first = self.region.texels().take(count);
        first.any(|texel| self.source_outside(texel) || self.destination_outside(texel))
    }
}

/// Refusal 5.
pub fn fill(format: u32) -> u32 {
    if FILLS.contains(&format) { 0 } else { 5 }
}

/// A reply, and the four numbers that are handed back with it.
pub type Layout = (u32, [u64; 4]);

const fn refused(number: u32) -> Layout {
    (number, [0; 4])
}

const fn raised(number: u128, multiple: u128) -> u128 {
    number.div_ceil(multiple) * multiple
}

/// Refusals 6 to 8; width, height, depth pitch, stencil pitch.
pub fn plane_layout(width: u32, height: u32, alignment: u32) -> Layout {
    let alignment = alignment.max(4);
    if width == 0 || height == 0 {
        return refused(6);
    }
    if alignment.count_ones() != 1 {
        return refused(7);
    }
    let pitch = |row: u128| raised(row, alignment.into());
    let (depth, stencil) = (pitch(4 * u128::from(width)), pitch(width.into()));
    if [depth, stencil]
        .into_iter()
        .any(|it| !plane_fits(it, height.into()))
    {
        return refused(8);
    }
    let numbers = [width.into(), height.into(), depth as u64, stencil as u64];
    (0, numbers)
}

const fn plane_fits(pitch: u128, height: u128) -> bool {
    pitch * height <= u64::MAX as u128
}

/// A depth transfer, either way, as far as its reply depends on it.
pub struct Transfer {
    pub format: u32,
    pub planes: Planes,
    pub packed_length: usize,
    pub packed_pitch: usize,
    pub depth_length: usize,
    pub stencil_length: usize,
}

/// Bytes a pixel of a packed depth format.
pub fn packed_bytes(format: u32) -> Option<usize> {
    match format {
        D16 => Some(2),
        D24X8 | D24S8 => Some(4),
        _ => None,
    }
}

impl Transfer {
    /// Refusals 9 to 13.
    pub fn reply(&self) -> u32 {
        let Some(bytes) = packed_bytes(self.format) else {
            return 9;
        };
        let Planes {
            width,
            height,
            depth_pitch,
            stencil_pitch,
        } = self.planes;
        let [width, height, depth_pitch, stencil_pitch] =
            [width, height, depth_pitch, stencil_pitch].map(|it| it as u128);
        if width == 0
            || height == 0
            || depth_pitch < 4 * width
            || stencil_pitch < width
            || !plane_fits(depth_pitch, height)
            || !plane_fits(stencil_pitch, height)
        {
            return 10;
        }
        let (row, pitch) = (width * bytes as u128, self.packed_pitch as u128);
        if pitch < row || (self.packed_length as u128) < (height - 1) * pitch + row {
            return 11;
        }
        if (self.depth_length as u128) < depth_pitch * height {
            return 12;
        }
        if self.format == D24S8 && (self.stencil_length as u128) < stencil_pitch * height {
            return 13;
        }
        0
    }
}

/// Refusal 14, from a width; pitch, luma rows, chroma rows, total bytes.
pub fn planar_layout(format: u32, width: u32, height: u32) -> Layout {
    if width == 0 || u128::from(width) > MAX_TEXTURE_DIM {
        return refused(14);
    }
    planar_layout_from_pitch(format, raised(width.into(), 4) as usize, height as usize)
}

/// Refusal 14, from a pitch; pitch, luma rows, chroma rows, total bytes.
pub fn planar_layout_from_pitch(format: u32, pitch: usize, luma_rows: usize) -> Layout {
    let (pitch, luma_rows) = (pitch as u128, luma_rows as u128);
    let chroma_rows = luma_rows.div_ceil(2);
    let edges = 1..=MAX_TEXTURE_DIM;
    let stands = matches!(format, YV12 | NV12)
        && edges.contains(&pitch)
        && edges.contains(&luma_rows)
        && pitch.is_multiple_of(2)
        && (format == NV12 || luma_rows.is_multiple_of(2))
        && luma_rows + chroma_rows <= MAX_TEXTURE_DIM;
    if !stands {
        return refused(14);
    }
    let total = pitch * (luma_rows + chroma_rows);
    (
        0,
        [pitch, luma_rows, chroma_rows, total].map(|it| it as u64),
    )
}
