//! Usage: bench [--markdown FILE] [WORD..]
//! Measures conversions and depth transfers of a 4096 x 2160 frame, conversions of as many texels
//! in rows of 16, splats of as many 4-byte texels, and as many numbers to binary16 and samples of
//! YUV, a call for each, in nanoseconds a texel, on one thread: every work, or those whose name has
//! one of the words. Among the conversions is every pair of RGB formats, a format to itself too,
//! and every pair of a YUV and an RGB format. Frames are random, but for those of YUV that are
//! called smooth.
//! Each row of the table is one piece of work and each column a route that does it; `ours`, and its
//! ratio to the original, stand where the port is linked, and `memcpy` copies as many bytes as the
//! work writes. The original has no number where it refuses; where ours goes by BT.709, its number
//! is by BT.601. A number is the median of rounds in which the routes take turns, so that a slow
//! moment of the machine falls on all of them. Below the table stand the bars whose works were all
//! measured: the greatest ratio that is wanted of ours to another route, the worst that was
//! measured, and of which work. They do not change the exit status. With --markdown all this is
//! also written to FILE, the RGB pairs and those from YUV as tables of sources and destinations;
//! FILE keeps what it has from its first line `## ..` on.

mod common;
#[cfg(port)]
mod port;
mod rules;

use std::{
    collections::HashMap,
    fmt::Display,
    fs,
    hint::black_box,
    process::ExitCode,
    thread::available_parallelism,
    time::{Duration, Instant},
};

use common::{XorShift, YuvSet, flat, originals, random_bytes, random_units, whole_frame};
use original::{
    convert::{f32_to_f16_bits, splat_pixel_pattern},
    depth_texture::{PackedDepth, PlaneLayout},
    pixel_convert::convert_region,
    stretch_rect::yuv_to_rgb8,
};
use rules::{A8R8G8B8, AnySide, BT709, FORMATS, Format, Kind, Texel, named};

const WIDTH: u32 = 4096;
const HEIGHT: u32 = 2160;
const TEXELS: usize = WIDTH as usize * HEIGHT as usize;

/// The texels of a short row.
const SHORT: u32 = 16;

/// A work is repeated at least this often, and for at least this time.
const ROUNDS: usize = 9;
const PERIOD: Duration = Duration::from_millis(600);

/// The titles of a row's numbers.
const COLUMNS: &[&str] = if cfg!(port) {
    &["original", "ours", "memcpy", "ours/original"]
} else {
    &["original", "memcpy"]
};

/// What stands of a pair of formats in the markdown.
const PAIR_CELL: &str = if cfg!(port) {
    "ours, and in brackets its ratio to the original"
} else {
    "the original"
};

/// The names of a source and a destination.
type Pair = (&'static str, &'static str);

/// The conversions of a frame besides those from RGB and YUV to RGB.
const CONVERSIONS: [Pair; 8] = [
    ("A16B16G16R16", "A8R8G8B8"),
    ("A32B32G32R32F", "A8R8G8B8"),
    ("A2R10G10B10", "A8R8G8B8"),
    ("A2B10G10R10", "A8R8G8B8"),
    ("G16R16", "A8R8G8B8"),
    ("L16", "A8R8G8B8"),
    ("V8U8", "A8R8G8B8"),
    ("Q8W8V8U8", "A8R8G8B8"),
];

/// The conversions of a frame with a set of YUV numbers, BT.709; the original's is BT.601.
const SET_CONVERSIONS: [Pair; 2] = [("YUY2", "A8R8G8B8"), ("NV12", "A8R8G8B8")];

/// The conversions to a picture that is stored bottom row first, which the original has not.
const TURNED_CONVERSIONS: [Pair; 3] = [
    ("A8R8G8B8", "X8R8G8B8"),
    ("R5G6B5", "A8R8G8B8"),
    ("NV12", "A8R8G8B8"),
];

/// The conversions in short rows.
const SHORT_CONVERSIONS: [Pair; 12] = [
    ("YUY2", "A8R8G8B8"),
    ("UYVY", "R5G6B5"),
    ("A8R8G8B8", "X8R8G8B8"),
    ("A8R8G8B8", "A8B8G8R8"),
    ("A8R8G8B8", "R5G6B5"),
    ("A8R8G8B8", "R8G8B8"),
    ("A8R8G8B8", "L8"),
    ("R5G6B5", "A8R8G8B8"),
    ("R8G8B8", "X8R8G8B8"),
    ("X1R5G5B5", "R5G6B5"),
    ("A16B16G16R16", "A8R8G8B8"),
    ("A32B32G32R32F", "A8R8G8B8"),
];

/// The packed depth formats, each unpacked and packed.
const DEPTHS: [(&str, u32); 3] = [
    ("D16", rules::D16),
    ("D24X8", rules::D24X8),
    ("D24S8", rules::D24S8),
];

/// Bytes of the patterns that are splatted.
const PATTERNS: [usize; 6] = [1, 2, 3, 4, 8, 16];

/// Numbers that go to binary16, by name.
type Fog = (&'static str, fn() -> Vec<f32>);

const FOGS: [Fog; 2] = [
    // From 1 down to 2^-30, each number the same part of the one before.
    ("a fog ramp", || {
        let power = |texel| -30.0 * texel as f32 / TEXELS as f32;
        (0..TEXELS).map(|texel| power(texel).exp2()).collect()
    }),
    ("random fog", || {
        let mut random = XorShift::seeded();
        (0..TEXELS).map(|_| random.next_unit()).collect()
    }),
];

/// The greatest ratio of ours to another route that is wanted of some works.
struct Bar {
    works: &'static str,
    concerns: fn(&Work) -> bool,
    route: &'static str,
    limit: f64,
}

const BARS: [Bar; 8] = [
    Bar {
        works: "every RGB pair",
        concerns: |work| work.pair_from(rgb_formats()).is_some(),
        route: "original",
        limit: 0.2,
    },
    Bar {
        works: "A8R8G8B8 to X8R8G8B8 and A8B8G8R8, to and from R5G6B5",
        concerns: |work| {
            work.is_frame_of(&[
                ("A8R8G8B8", "X8R8G8B8"),
                ("A8R8G8B8", "A8B8G8R8"),
                ("A8R8G8B8", "R5G6B5"),
                ("R5G6B5", "A8R8G8B8"),
            ])
        },
        route: "memcpy",
        limit: 1.6,
    },
    Bar {
        works: "A16B16G16R16 and A32B32G32R32F to A8R8G8B8",
        concerns: |work| {
            work.is_frame_of(&[("A16B16G16R16", "A8R8G8B8"), ("A32B32G32R32F", "A8R8G8B8")])
        },
        route: "original",
        limit: 0.4,
    },
    Bar {
        works: "YUV to A8R8G8B8, random and smooth",
        concerns: Work::is_yuv_to_a8r8g8b8,
        route: "original",
        limit: 0.3,
    },
    Bar {
        works: "YUV to A8R8G8B8, random and smooth",
        concerns: Work::is_yuv_to_a8r8g8b8,
        route: "memcpy",
        limit: 5.0,
    },
    Bar {
        works: "YUV to the eleven other RGB formats",
        concerns: |work| work.pair_from(yuv_formats()).is_some() && !work.is_yuv_to_a8r8g8b8(),
        route: "original",
        limit: 0.35,
    },
    Bar {
        works: "depth unpack and pack",
        concerns: |work| matches!(work, Work::Unpack(..) | Work::Pack(..)),
        route: "original",
        limit: 0.5,
    },
    Bar {
        works: "rows of 16 texels",
        concerns: |work| matches!(work, Work::Convert(_, _, SHORT)),
        route: "original",
        limit: 0.4,
    },
];

/// The titles of what is told of a bar.
const BAR_COLUMNS: [&str; 5] = ["bar", "limit", "worst", "of", "met"];

fn main() -> ExitCode {
    let mut words: Vec<String> = std::env::args().skip(1).collect();
    let markdown = words.iter().position(|word| word == "--markdown");
    let file = markdown.map(|at| words.drain(at..(at + 2).min(words.len())).nth(1));
    if file == Some(None) {
        eprintln!("bench: usage: bench [--markdown FILE] [WORD..]");
        return ExitCode::from(2);
    }
    println!("{}", heading());
    let table = table(&words);
    let bars = bars(&table);
    if let Some(file) = file.flatten()
        && let Err(error) = write_markdown(&file, &table, &bars)
    {
        eprintln!("bench: {file}: {error}");
        return ExitCode::FAILURE;
    }
    ExitCode::SUCCESS
}

fn heading() -> String {
    format!(
        "{WIDTH} x {HEIGHT} texels, one thread, nanoseconds a texel, medians of \
         {ROUNDS} or more interleaved rounds"
    )
}

/// A number for each of COLUMNS; none where a route refuses.
type Numbers = Vec<Option<f64>>;

/// A work and its numbers.
type Row = (Work, Numbers);

/// Does the works that are asked for and prints each as it is done.
fn table(words: &[String]) -> Vec<Row> {
    let mut rows = Vec::new();
    let titles: String = COLUMNS.iter().map(|name| format!("{name:>15}")).collect();
    println!("{:40}{titles}", "");
    for work in works() {
        let name = work.name();
        if words.is_empty() || words.iter().any(|word| name.contains(word)) {
            let numbers = work.measure();
            let cells: String = numbers
                .iter()
                .map(|it| format!("{:>15}", cell(*it)))
                .collect();
            println!("{name:40}{cells}");
            rows.push((work, numbers));
        }
    }
    rows
}

fn cell(number: Option<f64>) -> String {
    number.map_or("-".to_string(), |it| format!("{it:.2}"))
}

/// The number in the column of that title; none where there is no such column.
fn number(numbers: &Numbers, title: &str) -> Option<f64> {
    let at = COLUMNS.iter().position(|column| *column == title)?;
    numbers[at]
}

/// A cell for each of BAR_COLUMNS.
type BarRow = [String; BAR_COLUMNS.len()];

/// Tells the bars whose works were all measured, and prints them.
fn bars(table: &[Row]) -> Vec<BarRow> {
    let rows: Vec<BarRow> = BARS.iter().filter_map(|bar| bar.row(table)).collect();
    if !rows.is_empty() {
        println!();
        print_bar(&BAR_COLUMNS);
        rows.iter().for_each(print_bar);
    }
    rows
}

fn print_bar([bar, limit, worst, of, met]: &[impl Display; BAR_COLUMNS.len()]) {
    println!("{bar:70}{limit:>6}{worst:>8}  {of:40}{met}");
}

impl Bar {
    /// What is told of the bar; none unless each of its works has a ratio.
    fn row(&self, table: &[Row]) -> Option<BarRow> {
        let wanted = works().iter().filter(|work| (self.concerns)(work)).count();
        let ratios: Vec<(f64, String)> = table
            .iter()
            .filter(|(work, _)| (self.concerns)(work))
            .filter_map(|(work, numbers)| Some((self.ratio(numbers)?, work.name())))
            .collect();
        if ratios.len() < wanted {
            return None;
        }
        let (worst, of) = ratios.into_iter().max_by(|a, b| a.0.total_cmp(&b.0))?;
        Some([
            format!("{}: ours/{}", self.works, self.route),
            self.limit.to_string(),
            format!("{worst:.3}"),
            of,
            if worst <= self.limit { "yes" } else { "no" }.to_string(),
        ])
    }

    fn ratio(&self, numbers: &Numbers) -> Option<f64> {
        Some(number(numbers, "ours")? / number(numbers, self.route)?)
    }
}

/// A piece of work.
enum Work {
    /// From a format to another, in rows of so many texels.
    Convert(&'static Format, &'static Format, u32),
    /// The same of a smooth frame of YUV.
    ConvertSmooth(&'static Format, &'static Format),
    /// The same of a frame with BT.709.
    ConvertWithSet(&'static Format, &'static Format),
    /// The same of a frame to a picture that is stored bottom row first.
    ConvertTurned(&'static Format, &'static Format),
    /// Of a depth format's name and code.
    Unpack(&'static str, u32),
    Pack(&'static str, u32),
    /// Of a pattern of so many bytes.
    Splat(usize),
    Binary16(Fog),
    /// Samples of YUV, a call for each: by products, or by the port's tables.
    Samples(bool),
}

impl Work {
    fn name(&self) -> String {
        match self {
            Self::Convert(from, to, WIDTH) => format!("{} to {}", from.name, to.name),
            Self::Convert(from, to, row) => format!("{} to {}, rows of {row}", from.name, to.name),
            Self::ConvertSmooth(from, to) => format!("{} to {}, smooth", from.name, to.name),
            Self::ConvertWithSet(from, to) => {
                format!("{} to {} BT.709, original BT.601", from.name, to.name)
            }
            Self::ConvertTurned(from, to) => {
                format!("{} to {}, bottom row first", from.name, to.name)
            }
            Self::Unpack(name, _) => format!("{name} unpack"),
            Self::Pack(name, _) => format!("{name} pack"),
            Self::Splat(length) => format!("splat of {length}"),
            Self::Binary16((name, _)) => format!("binary16 of {name}"),
            Self::Samples(false) => "samples of YUV".to_string(),
            Self::Samples(true) => "samples of YUV by tables".to_string(),
        }
    }

    fn measure(&self) -> Numbers {
        match *self {
            Self::Convert(from, to, row) => convert(&frame(from), from, to, row, Ours::Same),
            Self::ConvertSmooth(from, to) => convert(&smooth(from), from, to, WIDTH, Ours::Same),
            Self::ConvertWithSet(from, to) => {
                convert(&frame(from), from, to, WIDTH, Ours::With(BT709))
            }
            Self::ConvertTurned(from, to) => convert(&frame(from), from, to, WIDTH, Ours::Turned),
            Self::Unpack(_, code) => unpack(code),
            Self::Pack(_, code) => pack(code),
            Self::Splat(length) => splat(length),
            Self::Binary16((_, fog)) => binary16(&fog()),
            Self::Samples(by_tables) => samples(by_tables),
        }
    }

    /// The names of source and destination where a random frame goes from one of the formats to
    /// RGB.
    fn pair_from(&self, mut sources: impl Iterator<Item = &'static Format>) -> Option<Pair> {
        match self {
            Self::Convert(from, to, WIDTH) if to.kind == Kind::Rgb => sources
                .any(|source| source.code == from.code)
                .then_some((from.name, to.name)),
            _ => None,
        }
    }

    /// Whether a frame, random or smooth, goes from YUV to A8R8G8B8.
    fn is_yuv_to_a8r8g8b8(&self) -> bool {
        match self {
            Self::Convert(from, to, WIDTH) | Self::ConvertSmooth(from, to) => {
                rules::is_yuv(from.code) && to.code == A8R8G8B8
            }
            _ => false,
        }
    }

    /// Whether the work has a row of its own in the markdown: all but the pairs that a table of
    /// sources and destinations has, and of these YUV to A8R8G8B8, of which `memcpy` is told too.
    fn has_row(&self) -> bool {
        let in_table = self.pair_from(rgb_formats().chain(yuv_formats())).is_some();
        !in_table || self.is_yuv_to_a8r8g8b8()
    }

    /// Whether a frame goes from the source to the destination of one of the pairs.
    fn is_frame_of(&self, pairs: &[Pair]) -> bool {
        matches!(self, Self::Convert(from, to, WIDTH) if pairs.contains(&(from.name, to.name)))
    }
}

/// All that can be measured, in the order of the table.
fn works() -> Vec<Work> {
    let convert = |(from, to), row| Work::Convert(named(from), named(to), row);
    let with_set = |(from, to)| Work::ConvertWithSet(named(from), named(to));
    let turned = |(from, to)| Work::ConvertTurned(named(from), named(to));
    let mut works = Vec::new();
    for from in rgb_formats().chain(yuv_formats()) {
        works.extend(rgb_formats().map(|to| Work::Convert(from, to, WIDTH)));
    }
    works.extend(yuv_formats().map(|from| Work::ConvertSmooth(from, named("A8R8G8B8"))));
    works.extend(CONVERSIONS.map(|pair| convert(pair, WIDTH)));
    // Without the port the original would do the same work twice, here and with the samples below.
    if cfg!(port) {
        works.extend(SET_CONVERSIONS.map(with_set));
        works.extend(TURNED_CONVERSIONS.map(turned));
    }
    works.extend(SHORT_CONVERSIONS.map(|pair| convert(pair, SHORT)));
    for (name, code) in DEPTHS {
        works.extend([Work::Unpack(name, code), Work::Pack(name, code)]);
    }
    works.extend(PATTERNS.map(Work::Splat));
    works.extend(FOGS.map(Work::Binary16));
    works.push(Work::Samples(false));
    if cfg!(port) {
        works.push(Work::Samples(true));
    }
    works
}

fn rgb_formats() -> impl Iterator<Item = &'static Format> {
    FORMATS.iter().filter(|format| format.kind == Kind::Rgb)
}

fn yuv_formats() -> impl Iterator<Item = &'static Format> {
    FORMATS.iter().filter(|format| rules::is_yuv(format.code))
}

/// The routes of one work, in the order of COLUMNS; none in the place of one that refuses.
struct Routes<'a>(Vec<Option<Box<dyn FnMut() + 'a>>>);

impl<'a> Routes<'a> {
    fn original(route: impl FnMut() + 'a) -> Self {
        Self(vec![Some(Box::new(route))])
    }

    fn without_original() -> Self {
        Self(vec![None])
    }

    #[cfg(port)]
    fn ours(mut self, route: impl FnMut() + 'a) -> Self {
        self.0.push(Some(Box::new(route)));
        self
    }

    /// Adds `memcpy` of `length` bytes and runs the routes in turn, the first round uncounted.
    fn measure(mut self, length: usize) -> Numbers {
        let (from, mut to) = (vec![1_u8; length], vec![0_u8; length]);
        let copy = move || black_box(&mut to).copy_from_slice(black_box(&from));
        self.0.push(Some(Box::new(copy)));
        let mut times = vec![Vec::new(); self.0.len()];
        let (started, mut rounds) = (Instant::now(), 0);
        while rounds <= ROUNDS || started.elapsed() < PERIOD {
            for (route, times) in self.0.iter_mut().zip(&mut times) {
                let Some(route) = route else { continue };
                let start = Instant::now();
                route();
                times.push(start.elapsed().as_nanos());
            }
            rounds += 1;
        }
        let mut numbers: Numbers = times.iter_mut().map(|times| median(times)).collect();
        if cfg!(port) {
            let both = numbers[1].zip(numbers[0]);
            numbers.push(both.map(|(ours, original)| ours / original));
        }
        numbers
    }
}

/// The median of a work's times but the first, for each texel.
fn median(times: &mut [u128]) -> Option<f64> {
    let (_, counted) = times.split_first_mut()?;
    counted.sort_unstable();
    Some(counted[counted.len() / 2] as f64 / TEXELS as f64)
}

/// The bytes of a frame.
fn frame_length(format: &Format) -> usize {
    match format.kind {
        Kind::PlanarYuv => {
            let (_, [.., total]) = rules::planar_layout(format.code, WIDTH, HEIGHT);
            total as usize
        }
        _ => TEXELS * format.bytes,
    }
}

/// A frame of random texels; binary32 channels lie between 0 and 1.
fn frame(format: &Format) -> Vec<u8> {
    let random = &mut XorShift::seeded();
    match format.kind {
        Kind::Wide if format.bytes == 16 => random_units(random, TEXELS * 4),
        _ => random_bytes(random, frame_length(format)),
    }
}

/// A smooth frame of YUV, as a camera sees a wall in slanting light: luma grows from 56 at the top
/// left to 198 at the bottom right, U from 112 to 143 along a row, V from 112 to 143 down a column.
/// A sample differs from the next one in its row or column by at most 1, and no channel clamps.
fn smooth(format: &Format) -> Vec<u8> {
    let mut frame = vec![0; frame_length(format)];
    let region = whole_frame(WIDTH, HEIGHT, WIDTH as usize * format.bytes, 0);
    let source = AnySide::from(&region.source);
    for (row, column) in (0..HEIGHT).flat_map(|row| (0..WIDTH).map(move |column| (row, column))) {
        let texel = Texel {
            slice: 0,
            row: row.into(),
            column: column.into(),
        };
        let places = source.sample(format, texel).expect("a texel of YUV");
        let luma = 56 + 72 * column / WIDTH + 72 * row / HEIGHT;
        let sample = [luma, 112 + 32 * column / WIDTH, 112 + 32 * row / HEIGHT];
        for (at, code) in places.into_iter().zip(sample) {
            frame[at as usize] = code as u8;
        }
    }
    frame
}

/// What ours does where the original converts a frame: the same, the same with a set of YUV numbers,
/// or the same to a picture that is stored bottom row first.
#[cfg_attr(not(port), allow(dead_code))]
enum Ours {
    Same,
    With(YuvSet),
    Turned,
}

/// Converts a frame's texels that lie in rows of `row`.
#[cfg_attr(not(port), allow(unused_variables))]
fn convert(src: &[u8], from: &Format, to: &Format, row: u32, ours: Ours) -> Numbers {
    let width = row as usize;
    let height = (TEXELS / width) as u32;
    let region = whole_frame(row, height, width * from.bytes, width * to.bytes);
    let length = TEXELS * to.bytes;
    let (mut dst, originals) = (vec![0; length], originals(&flat(&region)));
    let routes = if rules::original_refuses(from.code, to.code) {
        Routes::without_original()
    } else {
        Routes::original(move || {
            let (dst, src) = (black_box(&mut dst), black_box(src));
            assert!(convert_region(dst, to.code, src, from.code, &originals));
        })
    };
    #[cfg(port)]
    let routes = {
        let (mut dst, mut region) = (vec![0; length], region);
        if let Ours::Turned = ours {
            region.destination = common::Side::bottom_up(row * to.bytes as u32, height);
        }
        let set = match ours {
            Ours::With(set) => Some(set),
            _ => None,
        };
        routes.ours(move || {
            let (dst, src) = (black_box(&mut dst), black_box(src));
            let (to, from) = (to.code, from.code);
            let reply = match &set {
                Some(set) => port::convert_region_with_set(dst, to, src, from, &region, set),
                None => port::convert_region(dst, to, src, from, &region),
            };
            assert_eq!(reply, 0);
        })
    };
    routes.measure(length)
}

/// A depth transfer with random buffers.
struct Depth {
    format: PackedDepth,
    layout: PlaneLayout,
    packed: Vec<u8>,
    packed_pitch: usize,
    depth: Vec<u8>,
    stencil: Vec<u8>,
}

impl Depth {
    fn new(code: u32) -> Self {
        let format = PackedDepth::from_d3d(code).expect("a packed depth format");
        let layout = PlaneLayout::new(WIDTH, HEIGHT, 256).expect("a plane layout");
        let random = &mut XorShift::seeded();
        let packed_pitch = layout.width * format.bytes_per_pixel();
        Self {
            packed: random_bytes(random, packed_pitch * layout.height),
            packed_pitch,
            depth: random_units(random, layout.depth_pitch / 4 * layout.height),
            stencil: random_bytes(random, layout.stencil_pitch * layout.height),
            format,
            layout,
        }
    }

    #[cfg(port)]
    const fn planes(&self) -> common::Planes {
        common::Planes {
            width: self.layout.width,
            height: self.layout.height,
            depth_pitch: self.layout.depth_pitch,
            stencil_pitch: self.layout.stencil_pitch,
        }
    }
}

fn unpack(code: u32) -> Numbers {
    let call = &Depth::new(code);
    let stencils = if call.format.has_stencil() { TEXELS } else { 0 };
    let (mut depth, mut stencil) = (call.depth.clone(), call.stencil.clone());
    let routes = Routes::original(move || {
        let (depth, stencil) = (black_box(&mut depth), black_box(&mut stencil));
        let (format, packed) = (&call.format, black_box(&call.packed));
        assert!(
            call.layout
                .unpack(format, packed, call.packed_pitch, depth, stencil)
        );
    });
    #[cfg(port)]
    let routes = {
        let (mut depth, mut stencil) = (call.depth.clone(), call.stencil.clone());
        routes.ours(move || {
            let (depth, stencil) = (black_box(&mut depth), black_box(&mut stencil));
            let (planes, packed) = (&call.planes(), black_box(&call.packed));
            let reply = port::unpack(depth, stencil, packed, call.packed_pitch, code, planes);
            assert_eq!(reply, 0);
        })
    };
    routes.measure(4 * TEXELS + stencils)
}

fn pack(code: u32) -> Numbers {
    let call = &Depth::new(code);
    let mut packed = call.packed.clone();
    let routes = Routes::original(move || {
        let (depth, stencil) = (black_box(&call.depth), black_box(&call.stencil));
        let (format, packed) = (&call.format, black_box(&mut packed));
        assert!(
            call.layout
                .pack(format, depth, stencil, packed, call.packed_pitch)
        );
    });
    #[cfg(port)]
    let routes = {
        let mut packed = call.packed.clone();
        routes.ours(move || {
            let (depth, stencil) = (black_box(&call.depth), black_box(&call.stencil));
            let (planes, packed) = (&call.planes(), black_box(&mut packed));
            let reply = port::pack(packed, call.packed_pitch, depth, stencil, code, planes);
            assert_eq!(reply, 0);
        })
    };
    routes.measure(call.packed.len())
}

fn splat(pattern: usize) -> Numbers {
    let pixel = &random_bytes(&mut XorShift::seeded(), pattern);
    let mut dst = vec![0; 4 * TEXELS];
    let routes = Routes::original(move || {
        splat_pixel_pattern(black_box(&mut dst), black_box(pixel));
    });
    #[cfg(port)]
    let routes = {
        let mut dst = vec![0; 4 * TEXELS];
        routes.ours(move || {
            port::splat_pixel_pattern(black_box(&mut dst), black_box(pixel));
        })
    };
    routes.measure(4 * TEXELS)
}

fn binary16(fog: &[f32]) -> Numbers {
    let mut codes = vec![0; TEXELS];
    let routes = Routes::original(move || {
        for (code, value) in black_box(&mut codes).iter_mut().zip(black_box(fog)) {
            *code = f32_to_f16_bits(*value);
        }
    });
    #[cfg(port)]
    let routes = {
        let mut codes = vec![0; TEXELS];
        routes.ours(move || {
            for (code, value) in black_box(&mut codes).iter_mut().zip(black_box(fog)) {
                *code = port::f32_to_f16_bits(value.to_bits());
            }
        })
    };
    routes.measure(2 * TEXELS)
}

/// Random samples to red, green and blue; the original has products alone.
fn samples(by_tables: bool) -> Numbers {
    let frame = random_bytes(&mut XorShift::seeded(), 3 * TEXELS);
    let frame = frame.as_slice();
    let mut colours = vec![[0; 3]; TEXELS];
    let routes = Routes::original(move || {
        let samples = black_box(frame).chunks_exact(3);
        for (rgb, yuv) in black_box(&mut colours).iter_mut().zip(samples) {
            *rgb = yuv_to_rgb8(yuv[0], yuv[1], yuv[2]).into();
        }
    });
    #[cfg(port)]
    let routes = {
        let mut colours = vec![[0; 3]; TEXELS];
        let call = match by_tables {
            true => port::yuv_to_rgb8_by_tables,
            false => port::yuv_to_rgb8,
        };
        routes.ours(move || {
            let samples = black_box(frame).chunks_exact(3);
            for (rgb, yuv) in black_box(&mut colours).iter_mut().zip(samples) {
                call(yuv[0], yuv[1], yuv[2], rgb);
            }
        })
    };
    #[cfg(not(port))]
    let _ = by_tables;
    routes.measure(3 * TEXELS)
}

/// Writes the tables above what `path` has from its first heading of the second rank on.
fn write_markdown(path: &str, table: &[Row], bars: &[BarRow]) -> std::io::Result<()> {
    let old = fs::read_to_string(path).unwrap_or_default();
    let kept = old.find("\n## ").map_or("", |at| &old[at..]);
    let text = format!(
        "# Benchmarks\n\n{}. {}. `memcpy` copies as many bytes as the work writes; rows of {SHORT} \
         are a region of {SHORT} x {} texels; a splat's texel has 4 bytes.\n",
        heading(),
        machine(),
        TEXELS / SHORT as usize
    );
    let bars = markdown_table(&BAR_COLUMNS, bars.iter().map(|row| row.to_vec()).collect());
    let pairs = [
        matrix(
            table,
            "From the RGB format of a row to that of a column",
            rgb_formats,
        ),
        matrix(
            table,
            "From the YUV format of a row to the RGB format of a column",
            yuv_formats,
        ),
    ];
    fs::write(path, text + &pairs.concat() + &rows(table) + &bars + kept)
}

/// The pairs from these sources to RGB that were measured: a row for each source and a column for
/// each destination.
fn matrix<I: Iterator<Item = &'static Format>>(
    table: &[Row],
    title: &str,
    sources: fn() -> I,
) -> String {
    let cells: HashMap<Pair, String> = table
        .iter()
        .filter_map(|(work, numbers)| Some((work.pair_from(sources())?, pair_cell(numbers))))
        .collect();
    if cells.is_empty() {
        return String::new();
    }
    let sources = sources()
        .map(|format| format.name)
        .filter(|name| cells.keys().any(|(from, _)| from == name));
    let destinations: Vec<&'static str> = rgb_formats()
        .map(|format| format.name)
        .filter(|name| cells.keys().any(|(_, to)| to == name))
        .collect();
    let row = |from| {
        let cell = |to: &&'static str| cells.get(&(from, *to)).cloned().unwrap_or_default();
        let cells = destinations.iter().map(cell);
        [from.to_string()].into_iter().chain(cells).collect()
    };
    let rows = sources.map(row).collect();
    format!("\n{title}: {PAIR_CELL}.\n")
        + &markdown_table(&[&[""], &destinations[..]].concat(), rows)
}

/// The numbers that PAIR_CELL tells of.
fn pair_cell(numbers: &Numbers) -> String {
    let cell = |title| cell(number(numbers, title));
    if cfg!(port) {
        format!("{} ({})", cell("ours"), cell("ours/original"))
    } else {
        cell("original")
    }
}

/// The works that have a row of their own.
fn rows(table: &[Row]) -> String {
    let rows = table
        .iter()
        .filter(|(work, _)| work.has_row())
        .map(|(work, numbers)| {
            let cells = numbers.iter().map(|it| cell(*it));
            [work.name()].into_iter().chain(cells).collect()
        });
    markdown_table(&[&["work"], COLUMNS].concat(), rows.collect())
}

/// A table after an empty line; nothing where there is no row.
fn markdown_table(titles: &[&str], rows: Vec<Vec<String>>) -> String {
    if rows.is_empty() {
        return String::new();
    }
    let rule = "---:|".repeat(titles.len() - 1);
    let rows: String = rows
        .iter()
        .map(|row| format!("| {} |\n", row.join(" | ")))
        .collect();
    format!("\n| {} |\n|---|{rule}\n{rows}", titles.join(" | "))
}

/// The processor's model and the number of its cores.
fn machine() -> String {
    let info = fs::read_to_string("/proc/cpuinfo").unwrap_or_default();
    let model = info.lines().find(|line| line.starts_with("model name"));
    let model = model.and_then(|line| line.split(": ").nth(1));
    let cores = available_parallelism().map_or(1, usize::from);
    format!("{}, {cores} cores", model.unwrap_or("unknown processor"))
}
