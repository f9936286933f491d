//! Stands in for the original where its source is not at hand: docs/RULES.md as a program that
//! gives every byte. Lanes come from the letters and numbers of the formats' names, replies from
//! rules.rs, and nearest codes from exact numbers. Neither the original's code nor the port's
//! stands behind it. Functions have the original's names, and `BY_RULES` says which of the two is
//! linked.

#[path = "../rules.rs"]
mod rules;
#[allow(dead_code)]
#[path = "../../rust/src/shapes.rs"]
mod shapes;

mod common {
    pub use crate::shapes::{
        ConvertRegion as FlatRegion, PlaneLayout as Planes, Region, Side, YuvSet,
    };
}

/// These are the answers of the rules, not of the original.
pub const BY_RULES: bool = true;

/// A run of a word's bits that holds the channel of this letter.
#[derive(Clone, Copy)]
struct Lane {
    letter: u8,
    low: u32,
    width: u32,
    is_float: bool,
}

impl Lane {
    const fn greatest(self) -> u128 {
        (1 << self.width) - 1
    }

    fn code(self, word: u128) -> u128 {
        word >> self.low & self.greatest()
    }
}

/// The lanes of a name, which lists them from the word's top bit down; an F at its end makes them
/// floats.
fn lanes(name: &str) -> Vec<Lane> {
    let (name, is_float) = match name.strip_suffix('F') {
        Some(name) => (name, true),
        None => (name, false),
    };
    let mut lanes: Vec<Lane> = Vec::new();
    for byte in name.bytes() {
        if byte.is_ascii_digit() {
            let lane = lanes.last_mut().expect("a letter before its number");
            lane.width = 10 * lane.width + u32::from(byte - b'0');
        } else {
            lanes.push(Lane {
                letter: byte,
                low: 0,
                width: 0,
                is_float,
            });
        }
    }
    let mut low = 0;
    for lane in lanes.iter_mut().rev() {
        lane.low = low;
        low += lane.width;
    }
    lanes
}

/// Red, green, blue and alpha, a byte each.
#[derive(Clone, Copy)]
struct Colour {
    red: u8,
    green: u8,
    blue: u8,
    alpha: u8,
}

impl Colour {
    /// A D3DCOLOR, hexadecimal AARRGGBB.
    const fn d3d(color: u32) -> Self {
        let [blue, green, red, alpha] = color.to_le_bytes();
        Self {
            red,
            green,
            blue,
            alpha,
        }
    }

    fn luminance(self) -> u8 {
        let [red, green, blue] = [self.red, self.green, self.blue].map(u32::from);
        ((2125 * red + 7154 * green + 721 * blue + 5000) / 10_000) as u8
    }

    /// The channel of a letter of a name: U, V, W, Q are red, green, blue, alpha; X has none.
    fn channel(self, letter: u8) -> Option<u8> {
        Some(match letter {
            b'R' | b'U' => self.red,
            b'G' | b'V' => self.green,
            b'B' | b'W' => self.blue,
            b'A' | b'Q' => self.alpha,
            b'L' => self.luminance(),
            _ => return None,
        })
    }
}

pub mod pixel_convert {
    //! Conversions of regions.

    use std::{collections::HashMap, sync::LazyLock};

    pub use crate::shapes::ConvertRegion;
    use crate::{
        Colour, Lane, lanes,
        rules::{self, AnyRegion, AnySide, Conversion, FORMATS, Format, Kind, Texel},
        stretch_rect::yuv_to_rgb8,
    };

    #[must_use]
    pub fn can_convert(src_format: u32, dst_format: u32) -> bool {
        rules::can_convert(src_format, dst_format)
    }

    #[must_use]
    pub fn can_convert_update(src_format: u32, dst_format: u32) -> bool {
        rules::can_convert_update(src_format, dst_format)
    }

    /// The lanes of every format of the list that is not YUV, by its code.
    static LANES: LazyLock<HashMap<u32, Vec<Lane>>> = LazyLock::new(|| {
        let not_yuv = FORMATS.iter().filter(|it| !rules::is_yuv(it.code));
        not_yuv.map(|it| (it.code, lanes(it.name))).collect()
    });

    /// The byte nearest to k / 257 for every code k of sixteen bits, found among all bytes.
    static NEAREST: LazyLock<Vec<u8>> = LazyLock::new(|| {
        let nearest =
            |code: u32| (0..=255_u8).min_by_key(|byte| code.abs_diff(257 * u32::from(*byte)));
        (0..=65_535)
            .map(|code| nearest(code).expect("a byte"))
            .collect()
    });

    /// A code of `width` bits, at most eight, as a byte: its bits repeated from the top down.
    fn expand(code: u128, width: u32) -> u8 {
        (0..8).fold(0, |byte, place| {
            let bit = code >> (width - 1 - place % width) & 1;
            byte << 1 | bit as u8
        })
    }

    /// A binary32 channel: clamped, a NaN as 0, and 255 times it to the nearest byte, a tie up. The
    /// sum is exact from 2^-20 on, and below 1 for what is smaller.
    fn unit_to_byte(bits: u32) -> u8 {
        let value = f64::from(f32::from_bits(bits));
        let clamped = if value.is_nan() {
            0.0
        } else {
            value.clamp(0.0, 1.0)
        };
        (255.0 * clamped + 0.5).floor() as u8
    }

    fn byte(lane: Lane, word: u128) -> u8 {
        let code = lane.code(word);
        match lane.width {
            32 if lane.is_float => unit_to_byte(code as u32),
            16 => NEAREST[code as usize],
            width => expand(code, width),
        }
    }

    /// The colour of a texel that is not YUV.
    fn decode(lanes: &[Lane], texel: &[u8]) -> Colour {
        let mut word = [0; 16];
        word[..texel.len()].copy_from_slice(texel);
        let word = u128::from_le_bytes(word);
        let find = |letter: u8| lanes.iter().find(|it| it.letter == letter);
        let stored = |letter| find(letter).map(|lane| byte(*lane, word));
        let alpha = stored(b'A').unwrap_or(255);
        let has_colour = lanes.iter().any(|it| b"RGBL".contains(&it.letter));
        // A8 is black with its alpha; any other missing colour is 255.
        let missing = if has_colour { 255 } else { 0 };
        let colour = |letter| stored(letter).or_else(|| stored(b'L')).unwrap_or(missing);
        Colour {
            red: colour(b'R'),
            green: colour(b'G'),
            blue: colour(b'B'),
            alpha,
        }
    }

    /// The word of a colour: each byte without its low bits, and X as all ones.
    fn encode(lanes: &[Lane], colour: Colour) -> u128 {
        lanes.iter().fold(0, |word, lane| {
            let code = match colour.channel(lane.letter) {
                Some(byte) => u128::from(byte) >> (8 - lane.width),
                None => lane.greatest(),
            };
            word | code << lane.low
        })
    }

    /// False if the rules refuse; `dst` is then as it was.
    pub fn convert_region(
        dst: &mut [u8],
        dst_format: u32,
        src: &[u8],
        src_format: u32,
        region: &ConvertRegion,
    ) -> bool {
        let region = AnyRegion::from(region);
        let conversion = Conversion {
            dst_format,
            dst_length: dst.len(),
            src_format,
            src_length: src.len(),
            region,
            set: rules::BT601,
        };
        let accepted = conversion.reply() == 0;
        if accepted {
            let of = |code| rules::find(code).expect("a format that converts");
            if !region.is_empty() {
                write(dst, of(dst_format), src, of(src_format), &region);
            }
        }
        accepted
    }

    /// Writes an accepted region by slice, row and column.
    fn write(dst: &mut [u8], to: &Format, src: &[u8], from: &Format, region: &AnyRegion) {
        let to_lanes = &LANES[&to.code];
        let from_lanes = LANES.get(&from.code);
        for texel in region.texels() {
            let colour = match from_lanes {
                Some(lanes) => {
                    let start = region.source.texel(texel, from.bytes);
                    decode(lanes, &src[start..start + from.bytes])
                }
                None => yuv(src, from, &region.source, texel),
            };
            let start = region.destination.texel(texel, to.bytes);
            let word = encode(to_lanes, colour).to_le_bytes();
            dst[start..start + to.bytes].copy_from_slice(&word[..to.bytes]);
        }
    }

    fn yuv(src: &[u8], from: &Format, source: &AnySide, texel: Texel) -> Colour {
        assert!(matches!(from.kind, Kind::PackedYuv | Kind::PlanarYuv));
        let places = source.sample(from, texel).expect("a texel inside");
        let [luma, u, v] = places.map(|at| src[at as usize]);
        let (red, green, blue) = yuv_to_rgb8(luma, u, v);
        Colour {
            red,
            green,
            blue,
            alpha: 255,
        }
    }
}

pub mod stretch_rect {
    //! The colour of a sample of YUV.

    use crate::rules;

    /// By the numbers of BT601, with right shifts that round down.
    #[must_use]
    pub fn yuv_to_rgb8(luma: u8, cb: u8, cr: u8) -> (u8, u8, u8) {
        let [
            gain,
            offset,
            v_to_red,
            u_to_green,
            v_to_green,
            u_to_blue,
            centre,
        ] = rules::numbers(&rules::BT601).map(i64::from);
        let [luma, u, v] = [luma, cb, cr].map(i64::from);
        let part = |number: i64, gain: i64| (number * gain).div_euclid(65_536);
        let luma = part(65_536 * luma - offset, gain);
        let [u, v] = [u, v].map(|it| (2 * it - centre) * 32_768);
        let byte = |sum: i64| (sum + 32_768).div_euclid(65_536).clamp(0, 255) as u8;
        (
            byte(luma + part(v, v_to_red)),
            byte(luma - part(u, u_to_green) - part(v, v_to_green)),
            byte(luma + part(u, u_to_blue)),
        )
    }
}

pub mod planar_yuv {
    //! Layouts of planar frames.

    use crate::rules::{self, Layout};

    /// Pitch, luma rows, chroma rows, total bytes.
    pub struct PlanarYuvLayout([u64; 4]);

    impl PlanarYuvLayout {
        #[must_use]
        pub const fn pitch(&self) -> u32 {
            self.0[0] as u32
        }

        #[must_use]
        pub const fn storage_rows(&self) -> u32 {
            (self.0[1] + self.0[2]) as u32
        }

        #[must_use]
        pub const fn total_bytes(&self) -> usize {
            self.0[3] as usize
        }

        /// U of the texel in column `x` of row `y` of an NV12 frame.
        #[must_use]
        pub const fn nv12_uv_offset(&self, x: u32, y: u32) -> usize {
            let [pitch, luma_rows, ..] = self.0;
            let offset = pitch * luma_rows + y as u64 / 2 * pitch + 2 * (x as u64 / 2);
            offset as usize
        }
    }

    fn layout((reply, numbers): Layout) -> Option<PlanarYuvLayout> {
        (reply == 0).then_some(PlanarYuvLayout(numbers))
    }

    #[must_use]
    pub fn planar_yuv_layout(format: u32, width: u32, height: u32) -> Option<PlanarYuvLayout> {
        layout(rules::planar_layout(format, width, height))
    }

    #[must_use]
    pub fn planar_yuv_layout_from_pitch(
        format: u32,
        pitch: usize,
        luma_rows: usize,
    ) -> Option<PlanarYuvLayout> {
        layout(rules::planar_layout_from_pitch(format, pitch, luma_rows))
    }
}

pub mod depth_texture {
    //! Depth pictures and their planes.

    use crate::rules::{self, D16, D24S8, Transfer};
    pub use crate::shapes::PlaneLayout;

    /// A packed depth format, by its code.
    pub struct PackedDepth(u32);

    impl PackedDepth {
        #[must_use]
        pub fn from_d3d(format: u32) -> Option<Self> {
            rules::packed_bytes(format).map(|_| Self(format))
        }

        fn bytes(&self) -> usize {
            rules::packed_bytes(self.0).expect("a packed depth format")
        }

        /// What the greatest code stands for is 1.
        const fn greatest(&self) -> u32 {
            if self.0 == D16 { 0xffff } else { 0xff_ffff }
        }

        /// The lowest bit of the code.
        const fn low(&self) -> u32 {
            if self.0 == D24S8 { 8 } else { 0 }
        }

        /// The code nearest to a depth that is clamped to 0..1, a tie to the even one; a NaN counts
        /// as 0. The product of two numbers of 24 bits is exact.
        fn code(&self, depth: f32) -> u32 {
            let clamped = if depth.is_nan() {
                0.0
            } else {
                depth.clamp(0.0, 1.0)
            };
            (f64::from(clamped) * f64::from(self.greatest())).round_ties_even() as u32
        }
    }

    impl PlaneLayout {
        #[must_use]
        pub fn new(width: u32, height: u32, alignment: u32) -> Option<Self> {
            let (reply, [width, height, depth_pitch, stencil_pitch]) =
                rules::plane_layout(width, height, alignment);
            (reply == 0).then_some(Self {
                width: width as usize,
                height: height as usize,
                depth_pitch: depth_pitch as usize,
                stencil_pitch: stencil_pitch as usize,
            })
        }

        fn accepts(
            &self,
            format: &PackedDepth,
            packed: (&[u8], usize),
            depth: &[u8],
            stencil: &[u8],
        ) -> bool {
            let transfer = Transfer {
                format: format.0,
                planes: *self,
                packed_length: packed.0.len(),
                packed_pitch: packed.1,
                depth_length: depth.len(),
                stencil_length: stencil.len(),
            };
            transfer.reply() == 0
        }

        /// Where each pixel lies: in the packed picture, in the depth plane, in the stencil plane.
        fn places(&self, bytes: usize, packed_pitch: usize) -> impl Iterator<Item = [usize; 3]> {
            let planes = *self;
            (0..planes.height).flat_map(move |y| {
                (0..planes.width).map(move |x| {
                    [
                        y * packed_pitch + x * bytes,
                        y * planes.depth_pitch + 4 * x,
                        y * planes.stencil_pitch + x,
                    ]
                })
            })
        }

        pub fn unpack(
            &self,
            format: &PackedDepth,
            packed: &[u8],
            packed_pitch: usize,
            depth: &mut [u8],
            stencil: &mut [u8],
        ) -> bool {
            if !self.accepts(format, (packed, packed_pitch), depth, stencil) {
                return false;
            }
            let bytes = format.bytes();
            for [from, to, beside] in self.places(bytes, packed_pitch) {
                let mut word = [0; 4];
                word[..bytes].copy_from_slice(&packed[from..from + bytes]);
                let code = u32::from_le_bytes(word) >> format.low() & format.greatest();
                let value = code as f32 / format.greatest() as f32;
                depth[to..to + 4].copy_from_slice(&value.to_le_bytes());
                if format.0 == D24S8 {
                    stencil[beside] = word[0];
                }
            }
            true
        }

        pub fn pack(
            &self,
            format: &PackedDepth,
            depth: &[u8],
            stencil: &[u8],
            packed: &mut [u8],
            packed_pitch: usize,
        ) -> bool {
            if !self.accepts(format, (packed, packed_pitch), depth, stencil) {
                return false;
            }
            let bytes = format.bytes();
            for [to, from, beside] in self.places(bytes, packed_pitch) {
                let value = depth[from..from + 4].try_into().map(f32::from_le_bytes);
                let mut word = format.code(value.expect("four bytes")) << format.low();
                if format.0 == D24S8 {
                    word |= u32::from(stencil[beside]);
                }
                packed[to..to + bytes].copy_from_slice(&word.to_le_bytes()[..bytes]);
            }
            true
        }
    }
}

pub mod convert {
    //! Fills, splats and binary16.

    use std::sync::LazyLock;

    use crate::{Colour, Lane, lanes, rules};

    /// What fills and does not convert, with its name.
    const ONLY_FILLED: [(u32, &str); 7] = [
        (64, "V16U16"),
        (110, "Q16W16V16U16"),
        (111, "R16F"),
        (112, "G16R16F"),
        (113, "A16B16G16R16F"),
        (114, "R32F"),
        (115, "G32R32F"),
    ];

    fn name(format: u32) -> &'static str {
        let only_filled = ONLY_FILLED.iter().find(|(code, _)| *code == format);
        let converts = || rules::find(format).map(|it| it.name);
        let name = only_filled.map(|(_, name)| *name).or_else(converts);
        name.expect("a format that fills")
    }

    /// What a lane holds of a colour.
    fn code(lane: Lane, colour: Colour) -> u128 {
        // X has the top bits of the colour's own alpha.
        let channel = colour.channel(lane.letter).unwrap_or(colour.alpha);
        let nearest = |greatest: u128| (2 * u128::from(channel) * greatest + 255) / 510;
        let unit = f32::from(channel) / 255.0;
        match (lane.is_float, lane.width) {
            (true, 16) => f32_to_f16_bits(unit).into(),
            (true, _) => unit.to_bits().into(),
            _ if b"UVWQ".contains(&lane.letter) => nearest(lane.greatest() / 2),
            (_, 16) => 257 * u128::from(channel),
            (_, 2 | 10) => nearest(lane.greatest()),
            (_, width) => u128::from(channel) >> (8 - width),
        }
    }

    #[must_use]
    pub fn d3dcolor_fill_pixel_bytes(color: u32, d3d_format: u32) -> Option<Vec<u8>> {
        if rules::fill(d3d_format) != 0 {
            return None;
        }
        let (lanes, colour) = (lanes(name(d3d_format)), Colour::d3d(color));
        let bits: u32 = lanes.iter().map(|lane| lane.width).sum();
        let with = |word, lane: &Lane| word | code(*lane, colour) << lane.low;
        let word = lanes.iter().fold(0, with).to_le_bytes();
        Some(word[..bits as usize / 8].to_vec())
    }

    pub fn splat_pixel_pattern(dst: &mut [u8], pixel: &[u8]) {
        if pixel.is_empty() {
            return;
        }
        for (place, byte) in dst.iter_mut().enumerate() {
            *byte = pixel[place % pixel.len()];
        }
    }

    #[must_use]
    pub fn d3dcolor_to_rgba_f32(color: u32) -> [f32; 4] {
        let Colour {
            red,
            green,
            blue,
            alpha,
        } = Colour::d3d(color);
        [red, green, blue, alpha].map(|it| f32::from(it) / 255.0)
    }

    /// What each binary16 code without sign stands for, ascending; infinity, the last one, counts
    /// as 65536, by which IEEE 754 rounds to it.
    static HALVES: LazyLock<Vec<f64>> = LazyLock::new(|| {
        let value = |code: i32| match (code >> 10, code & 0x3ff) {
            (0, fraction) => f64::from(fraction) * 2.0_f64.powi(-24),
            (exponent, fraction) => f64::from(1024 + fraction) * 2.0_f64.powi(exponent - 25),
        };
        (0..=0x7c00).map(value).collect()
    });

    /// The nearest of all codes, of two the even one. Around a tie both differences are exact: a
    /// number of 24 bits less one of 11 with nearly its exponent.
    #[must_use]
    pub fn f32_to_f16_bits(value: f32) -> u16 {
        let sign = (value.to_bits() >> 16 & 0x8000) as u16;
        if value.is_nan() {
            return sign | 0x7e00;
        }
        let magnitude = f64::from(value.abs());
        let above = HALVES.partition_point(|it| *it < magnitude);
        let code = if above == 0 || above == HALVES.len() {
            above.min(0x7c00)
        } else {
            let (up, down) = (HALVES[above] - magnitude, magnitude - HALVES[above - 1]);
            let takes_up = up < down || up == down && above % 2 == 0;
            if takes_up { above } else { above - 1 }
        };
        sign | code as u16
    }
}
