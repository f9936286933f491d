//! The vial as camera frames in YUY2 and NV12, by BT.601 or BT.709, the screens that they are
//! converted to, and the error of each channel against the exact values of the frame's samples.

use wentuqis::Refused;
use wentuqis::format::{D3DFMT_NV12, D3DFMT_R5G6B5, D3DFMT_YUY2};
use wentuqis::pixel_convert::{Region, Side, YuvSet, convert};
use wentuqis::planar_yuv::planar_yuv_layout_from_pitch;

use crate::png::{Picture, positions};
use crate::vial::{HEIGHT, WIDTH, pixel};

/// An odd number of bytes a row.
const YUY2_PITCH: usize = 2 * WIDTH + 3;

/// An even number, which the chroma of NV12 needs, but no multiple of 4.
pub const NV12_PITCH: usize = WIDTH + 2;

/// How a camera makes samples of colours, and how they are taken back.
pub struct Standard {
    /// The parts of red, green and blue in luma, U and V, and what black has.
    samples: [[f64; 4]; 3],
    /// The numbers of the set as decimals, in thousandths and in its order.
    thousandths: [i64; 7],
    set: YuvSet,
}

/// BT.601, with an offset of 16.065 and a centre of 127.5.
pub const BT601: Standard = Standard {
    samples: [
        [0.257, 0.504, 0.098, 16.065],
        [-0.148, -0.291, 0.439, 127.5],
        [0.439, -0.368, -0.071, 127.5],
    ],
    thousandths: [1164, 16065, 1596, 392, 813, 2017, 127_500],
    set: YuvSet::BT601,
};

/// BT.709, of high-definition cameras.
pub const BT709: Standard = Standard {
    samples: [
        [0.183, 0.614, 0.062, 16.0],
        [-0.101, -0.339, 0.439, 128.0],
        [0.439, -0.399, -0.040, 128.0],
    ],
    thousandths: [1164, 16000, 1793, 213, 533, 2112, 128_000],
    set: YuvSet::BT709,
};

impl Standard {
    fn luma(&self, rgb: [f64; 3]) -> u8 {
        sample(self.samples[0], rgb)
    }

    /// U and V of the mean of some texels.
    fn chroma(&self, texels: &[[f64; 3]]) -> [u8; 2] {
        let mean = [0, 1, 2].map(|channel| {
            let sum: f64 = texels.iter().map(|texel| texel[channel]).sum();
            sum / texels.len() as f64
        });
        [1, 2].map(|i| sample(self.samples[i], mean))
    }

    /// Red, green and blue of a sample, exactly, in millionths of a 255th.
    fn exact(&self, [y, u, v]: [u8; 3]) -> [i64; 3] {
        let [gain, offset, v_red, u_green, v_green, u_blue, centre] = self.thousandths;
        let luma = gain * (1000 * i64::from(y) - offset);
        let [u, v] = [u, v].map(|chroma| 1000 * i64::from(chroma) - centre);
        [
            luma + v_red * v,
            luma - u_green * u - v_green * v,
            luma + u_blue * u,
        ]
        .map(|channel| channel.clamp(0, 255_000_000))
    }
}

fn sample([red, green, blue, black]: [f64; 4], [r, g, b]: [f64; 3]) -> u8 {
    (black + red * r + green * g + blue * b).round() as u8
}

/// A camera frame.
pub struct Frame {
    pub name: &'static str,
    pub bytes: Vec<u8>,
    pub pitch: usize,
    format: u32,
    standard: &'static Standard,
}

impl Frame {
    /// The vial in YUY2: two texels share their chroma.
    pub fn yuy2() -> Self {
        let mut bytes = vec![0; YUY2_PITCH * HEIGHT];
        for (y, row) in bytes.chunks_exact_mut(YUY2_PITCH).enumerate() {
            for (pair, four) in row[..2 * WIDTH].chunks_exact_mut(4).enumerate() {
                let texels = [pixel(2 * pair, y), pixel(2 * pair + 1, y)];
                let [u, v] = BT601.chroma(&texels);
                four.copy_from_slice(&[BT601.luma(texels[0]), u, BT601.luma(texels[1]), v]);
            }
        }
        Self {
            name: "YUY2",
            bytes,
            pitch: YUY2_PITCH,
            format: D3DFMT_YUY2,
            standard: &BT601,
        }
    }

    /// The vial in NV12: four texels share their chroma, which stands behind the luma rows.
    pub fn nv12(name: &'static str, pitch: usize, standard: &'static Standard) -> Self {
        let layout =
            planar_yuv_layout_from_pitch(D3DFMT_NV12, pitch, HEIGHT).expect("the pitch is even");
        let mut bytes = vec![0; layout.total_bytes()];
        for (x, y) in positions(WIDTH, HEIGHT) {
            bytes[layout.luma_offset(x, y)] = standard.luma(pixel(x, y));
            if x % 2 == 0 && y % 2 == 0 {
                let texels = [(0, 0), (1, 0), (0, 1), (1, 1)].map(|(i, j)| pixel(x + i, y + j));
                let pair = standard.chroma(&texels);
                bytes[layout.nv12_uv_offset(x, y)..][..2].copy_from_slice(&pair);
            }
        }
        Self {
            name,
            bytes,
            pitch,
            format: D3DFMT_NV12,
            standard,
        }
    }

    /// Luma and chroma of a texel.
    fn sample(&self, x: usize, y: usize) -> [u8; 3] {
        if self.format == D3DFMT_YUY2 {
            let pair = &self.bytes[y * self.pitch + x / 2 * 4..][..4];
            return [pair[x % 2 * 2], pair[1], pair[3]];
        }
        let layout = planar_yuv_layout_from_pitch(self.format, self.pitch, HEIGHT)
            .expect("the frame has a layout");
        let chroma = layout.nv12_uv_offset(x, y);
        [
            self.bytes[layout.luma_offset(x, y)],
            self.bytes[chroma],
            self.bytes[chroma + 1],
        ]
    }
}

/// What a viewer shows: a surface with padded rows.
pub struct Screen {
    pub bytes: Vec<u8>,
    pitch: usize,
    format: u32,
}

impl Screen {
    /// A screen whose bytes are all A5.
    pub fn new(format: u32) -> Self {
        let texel = if format == D3DFMT_R5G6B5 { 2 } else { 4 };
        let pitch = texel * WIDTH + 10;
        let bytes = vec![0xa5; pitch * HEIGHT];
        Self {
            bytes,
            pitch,
            format,
        }
    }

    /// Converts a frame, by the set of its standard, onto the whole screen.
    pub fn show(&mut self, frame: &Frame) -> Result<(), Refused> {
        let rows = |pitch| Side {
            pitch: pitch as i64,
            slice_pitch: pitch * HEIGHT,
            ..Side::default()
        };
        let region = Region {
            source: rows(frame.pitch),
            destination: rows(self.pitch),
            ..Region::new(WIDTH as u32, HEIGHT as u32)
        };
        convert(
            &mut self.bytes,
            self.format,
            &frame.bytes,
            frame.format,
            &region,
            &frame.standard.set,
        )
    }

    /// Red, green and blue of a texel, each as a code and its maximum.
    fn codes(&self, x: usize, y: usize) -> [(i64, i64); 3] {
        let row = &self.bytes[y * self.pitch..];
        if self.format == D3DFMT_R5G6B5 {
            let word = i64::from(row[2 * x]) | i64::from(row[2 * x + 1]) << 8;
            return [(word >> 11, 31), (word >> 5 & 63, 63), (word & 31, 31)];
        }
        [2, 1, 0].map(|channel| (i64::from(row[4 * x + channel]), 255))
    }

    /// The largest error of each channel and its limit, in thousandths of a 255th, rounded up.
    pub fn errors(&self, frame: &Frame) -> [(i64, i64); 3] {
        let mut largest = [(0, 0); 3];
        for (x, y) in positions(WIDTH, HEIGHT) {
            let exact = frame.standard.exact(frame.sample(x, y));
            for (i, (code, max)) in self.codes(x, y).into_iter().enumerate() {
                let error = (255_000_000 * code - max * exact[i]).abs();
                let thousandths = (error + 1000 * max - 1) / (1000 * max);
                // truncating drops the low bits, at most 256 / (max + 1) - 1; the limit is that and 3/4
                let limit = 1000 * (256 / (max + 1) - 1) + 750;
                largest[i] = (largest[i].0.max(thousandths), limit);
            }
        }
        largest
    }

    /// What the screen shows.
    pub fn drawn(&self) -> Picture {
        Picture::new(WIDTH, HEIGHT, |x, y| {
            self.codes(x, y)
                .map(|(code, max)| ((255 * code + max / 2) / max) as u8)
        })
    }
}
