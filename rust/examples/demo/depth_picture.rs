//! The plant room in D24S8, with rows that are padded, and how distances are read from it.

use crate::plant_room::{Camera, HEIGHT, WIDTH, depth_of, metres_of};
use crate::png::{Picture, positions};
use crate::text;

/// The largest 24-bit code.
const MAX_CODE: f64 = 16_777_215.0;

/// Padding of the rendered rows, so that they are no multiple of any usual alignment.
const PADDING: usize = 36;

const ORANGE: [u8; 3] = [255, 120, 0];
const DARK: [u8; 3] = [24, 24, 24];

/// A picture of packed depth, `pitch` bytes a row.
pub struct DepthPicture {
    pub bytes: Vec<u8>,
    pub pitch: usize,
}

impl DepthPicture {
    /// A picture whose bytes are all 0.
    pub fn empty(pitch: usize) -> Self {
        let bytes = vec![0; pitch * HEIGHT];
        Self { bytes, pitch }
    }

    /// What a camera sees.
    pub fn seen_by(camera: &Camera) -> Self {
        let mut picture = Self::empty(4 * WIDTH + PADDING);
        for (y, row) in picture.bytes.chunks_exact_mut(picture.pitch).enumerate() {
            for (x, pixel) in row[..4 * WIDTH].chunks_exact_mut(4).enumerate() {
                let (metres, stencil) = camera.sees(x, y);
                let code = (depth_of(metres) * MAX_CODE).round() as u32;
                pixel.copy_from_slice(&(code << 8 | u32::from(stencil)).to_le_bytes());
            }
        }
        picture
    }

    /// The same rows as a screen grab has them: bottom row first.
    pub fn grabbed(&self) -> Vec<u8> {
        let rows = self.bytes.chunks_exact(self.pitch).rev();
        rows.flatten().copied().collect()
    }

    /// Bytes of a row behind its pixels.
    pub fn padding(&self) -> usize {
        self.pitch - 4 * WIDTH
    }

    fn pixel(&self, (x, y): (usize, usize)) -> u32 {
        let bytes = &self.bytes[y * self.pitch + 4 * x..][..4];
        u32::from_le_bytes([bytes[0], bytes[1], bytes[2], bytes[3]])
    }

    /// How many pixels hold the same bytes in both pictures.
    pub fn same_pixels(&self, other: &Self) -> usize {
        positions(WIDTH, HEIGHT)
            .filter(|at| self.pixel(*at) == other.pixel(*at))
            .count()
    }

    /// The distance along the view axis.
    pub fn metres(&self, at: (usize, usize)) -> f64 {
        metres_of(f64::from(self.pixel(at) >> 8) / MAX_CODE)
    }

    /// The same, if the depth had been cut to its upper 16 bits.
    pub fn metres_of_16_bits(&self, at: (usize, usize)) -> f64 {
        metres_of(f64::from(self.pixel(at) >> 16) / 65535.0)
    }

    /// The picture in greys, near ones bright, with lines where a surface bends, and the two ends of
    /// a clearance, which is written beside them in metres.
    pub fn drawn(&self, ends: [(usize, usize); 2], clearance: f64) -> Picture {
        let all = || positions(WIDTH, HEIGHT).map(|at| self.metres(at));
        let near = all().fold(f64::INFINITY, f64::min);
        let far = all().fold(0.0, f64::max);
        let mut picture = Picture::new(WIDTH, HEIGHT, |x, y| {
            let metres = self.metres((x, y));
            let grey = 240.0 - 205.0 * (metres - near) / (far - near);
            let line = (30.0 * metres * self.bend(x, y)).min(0.55);
            [(grey * (1.0 - line)) as u8; 3]
        });
        mark(&mut picture, ends, clearance);
        picture
    }

    /// How far the surface is from flat: of a plane, the reciprocal distance is linear across pixels.
    fn bend(&self, x: usize, y: usize) -> f64 {
        if x == 0 || y == 0 || x == WIDTH - 1 || y == HEIGHT - 1 {
            return 0.0;
        }
        let near = |x, y| 1.0 / self.metres((x, y));
        let across = near(x - 1, y) + near(x + 1, y) - 2.0 * near(x, y);
        let down = near(x, y - 1) + near(x, y + 1) - 2.0 * near(x, y);
        across.abs() + down.abs()
    }
}

/// Marks the two ends with crosses and letters, dashes between them, and writes the clearance above.
fn mark(picture: &mut Picture, ends: [(usize, usize); 2], clearance: f64) {
    let [(ax, ay), (bx, by)] = ends.map(|(x, y)| (x as f64, y as f64));
    for step in (0..=400).filter(|step| step / 16 % 2 == 0) {
        let t = f64::from(step) / 400.0;
        let (x, y) = (ax + (bx - ax) * t, ay + (by - ay) * t);
        picture.fill([x as i64, y as i64], [2, 2], ORANGE);
    }
    for ((x, y), (letter, above)) in ends.into_iter().zip([("A", 44), ("B", 34)]) {
        let (x, y) = (x as i64, y as i64);
        picture.fill([x - 6, y], [14, 2], ORANGE);
        picture.fill([x, y - 6], [2, 14], ORANGE);
        text::write(picture, letter, [x - 6, y - above], 3, ORANGE);
    }
    let middle = [((ax + bx) / 2.0) as i64, ay.min(by) as i64 - 62];
    let said = format!("A to B {clearance:.4} m");
    text::plate(picture, &said, middle, 2, [DARK, ORANGE]);
}
