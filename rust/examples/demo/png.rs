//! A small PNG writer: 8 bits a channel, RGB, deflate blocks that are stored and not compressed.

use std::fs;
use std::io;
use std::path::Path;

/// Every column and row, row by row from the top.
pub fn positions(width: usize, height: usize) -> impl Iterator<Item = (usize, usize)> {
    (0..height).flat_map(move |y| (0..width).map(move |x| (x, y)))
}

/// A picture of RGB bytes, row by row from the top.
pub struct Picture {
    pub width: usize,
    pub height: usize,
    pub rgb: Vec<u8>,
}

impl Picture {
    /// A picture whose pixel at column `x`, row `y` is `colour(x, y)`.
    pub fn new(width: usize, height: usize, colour: impl Fn(usize, usize) -> [u8; 3]) -> Self {
        let rgb = positions(width, height)
            .flat_map(|(x, y)| colour(x, y))
            .collect();
        Self { width, height, rgb }
    }

    /// Sets a pixel; nothing where it lies outside.
    pub fn set(&mut self, x: i64, y: i64, colour: [u8; 3]) {
        let (Ok(x), Ok(y)) = (usize::try_from(x), usize::try_from(y)) else {
            return;
        };
        if x < self.width && y < self.height {
            self.rgb[(y * self.width + x) * 3..][..3].copy_from_slice(&colour);
        }
    }

    /// Sets a rectangle of pixels.
    pub fn fill(&mut self, [left, top]: [i64; 2], [width, height]: [i64; 2], colour: [u8; 3]) {
        for y in top..top + height {
            for x in left..left + width {
                self.set(x, y, colour);
            }
        }
    }

    /// The mean colour of a rectangle of pixels inside the picture.
    pub fn mean(&self, [left, top]: [usize; 2], [width, height]: [usize; 2]) -> [f64; 3] {
        let mut sum = [0.0; 3];
        for (x, y) in positions(width, height) {
            let pixel = &self.rgb[((top + y) * self.width + left + x) * 3..][..3];
            for (total, channel) in sum.iter_mut().zip(pixel) {
                *total += f64::from(*channel);
            }
        }
        sum.map(|total| total / (width * height) as f64)
    }

    /// Writes the picture as a PNG file.
    pub fn write(&self, path: &Path) -> io::Result<()> {
        let mut header = Vec::new();
        for size in [self.width, self.height] {
            header.extend((size as u32).to_be_bytes());
        }
        // 8 bits a channel, RGB, deflate, the standard filters, not interlaced
        header.extend([8, 2, 0, 0, 0]);

        let mut rows = Vec::with_capacity(self.rgb.len() + self.height);
        for row in self.rgb.chunks_exact(self.width * 3) {
            rows.push(0); // no filter
            rows.extend(row);
        }

        let mut file = b"\x89PNG\r\n\x1a\n".to_vec();
        chunk(&mut file, b"IHDR", &header);
        chunk(&mut file, b"IDAT", &zlib(&rows));
        chunk(&mut file, b"IEND", &[]);
        fs::write(path, file)
    }
}

fn chunk(file: &mut Vec<u8>, kind: &[u8; 4], data: &[u8]) {
    file.extend((data.len() as u32).to_be_bytes());
    let start = file.len();
    file.extend(kind);
    file.extend(data);
    let crc = crc32(&file[start..]);
    file.extend(crc.to_be_bytes());
}

/// A zlib stream of stored blocks, each of at most 65535 bytes.
fn zlib(data: &[u8]) -> Vec<u8> {
    let mut stream = vec![0x78, 0x01];
    let blocks = data.chunks(65535);
    let last = blocks.len() - 1;
    for (i, block) in blocks.enumerate() {
        let len = block.len() as u16;
        stream.push(u8::from(i == last));
        stream.extend(len.to_le_bytes());
        stream.extend((!len).to_le_bytes());
        stream.extend(block);
    }
    stream.extend(adler32(data).to_be_bytes());
    stream
}

fn adler32(data: &[u8]) -> u32 {
    let (mut a, mut b) = (1, 0);
    for byte in data {
        a = (a + u32::from(*byte)) % 65521;
        b = (b + a) % 65521;
    }
    b << 16 | a
}

fn crc32(data: &[u8]) -> u32 {
    let mut crc = u32::MAX;
    for byte in data {
        crc ^= u32::from(*byte);
        for _ in 0..8 {
            crc = crc >> 1 ^ if crc & 1 == 1 { 0xedb8_8320 } else { 0 };
        }
    }
    !crc
}
