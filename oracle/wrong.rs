//! Records of wrong answers, for `replay` to count each as one that differs: right ones in which
//! one bit of one compared part is changed. A comparison that `replay` leaves out, or a difference
//! that it does not count, then shows in what it prints.
#![allow(dead_code)]

/// The wrong records of a file (`changed`), then its first record under numbers that no call of
/// such records has. `size` is a record's bytes.
pub fn wrong(file: &[u8], size: usize) -> Vec<u8> {
    let mut out = changed(file.chunks_exact(size));
    let elsewhere = if size > 16 { 1_u32 } else { 16 };
    for number in [elsewhere, 0, 32] {
        out.extend(number.to_le_bytes());
        out.extend(&file[4..size]);
    }
    out
}

/// Of each call and reply the first record, once for each part that is compared, which is changed
/// in it.
pub fn changed<'a>(records: impl Iterator<Item = &'a [u8]>) -> Vec<u8> {
    let mut seen = Vec::new();
    let mut out = Vec::new();
    for record in records {
        // In the smallest records the second word is an argument.
        let reply = if record.len() > 16 {
            word(record, 4)
        } else {
            0
        };
        let kind = (word(record, 0), reply);
        if !seen.contains(&kind) {
            seen.push(kind);
            for &place in compared(kind.0) {
                let start = out.len();
                out.extend(record);
                out[start + place] ^= 1;
            }
        }
    }
    out
}

fn word(record: &[u8], place: usize) -> u32 {
    let bytes = record[place..].first_chunk().expect("four bytes");
    u32::from_le_bytes(*bytes)
}

/// The places in a call's record that are changed: 4 is the word for a refusal; else the first and
/// the last byte of each number and of each buffer that comes back, whose last lies past what is
/// lent.
const fn compared(call: u32) -> &'static [usize] {
    match call {
        1..=15 | 29 => &[12, 15],
        16 | 17 => &[4],
        18 | 31 => &[32, 33, 34],
        19..=21 => &[4, 32, 39, 40, 47, 48, 55, 56, 63],
        22 => &[4, 32, 47, 48, 51],
        23 => &[32, 33],
        24 => &[32, 35, 36, 39, 40, 43, 44, 47],
        25 | 27 | 30 => &[4, 360, 431],
        26 => &[4, 360, 431, 432, 503],
        28 => &[360, 431],
        33 | 34 => &[32, 35, 36, 39, 40, 43, 44, 47, 48, 51, 52, 55, 56, 59],
        _ => &[],
    }
}
