//! Usage: model [--wrong] COUNT SEED
//! Draws so many damaged and accepted calls and writes a record of each to standard output, with
//! what the rules alone answer (stand_ins/original.rs), for tests/replay.c to hold an archive to on
//! a machine that has no Rust. README.md, Recorded answers, has the records, of which the second
//! word is here the reply itself. With --wrong, of each call and reply the first record alone is
//! written, once for each part that is compared, with that part changed (wrong.rs). The same COUNT
//! and SEED give the same bytes.

mod answers;
mod by_texel;
mod calls;
mod common;
mod drawn;
mod record_calls;
mod rules;
mod sets;
mod stills;
mod wrong;

use std::{
    io::{self, Write},
    process::ExitCode,
};

use calls::ConvertCall;
use common::{XorShift, YuvSet};
use drawn::{Call, Draw};
use original::pixel_convert;
use record_calls::{AREA, Recorder, fill, half, layout, pair, rgba, splat, triple};

fn main() -> ExitCode {
    let words: Vec<String> = std::env::args().skip(1).collect();
    let Some((is_wrong, count, seed)) = arguments(&words) else {
        eprintln!("model: usage: model [--wrong] COUNT SEED");
        return ExitCode::from(2);
    };
    match write(is_wrong, count, seed) {
        Ok(refused) => {
            eprintln!("model: {count} calls, {refused} refused, seed 0x{seed:016X}");
            ExitCode::SUCCESS
        }
        Err(error) => {
            eprintln!("model: {error}");
            ExitCode::FAILURE
        }
    }
}

fn arguments(words: &[String]) -> Option<(bool, usize, u64)> {
    let (is_wrong, words) = match words {
        [first, others @ ..] if first == "--wrong" => (true, others),
        others => (false, others),
    };
    let [count, seed] = words else { return None };
    Some((is_wrong, count.parse().ok()?, common::read_seed(seed)?))
}

/// Writes the records of `count` calls, or wrong ones made of them; how many of the calls are refused.
fn write(is_wrong: bool, count: usize, seed: u64) -> io::Result<usize> {
    let mut draw = Draw::new(XorShift::from_seed(seed), AREA);
    let mut to = Recorder::new(XorShift::seeded(), 0);
    let mut out = io::stdout().lock();
    while to.count < count {
        for call in draw.next() {
            record(&mut to, count, &call);
        }
        if !is_wrong {
            out.write_all(&to.records)?;
            to.records.clear();
        }
    }
    if is_wrong {
        out.write_all(&wrong::changed(Records(&to.records)))?;
    }
    out.flush()?;
    Ok(to.refused)
}

/// The records of a file in which each is as long as its call's are.
struct Records<'a>(&'a [u8]);

impl<'a> Iterator for Records<'a> {
    type Item = &'a [u8];

    fn next(&mut self) -> Option<&'a [u8]> {
        let lends = matches!(self.0.first()?, 25..=28 | 30);
        let (record, others) = self.0.split_at(if lends { 512 } else { 64 });
        self.0 = others;
        Some(record)
    }
}

/// Records a call, whose buffers have to fit, unless there are enough.
fn record(to: &mut Recorder, enough: usize, call: &Call) {
    let mut answer = |number: u32, refusal: u32, record: &dyn Fn(&mut Recorder)| {
        if to.count < enough {
            (to.call, to.refusal) = (number, refusal);
            record(to);
        }
    };
    match call {
        &Call::CanConvert { src, dst } => {
            answer(16, 1, &|to| pair(to, answers::pair, src, dst));
            answer(17, 1, &|to| {
                pair(to, pixel_convert::can_convert_update, src, dst)
            });
        }
        &Call::Colour(sample) => {
            answer(18, 0, &|to| triple(to, sample));
            answer(31, 0, &|to| triple(to, sample));
        }
        Call::Convert(call) => {
            let number = if call.set.is_some() { 30 } else { 25 };
            answer(number, call.conversion().reply(), &|to| {
                to.convert(call);
            });
        }
        Call::ConvertFlat(call, flat) => {
            let call = ConvertCall {
                region: (*flat).into(),
                ..call.clone()
            };
            record(to, enough, &Call::Convert(call));
        }
        &Call::Fill { color, format } => {
            answer(22, rules::fill(format), &|to| fill(to, color, format));
        }
        &Call::Half(bits) => answer(23, 0, &|to| half(to, bits)),
        Call::NamedSets => {
            for (number, named) in [(33, &rules::BT601), (34, &rules::BT709)] {
                answer(number, 0, &|to| set(to, named));
            }
        }
        Call::Pack(call) => answer(27, call.transfer().reply(), &|to| to.pack(call)),
        &Call::PlanarLayout {
            format,
            width,
            height,
        } => {
            let (reply, _) = rules::planar_layout(format, width, height);
            let numbers = answers::planar_layout(format, width, height);
            let given = [format, width, height].map(u64::from);
            answer(19, reply, &|to| layout(to, given, numbers));
        }
        &Call::PlanarLayoutFromPitch {
            format,
            pitch,
            luma_rows,
        } => {
            let (reply, _) = rules::planar_layout_from_pitch(format, pitch, luma_rows);
            let numbers = answers::planar_layout_from_pitch(format, pitch, luma_rows);
            let given = [u64::from(format), pitch as u64, luma_rows as u64];
            answer(20, reply, &|to| layout(to, given, numbers));
        }
        &Call::PlaneLayout {
            width,
            height,
            alignment,
        } => {
            let (reply, _) = rules::plane_layout(width, height, alignment);
            let numbers = answers::plane_layout(width, height, alignment);
            let given = [width, height, alignment].map(u64::from);
            answer(21, reply, &|to| layout(to, given, numbers));
        }
        &Call::Rgba(color) => answer(24, 0, &|to| rgba(to, color)),
        Call::Splat { dst, pixel } => answer(28, 0, &|to| splat(to, dst, pixel)),
        Call::Unpack(call) => answer(26, call.transfer().reply(), &|to| to.unpack(call)),
    }
}

/// A named set, which a call without parameters hands back.
fn set(to: &mut Recorder, set: &YuvSet) {
    let numbers = rules::numbers(set).map(u32::to_le_bytes);
    to.value([0; 3], Some(numbers.as_flattened()));
}
