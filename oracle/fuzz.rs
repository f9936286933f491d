//! Usage: fuzz SECONDS [SEED]
//! Makes calls of the port for so many seconds, damaged copies of accepted ones (drawn.rs), and
//! checks each as `compare` does. Every lent buffer is a heap block of its own and no byte
//! longer than lent, so that under valgrind an access past it is seen. Without SEED the clock gives
//! one. The exit status is 1 if anything differs.

mod answers;
mod by_texel;
mod calls;
mod checks;
mod common;
mod drawn;
mod findings;
mod port;
mod rules;
mod sets;
mod stills;
mod whole_numbers;

use std::{
    process::ExitCode,
    time::{Duration, Instant, SystemTime},
};

use checks::Checks;
use common::XorShift;
use drawn::{Call, Draw};

fn main() -> ExitCode {
    let words: Vec<String> = std::env::args().skip(1).collect();
    let Some((time, seed)) = arguments(&words) else {
        eprintln!("fuzz: usage: fuzz SECONDS [SEED]");
        return ExitCode::from(2);
    };
    println!("seed 0x{seed:016X}");
    checks::watch();
    let mut draw = Draw::new(XorShift::from_seed(seed), usize::MAX);
    let (mut checks, start) = (Checks::new(false), Instant::now());
    while start.elapsed() < time {
        for _ in 0..64 {
            for call in draw.next() {
                check(&mut checks, call);
            }
        }
    }
    print(&checks);
    if checks.differences == 0 {
        ExitCode::SUCCESS
    } else {
        ExitCode::FAILURE
    }
}

fn arguments(words: &[String]) -> Option<(Duration, u64)> {
    let (seconds, seed) = match words {
        [seconds] => (seconds, clock()),
        [seconds, seed] => (seconds, common::read_seed(seed)?),
        _ => return None,
    };
    Some((Duration::from_secs(seconds.parse().ok()?), seed))
}

fn clock() -> u64 {
    let now = SystemTime::now().duration_since(SystemTime::UNIX_EPOCH);
    now.map_or(0, |now| now.as_nanos() as u64)
}

/// Makes a call and checks it.
fn check(checks: &mut Checks, call: Call) {
    match call {
        Call::CanConvert { src, dst } => checks.can_convert(src, dst),
        Call::Colour(sample) => checks.triples([sample]),
        Call::Convert(call) => checks.convert_region(&call),
        Call::ConvertFlat(call, flat) => checks.convert_flat(&call, &flat),
        Call::Fill { color, format } => checks.fill(color, format),
        Call::Half(bits) => checks.halves([bits]),
        Call::NamedSets => checks.named_sets(),
        Call::Pack(call) => checks.pack(&call),
        Call::PlanarLayout {
            format,
            width,
            height,
        } => {
            checks.planar_layout(format, width, height);
        }
        Call::PlanarLayoutFromPitch {
            format,
            pitch,
            luma_rows,
        } => {
            checks.planar_layout_from_pitch(format, pitch, luma_rows);
        }
        Call::PlaneLayout {
            width,
            height,
            alignment,
        } => {
            checks.plane_layout(width, height, alignment);
        }
        Call::Rgba(color) => checks.rgba(color),
        Call::Splat { dst, pixel } => checks.splat(&dst, &pixel),
        Call::Unpack(call) => checks.unpack(&call),
    }
}

/// A line for each call and reply, then the first differences in full.
fn print(checks: &Checks) {
    for ((call, reply), count) in &checks.replies {
        let reply = match reply {
            0 => "accepted".to_string(),
            number => format!("refusal {number}"),
        };
        println!("{call:32}{reply:12}{count:>12}");
    }
    let (calls, differences) = (checks.calls(), checks.differences);
    println!("{:32}{:12}{calls:>12}", "all", "");
    println!("{:32}{:12}{:>12}", "unasked", "", checks.unasked);
    println!("{:32}{:12}{differences:>12}", "differences", "");
    for difference in &checks.first {
        println!("  {difference}");
    }
}
