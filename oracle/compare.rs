//! Usage: compare [--seed N] [--all] [PART..]
//! Compares the port with the rules' replies and with the original, part by part: the named
//! parts, or all. With --all also the exhaustive forms, which take minutes. Every part draws its
//! own random numbers, so that a seed gives the same cases whichever parts run. The exit status is
//! 1 if anything differs.

mod answers;
mod by_texel;
mod calls;
mod checks;
mod common;
mod findings;
mod rules;
mod parts {
    pub mod convert;
    pub mod depth;
    pub mod fills;
    pub mod numbers;
    pub mod placed;
    pub mod planar;
    pub mod with_set;
}
mod port;
mod sets;
mod stills;
mod whole_numbers;

use std::{process::ExitCode, thread, time::Instant};

use checks::Checks;
use common::XorShift;
use parts::{convert, depth, fills, numbers, placed, planar, with_set};

/// A name, and what runs; the flag asks for the exhaustive forms.
type Part = (&'static str, fn(&mut Checks, &mut XorShift, bool));

const PARTS: [Part; 9] = [
    ("convert", convert::run),
    ("placed", placed::run),
    ("sets", with_set::run),
    ("depth", depth::run),
    ("yuv", numbers::yuv),
    ("planar", planar::run),
    ("fill", fills::fill),
    ("splat", fills::splat),
    ("half", numbers::half),
];

struct Options {
    seed: u64,
    all: bool,
    parts: Vec<Part>,
}

fn main() -> ExitCode {
    let words: Vec<String> = std::env::args().skip(1).collect();
    let Some(options) = options(&words) else {
        let names = PARTS.map(|(name, _)| name).join(", ");
        eprintln!("compare: usage: compare [--seed N] [--all] [PART..]; parts: {names}");
        return ExitCode::from(2);
    };
    let start = Instant::now();
    checks::watch();
    println!("seed 0x{:016X}", options.seed);
    print_row(
        "part",
        ["calls", "accepted", "refused", "unasked", "differences"],
    );
    let differences = run(&options);
    let seconds = start.elapsed().as_secs_f64();
    println!("{differences} differences, {seconds:.1} seconds");
    if differences == 0 {
        ExitCode::SUCCESS
    } else {
        ExitCode::FAILURE
    }
}

fn options(words: &[String]) -> Option<Options> {
    let mut options = Options {
        seed: XorShift::SEED,
        all: false,
        parts: Vec::new(),
    };
    let mut words = words.iter();
    while let Some(word) = words.next() {
        match word.as_str() {
            "--all" => options.all = true,
            "--seed" => options.seed = common::read_seed(words.next()?)?,
            name => options.parts.push(*PARTS.iter().find(|it| it.0 == name)?),
        }
    }
    if options.parts.is_empty() {
        options.parts = PARTS.to_vec();
    }
    Some(options)
}

/// Runs the parts side by side and prints them in their order; the number of differences.
fn run(options: &Options) -> u64 {
    let start = |(name, part): Part| {
        let tag = name.bytes().fold(0, |tag, byte| tag << 8 | u64::from(byte));
        let (mut random, all) = (XorShift::from_seed(options.seed ^ tag), options.all);
        let work = move || {
            let mut checks = Checks::new(true);
            part(&mut checks, &mut random, all);
            checks
        };
        (name, thread::spawn(work))
    };
    let started: Vec<_> = options.parts.iter().copied().map(start).collect();
    let mut differences = 0;
    for (name, part) in started {
        let checks = part.join().expect("a part that ends");
        print_part(name, &checks);
        differences += checks.differences;
    }
    differences
}

/// A row of the table, then the first differences in full.
fn print_part(name: &str, checks: &Checks) {
    let replied = |accepted| {
        let counts = checks.replies.iter();
        counts
            .filter(|((_, reply), _)| (*reply == 0) == accepted)
            .map(|(_, count)| count)
            .sum()
    };
    let numbers: [u64; 5] = [
        checks.calls(),
        replied(true),
        replied(false),
        checks.unasked,
        checks.differences,
    ];
    print_row(name, numbers.map(|it| it.to_string()));
    for difference in &checks.first {
        println!("  {difference}");
    }
}

fn print_row<T: std::fmt::Display>(name: &str, cells: [T; 5]) {
    println!("{name:8}{}", cells.map(|it| format!("{it:>12}")).concat());
}
