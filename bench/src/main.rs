//! Measures each call of the header on the library and on the yardstick, on the same inputs: the
//! nanoseconds of both and their ratio in one run, or one ring of calls for callgrind to count.

mod calls;
mod inputs;
mod library;
mod lines;
mod plain;

use calls::Calls;
use library::LIBRARY;
use lines::{lines, Effort, Line, Ring, LONG, SHORT};
use plain::PLAIN;
use std::env;
use std::hint::black_box;
use std::process::ExitCode;
use std::time::Instant;

/// The two sides in the order of the columns.
const SIDES: [Calls; 2] = [LIBRARY, PLAIN];

fn main() -> ExitCode {
    let words: Vec<String> = env::args().skip(1).collect();
    match words.iter().map(String::as_str).collect::<Vec<_>>()[..] {
        ["times"] => times(),
        ["lines"] => list(),
        ["ring", call, input, "neither"] => turn(call, input, &[]),
        ["ring", call, input, "library"] => turn(call, input, &[LIBRARY]),
        ["ring", call, input, "yardstick"] => turn(call, input, &[PLAIN]),
        _ => {
            eprintln!("usage: bench times | lines | ring CALL INPUT neither|library|yardstick");
            return ExitCode::from(2);
        }
    }
    ExitCode::SUCCESS
}

/// Prints the table of times.
fn times() {
    heading();
    for line in lines() {
        let [library, yardstick] = best((line.ring)(), line.effort);
        let ratio = library / yardstick;
        let Line { call, input, .. } = line;
        println!("{call:<16}{input:<30}{library:>13.1}{yardstick:>13.1}{ratio:>8.2}");
    }
}

/// Prints what is measured, and the heads of the columns.
fn heading() {
    println!(
        "Nanoseconds per call of the library and of the yardstick, the same rules in plain Rust."
    );
    println!(
        "Best of {} rounds, the two taking turns on the same {} different inputs; for whole runs {} and {}.",
        SHORT.rounds, SHORT.inputs, LONG.rounds, LONG.inputs
    );
    println!(
        "Both are release builds, called through a C function pointer with the same signature."
    );
    println!(
        "No lent buffer is cleared in the timed part, on either side; each call makes its whole answer."
    );
    println!(
        "{:<16}{:<30}{:>13}{:>13}{:>8}",
        "call", "input", "library", "yardstick", "ratio"
    );
}

/// The best nanoseconds per call of each side. The sides take turns, and so does who begins.
fn best(mut ring: Ring, effort: Effort) -> [f64; 2] {
    let mut best = [f64::INFINITY; 2];
    for round in 0..2 * effort.rounds {
        let side = (round + round / 2) % 2;
        let calls = black_box(&SIDES[side]);
        let start = Instant::now();
        for _ in 0..effort.turns {
            ring(calls);
        }
        let made = effort.turns * effort.inputs;
        let spent = start.elapsed().as_nanos() as f64 / made as f64;
        best[side] = best[side].min(spent);
    }
    best
}

/// Prints of each line the call, the input and how many calls its ring makes.
fn list() {
    for Line {
        call,
        input,
        effort,
        ..
    } in lines()
    {
        println!("{call}\t{input}\t{}", effort.inputs);
    }
}

/// Makes the ring of a line, and goes through it once for each of some sides.
fn turn(call: &str, input: &str, sides: &[Calls]) {
    let mut lines = lines().into_iter();
    let line = lines.find(|line| line.call == call && line.input == input);
    let mut ring = (line.expect("there is no such line").ring)();
    for calls in sides {
        ring(black_box(calls));
    }
}
