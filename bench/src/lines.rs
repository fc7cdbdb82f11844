//! The lines of the table: each call of the header on a ring of inputs, which both sides must answer
//! alike.

use crate::calls::{Answer, Calls};
use crate::inputs::{
    accepted_chains, chains, clean_chains, even_chains, exact_room, files, firings, losing_chains,
    lossy_ticks, questions, refused_first, refused_last, ticks, FEW, MANY,
};
use crate::library::LIBRARY;
use crate::plain::PLAIN;
use compare::random::Random;
use compare::MAX_REPORT_LENGTH;
use std::hint::black_box;
use yardstick::{
    packed_length, Chain, Losses, Run, MAX_FIRINGS, MAX_LOSSES, MAX_QUEUES, MAX_TICKS,
};

/// How a line is timed.
#[derive(Clone, Copy)]
pub struct Effort {
    /// The different inputs of the ring.
    pub inputs: usize,
    /// How often a round goes through the ring.
    pub turns: usize,
    /// The rounds of each side, of which the best counts.
    pub rounds: usize,
}

/// The effort for calls that take less than microseconds.
pub const SHORT: Effort = Effort {
    inputs: MANY,
    turns: 32,
    rounds: 300,
};

/// The effort for calls that take milliseconds.
pub const LONG: Effort = Effort {
    inputs: FEW,
    turns: 1,
    rounds: 20,
};

/// Calls a side on each input of a ring once.
pub type Ring = Box<dyn FnMut(&Calls)>;

/// A line of the table, whose ring is made when it is asked for.
pub struct Line {
    pub call: &'static str,
    pub input: String,
    pub effort: Effort,
    pub ring: Box<dyn FnOnce() -> Ring>,
}

/// The table, in the header's order of calls.
pub fn lines() -> Vec<Line> {
    let most = MAX_QUEUES;
    let calls = [
        read_lines(),
        write_lines(),
        factory_lines(),
        short_lines("analyse", &[1, 4, most], accepted_chains, |calls, chain| {
            calls.analyse(chain)
        }),
        report_lines(),
        short_lines("fresh", &[1, most], accepted_chains, |calls, chain| {
            calls.fresh(chain)
        }),
        short_lines("fire", &[1, most], firings, |calls, (chain, run, node)| {
            calls.fire(chain, run, *node)
        }),
        immediate_lines(),
        short_lines(
            "deadline",
            &[1, most],
            questions,
            |calls, (chain, index)| calls.deadline(chain, chain.n, *index),
        ),
        short_lines("tick", &[1, 2, most], ticks, |calls, (chain, run)| {
            calls.tick(chain, run)
        }),
        deadline_run_lines(),
        recording_tick_lines(),
        recording_run_lines(),
    ];
    calls.into_iter().flatten().collect()
}

/// The lines of a call of less than microseconds on inputs of so many queues each.
fn short_lines<I: 'static, A: Answer>(
    call: &'static str,
    sizes: &[usize],
    inputs: fn(&mut Random, usize) -> Vec<I>,
    made: impl Fn(&Calls, &I) -> A + Copy + 'static,
) -> Vec<Line> {
    let line = |&n| {
        let inputs = move |random: &mut Random| inputs(random, n);
        line(call, format!("n = {n}"), SHORT, 0, inputs, made)
    };
    sizes.iter().map(line).collect()
}

/// The line of a call on some inputs, which are answered with a number.
fn line<I: 'static, A: Answer>(
    call: &'static str,
    input: String,
    effort: Effort,
    number: u32,
    inputs: impl FnOnce(&mut Random) -> Vec<I> + 'static,
    made: impl FnMut(&Calls, &I) -> A + 'static,
) -> Line {
    Line {
        call,
        input,
        effort,
        ring: Box::new(move || ring(number, inputs(&mut Random::new(1)), made)),
    }
}

/// The ring of a call on some inputs, each of which both sides must answer alike and with a number.
fn ring<I: 'static, A: Answer>(
    number: u32,
    inputs: Vec<I>,
    mut made: impl FnMut(&Calls, &I) -> A + 'static,
) -> Ring {
    for input in &inputs {
        let answer = made(&LIBRARY, input);
        assert_eq!(answer, made(&PLAIN, input), "library and yardstick differ");
        assert_eq!(answer.number(), number, "not the answer that is measured");
    }
    Box::new(move |calls| {
        for input in &inputs {
            let answer = made(calls, black_box(input));
            black_box(&answer);
        }
    })
}

/// Sees to it that both sides leave the same bytes where they are lent so many.
fn check_bytes(room: usize, put: impl Fn(&Calls, &mut [u8])) {
    let [ours, theirs] = [LIBRARY, PLAIN].map(|calls| {
        let mut out = vec![0; room];
        put(&calls, &mut out);
        out
    });
    assert_eq!(ours, theirs, "library and yardstick write different bytes");
}

/// Reading files.
fn read_lines() -> Vec<Line> {
    let valid = |n| move |random: &mut Random| files(&chains(random, n));
    let badly_sized = |random: &mut Random| refused_first(files(&chains(random, MAX_QUEUES)));
    let overdrawn = |random: &mut Random| files(&refused_last(chains(random, MAX_QUEUES)));
    vec![
        read_line("n = 1", 0, valid(1)),
        read_line("n = 4", 0, valid(4)),
        read_line("n = 16", 0, valid(MAX_QUEUES)),
        read_line("n = 16, refused 1", 1, badly_sized),
        read_line("n = 16, refused 5, last row", 5, overdrawn),
    ]
}

/// Reading files that are answered with a number.
fn read_line(
    input: &str,
    number: u32,
    files: impl FnOnce(&mut Random) -> Vec<Vec<u8>> + 'static,
) -> Line {
    line("read", input.into(), SHORT, number, files, |calls, file| {
        calls.read(file)
    })
}

/// Writing chains.
fn write_lines() -> Vec<Line> {
    let valid = |n| move |random: &mut Random| chains(random, n);
    let overdrawn = |random: &mut Random| refused_last(chains(random, MAX_QUEUES));
    vec![
        write_line("n = 1", 0, 0, valid(1)),
        write_line("n = 4", 0, 0, valid(4)),
        write_line("n = 16", 0, 0, valid(MAX_QUEUES)),
        write_line("n = 16, refused 10", 10, 1, valid(MAX_QUEUES)),
        write_line("n = 16, refused 5, last row", 5, 0, overdrawn),
    ]
}

/// Writing chains that are answered with a number to room that is `lacking` bytes short of what they
/// need.
fn write_line(
    input: &str,
    number: u32,
    lacking: usize,
    chains: impl FnOnce(&mut Random) -> Vec<Chain> + 'static,
) -> Line {
    let room = move |chain: &Chain| packed_length(chain.n as usize) - lacking;
    let checked = move |random: &mut Random| {
        let chains = chains(random);
        for chain in &chains {
            check_bytes(room(chain), |calls, out| {
                calls.write(chain, out);
            });
        }
        chains
    };
    let mut out = [0; packed_length(MAX_QUEUES)];
    let write = move |calls: &Calls, chain: &Chain| calls.write(chain, &mut out[..room(chain)]);
    line("write", input.into(), SHORT, number, checked, write)
}

/// Handing out the factory chains.
fn factory_lines() -> Vec<Line> {
    let input = "the three chains".into();
    let numbers = |_: &mut Random| (0..MANY as u32).map(|i| i % 3).collect();
    let factory = |calls: &Calls, &number: &u32| calls.factory(number);
    vec![line("factory", input, SHORT, 0, numbers, factory)]
}

/// Reporting on files.
fn report_lines() -> Vec<Line> {
    vec![
        report_line("n = 1", 1, |_| MAX_REPORT_LENGTH),
        report_line("n = 4", 4, |_| MAX_REPORT_LENGTH),
        report_line("n = 16", MAX_QUEUES, |_| MAX_REPORT_LENGTH),
        report_line("n = 16, exact room", MAX_QUEUES, exact_room),
    ]
}

/// Reporting on the files of chains of n queues, with room for each report.
fn report_line(input: &str, n: usize, room: fn(&[u8]) -> usize) -> Line {
    let files = move |random: &mut Random| {
        let files = files(&accepted_chains(random, n));
        let files: Vec<_> = files.into_iter().map(|file| (room(&file), file)).collect();
        for (room, file) in &files {
            check_bytes(*room, |calls, out| {
                calls.report(file, out);
            });
        }
        files
    };
    let mut out = [0; MAX_REPORT_LENGTH];
    let report =
        move |calls: &Calls, (room, file): &(usize, Vec<u8>)| calls.report(file, &mut out[..*room]);
    line("report", input.into(), SHORT, 0, files, report)
}

/// Making immediate runs.
fn immediate_lines() -> Vec<Line> {
    let line = |n| {
        let input = format!("n = {n}, k = {MAX_FIRINGS}");
        let chains = move |random: &mut Random| even_chains(random, n);
        line("immediate", input, LONG, 0, chains, |calls, chain| {
            calls.immediate(chain, MAX_FIRINGS)
        })
    };
    [1, MAX_QUEUES].map(line).into()
}

/// How dense the events of long runs are, and the ticks from one firing of the source to the next for
/// each queue of the chain.
const DENSITIES: [(&str, u32); 2] = [("dense", 1), ("sparse", 100)];

/// Making deadline runs in which the source fires every n ticks, or a hundred times as seldom.
fn deadline_run_lines() -> Vec<Line> {
    let ran = |calls: &Calls, chain: &Chain| calls.deadline_run(chain, MAX_TICKS);
    run_lines("deadline run", ran)
}

/// Making recording runs: the same runs, in which nothing is lost, and dense ones with losses.
fn recording_run_lines() -> Vec<Line> {
    let ran = |calls: &Calls, chain: &Chain| calls.recording_run(chain, MAX_TICKS);
    let mut lines = run_lines("recording run", ran);
    lines.extend([2, MAX_QUEUES].map(|n| {
        let input = format!("n = {n}, {MAX_TICKS} ticks, losses");
        let chains = move |random: &mut Random| losing_chains(random, n, n as u32);
        line("recording run", input, LONG, 0, chains, ran)
    }));
    lines
}

/// The lines of a call that makes long runs, on chains whose runs are clean: the same for each call.
fn run_lines<A: Answer>(
    call: &'static str,
    ran: impl Fn(&Calls, &Chain) -> A + Copy + 'static,
) -> Vec<Line> {
    let line = |n: usize, (density, ticks): (&str, u32)| {
        let input = format!("n = {n}, {MAX_TICKS} ticks, {density}");
        let chains = move |random: &mut Random| clean_chains(random, n, ticks * n as u32);
        line(call, input, LONG, 0, chains, ran)
    };
    let lines = [2, MAX_QUEUES].map(|n| DENSITIES.map(|density| line(n, density)));
    lines.into_iter().flatten().collect()
}

/// Making recording ticks: those of the tick's lines with an empty list and, of 16 queues, with a list
/// that has one slot left, and ticks that lose something.
fn recording_tick_lines() -> Vec<Line> {
    let most = MAX_QUEUES;
    vec![
        recording_tick_line("n = 1".into(), 1, 0, ticks),
        recording_tick_line("n = 2".into(), 2, 0, ticks),
        recording_tick_line(format!("n = {most}"), most, 0, ticks),
        recording_tick_line(
            format!("n = {most}, 255 entries"),
            most,
            MAX_LOSSES - 1,
            ticks,
        ),
        recording_tick_line(format!("n = {most}, a loss"), most, 0, lossy_ticks),
    ]
}

/// Making recording ticks of states that have lost nothing, each with a list of so many entries, which
/// say so.
fn recording_tick_line(
    input: String,
    n: usize,
    entries: usize,
    states: fn(&mut Random, usize) -> Vec<(Chain, Run)>,
) -> Line {
    let states = move |random: &mut Random| states(random, n);
    let mut losses = Losses::default();
    let ticked = move |calls: &Calls, (chain, run): &(Chain, Run)| {
        losses.count = entries as u32;
        calls.recording_tick(chain, run, &mut losses)
    };
    line("recording tick", input, SHORT, 0, states, ticked)
}
