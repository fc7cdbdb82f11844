//! What the inputs on which analysis and report were compared have shown.

use crate::tally::{Line, Tally};
use compare::rates::{parts, rates, Rate, LIMIT};
use compare::steered::{FIRST_LARGE_X, LAST_X};
use compare::MAX_REPORT_LENGTH;
use std::ops::RangeInclusive;
use yardstick::{analyse, read, AnalysisAnswer, Chain, LengthAnswer, QueueSize, MAX_QUEUES};

/// What must be seen of rates that are not past their limit.
const RATES: [&str; 2] = ["y is 4294967295", "x is 4294967292"];

/// What must be seen of the rates of accepted chains; one with the largest x is overloaded.
const ACCEPTED_RATES: [&str; 2] = ["y is 4294967295", "x has ten digits"];

/// What must be seen of loads; a number is wide if it passes so many bits, and lost if the load
/// were accepted with numbers cut to them.
const LOADS: [&str; 8] = [
    "busy is the cycle",
    "busy is the cycle - 1",
    "busy is the cycle + 1",
    "busy wide 64",
    "busy lost 32",
    "busy lost 64",
    "parts lost 32",
    "parts lost 64",
];

/// What must be seen of margins.
const MARGINS: [&str; 4] = ["< 0", "= 0", "= 0 as B is 0", "> 0"];

/// The digits that naming counts must be seen with.
const COUNT_DIGITS: RangeInclusive<u32> = 1..=5;

/// The room that must be seen lent for a report.
const ROOMS: [&str; 7] = [
    "none",
    "a byte short",
    "as needed",
    "more",
    "one less than the longest",
    "the longest",
    "the longest or more",
];

/// What must be seen of the texts of reports.
const TEXTS: [&str; 2] = ["whole", "with a minus sign"];

/// What the chains are that a call answered with 0, 6 or 7.
#[derive(Default)]
struct Chains {
    accepted: Tally,
    past_x: Tally,
    past_y: Tally,
    rates: Tally<&'static str>,
    accepted_rates: Tally<&'static str>,
    loads: Tally<&'static str>,
    margins: Tally<&'static str>,
    count_digits: Tally,
}

impl Chains {
    /// Counts a chain by the analysis that it must have.
    fn count(&mut self, chain: &Chain, answer: &AnalysisAnswer) {
        match answer.number {
            0 => {
                self.count_accepted(chain, &answer.analysis.queues[..chain.n as usize]);
                self.count_passing(chain);
            }
            6 => self.count_past(answer.place, &rates(chain)),
            7 => self.count_passing(chain),
            _ => {}
        }
    }

    /// Counts n, margins, naming counts and rates of an accepted chain, given what the analysis says
    /// of its queues.
    fn count_accepted(&mut self, chain: &Chain, sizes: &[QueueSize]) {
        self.accepted.count(chain.n);
        for (queue, size) in chain.queues.iter().zip(sizes) {
            self.margins.count(margin(queue.capacity, size));
            self.count_digits.count(size.by.ilog10() + 1);
        }
        let rates = [
            sizes.iter().any(|size| size.y == u32::MAX),
            sizes.iter().any(|size| size.x >= 1_000_000_000),
        ];
        count_all(&mut self.accepted_rates, ACCEPTED_RATES, rates);
    }

    /// Counts why a chain is refused with 6 at a node: its rates end there.
    fn count_past(&mut self, place: u32, rates: &[Rate]) {
        let Some(last) = rates.last() else { return };
        if last.x > LIMIT {
            self.past_x.count(place);
        }
        if last.y > LIMIT {
            self.past_y.count(place);
        }
    }

    /// Counts the rates and the load of a chain that check 6 lets pass.
    fn count_passing(&mut self, chain: &Chain) {
        let rates = rates(chain);
        let at_limit = [
            rates.iter().any(|rate| rate.y == LIMIT),
            rates.iter().any(|rate| rate.x == LAST_X),
        ];
        count_all(&mut self.rates, RATES, at_limit);
        let cycle = rates.last().map_or(0, |last| u128::from(last.y));
        let parts = parts(&rates, &chain.work);
        let busy: u128 = parts.iter().sum();
        let cut = |number: u128, bits: u32| number % (1 << bits);
        let lost = |busy_cut: u128| busy > cycle && busy_cut <= cycle;
        let lost_parts = |bits| lost(parts.iter().map(|&part| cut(part, bits)).sum());
        let loads = [
            busy == cycle,
            busy + 1 == cycle,
            busy == cycle + 1,
            busy >> 64 > 0,
            lost(cut(busy, 32)),
            lost(cut(busy, 64)),
            lost_parts(32),
            lost_parts(64),
        ];
        count_all(&mut self.loads, LOADS, loads);
    }

    /// What was seen of a call's chains, and what was not though it must be.
    fn lines(&self, call: &str) -> Vec<Line> {
        let every = 1..=MAX_QUEUES as u32;
        let large_x = FIRST_LARGE_X as u32..=MAX_QUEUES as u32;
        let name = |kind: &str| format!("{call}, {kind}");
        vec![
            self.accepted
                .line(name("n of those accepted"), every.clone()),
            self.past_x.line(name("6 as x is past, node"), large_x),
            self.past_y.line(name("6 as y is past, node"), every),
            self.rates.line(name("rates not past"), RATES),
            self.accepted_rates
                .line(name("rates of those accepted"), ACCEPTED_RATES),
            self.loads.line(name("loads"), LOADS),
            self.margins.line(name("margins"), MARGINS),
            self.count_digits
                .line(name("digits of naming counts"), COUNT_DIGITS),
        ]
    }
}

/// The numbers that the analysis answered with, and the chains behind them.
#[derive(Default)]
pub struct Analyses {
    numbers: Tally,
    chains: Chains,
}

impl Analyses {
    /// Counts the answer that a chain must have.
    pub fn count(&mut self, chain: &Chain, answer: &AnalysisAnswer) {
        self.numbers.count(answer.number);
        self.chains.count(chain, answer);
    }

    /// How many chains passed checks 2, 4 and 5.
    pub fn valid(&self) -> u64 {
        [0, 6, 7]
            .map(|number| self.numbers.times(number))
            .iter()
            .sum()
    }

    /// What was seen, and what was not though it must be.
    pub fn lines(&self) -> Vec<Line> {
        let mut lines = vec![self.numbers.line("analyse", [0, 2, 4, 5, 6, 7])];
        lines.extend(self.chains.lines("analyse"));
        lines
    }
}

/// The numbers that the report answered with, the chains behind those whose room was enough, the
/// room that was lent for those not refused before 10, and the texts that were written.
#[derive(Default)]
pub struct Reports {
    numbers: Tally,
    chains: Chains,
    rooms: Tally<&'static str>,
    texts: Tally<&'static str>,
}

impl Reports {
    /// Counts the answer that a file must have, given what was lent as it must be then.
    pub fn count(&mut self, file: &[u8], out: &[u8], answer: &LengthAnswer) {
        self.numbers.count(answer.number);
        match answer.number {
            0 => {
                self.count_room(out.len(), answer.length as usize);
                self.count_text(&out[..answer.length as usize]);
                self.count_chain(file);
            }
            6 | 7 => self.count_chain(file),
            10 => self.count_room(out.len(), answer.place as usize),
            _ => {}
        }
    }

    /// Counts the chain of a file that the reader accepts.
    fn count_chain(&mut self, file: &[u8]) {
        let chain = read(file).chain;
        self.chains.count(&chain, &analyse(&chain));
    }

    /// Counts the room that was lent for a text of so many bytes.
    fn count_room(&mut self, room: usize, needed: usize) {
        let rooms = [
            room == 0,
            room + 1 == needed,
            room == needed,
            room > needed,
            room + 1 == MAX_REPORT_LENGTH,
            room == MAX_REPORT_LENGTH,
            room >= MAX_REPORT_LENGTH,
        ];
        count_all(&mut self.rooms, ROOMS, rooms);
    }

    /// Counts a text that was written.
    fn count_text(&mut self, text: &[u8]) {
        count_all(&mut self.texts, TEXTS, [true, text.contains(&b'-')]);
    }

    /// What was seen, and what was not though it must be.
    pub fn lines(&self) -> Vec<Line> {
        let mut lines = vec![self.numbers.line("report", [0, 1, 2, 3, 4, 5, 6, 7, 10])];
        lines.extend(self.chains.lines("report"));
        lines.push(self.rooms.line("report, room", ROOMS));
        lines.push(self.texts.line("report, texts", TEXTS));
        lines
    }
}

/// Counts those names that are marked.
pub fn count_all<const COUNT: usize>(
    tally: &mut Tally<&'static str>,
    names: [&'static str; COUNT],
    marks: [bool; COUNT],
) {
    for (name, mark) in names.into_iter().zip(marks) {
        if mark {
            tally.count(name);
        }
    }
}

/// What the margin of a queue with that capacity word shows.
fn margin(capacity: u32, size: &QueueSize) -> &'static str {
    match size.margin {
        0 if capacity == 0 => MARGINS[2],
        0 => MARGINS[1],
        less if less < 0 => MARGINS[0],
        _ => MARGINS[3],
    }
}
