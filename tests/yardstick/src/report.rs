//! The report on a chain file.

use crate::analysis::{analysed, Analysis};
use crate::chain::{Refusal, MAX_QUEUES};
use crate::file::{read, room, LengthAnswer};

/// The first line.
const HEAD: &[u8] = b"queue,x,y,minimum,by,capacity,margin\n";

/// The most bytes of a number and the byte behind it.
const COLUMN: usize = 10 + 1;

/// The most digits of a queue's number.
pub const QUEUE_DIGITS: usize = 2;

/// The most bytes of a queue's line: its number and a comma, the other columns that the first line
/// names, and a minus sign.
const QUEUE_LINE: usize = QUEUE_DIGITS + 1 + COLUMN * commas(HEAD) + 1;

/// The most bytes of the last line: a word with its comma, and two numbers.
const BUSY_LINE: usize = 5 + 2 * COLUMN;

/// Bytes that every report has room in.
pub const LONGEST_REPORT: usize = HEAD.len() + QUEUE_LINE * MAX_QUEUES + BUSY_LINE;

/// How many commas a text has.
const fn commas(text: &[u8]) -> usize {
    let (mut at, mut count) = (0, 0);
    while at < text.len() {
        count += (text[at] == b',') as usize;
        at += 1;
    }
    count
}

/// A text that is being written.
struct Text {
    bytes: [u8; LONGEST_REPORT],
    length: usize,
}

/// The report on a file at the start of `out`, after checks 1 to 7 and 10.
pub fn report(file: &[u8], out: &mut [u8]) -> LengthAnswer {
    LengthAnswer::from(reported(file, out))
}

/// Writes the report on a file, and gives its length.
fn reported(file: &[u8], out: &mut [u8]) -> Result<usize, Refusal> {
    let read = read(file);
    if read.number != 0 {
        return Err(Refusal {
            number: read.number,
            place: read.place,
        });
    }
    let text = text_of(&analysed(&read.chain)?);
    let text = &text.bytes[..text.length];
    room(out, text.len())?.copy_from_slice(text);
    Ok(text.len())
}

/// The text of an analysis.
fn text_of(analysis: &Analysis) -> Text {
    let mut text = Text::new();
    text.put(HEAD);
    for (i, queue) in analysis.queues[..analysis.n as usize].iter().enumerate() {
        text.put_number(i as u32, b',');
        text.put_number(queue.x, b',');
        text.put_number(queue.y, b',');
        text.put_number(queue.minimum, b',');
        text.put_number(queue.by, b',');
        text.put_number(queue.capacity, b',');
        if queue.margin < 0 {
            text.put(b"-");
        }
        text.put_number(queue.margin.unsigned_abs(), b'\n');
    }
    text.put(b"busy,");
    text.put_number(analysis.busy, b',');
    text.put_number(analysis.cycle, b'\n');
    text
}

impl Text {
    /// A text without a byte.
    fn new() -> Self {
        Text {
            bytes: [0; LONGEST_REPORT],
            length: 0,
        }
    }

    /// Writes some bytes.
    fn put(&mut self, bytes: &[u8]) {
        self.bytes[self.length..][..bytes.len()].copy_from_slice(bytes);
        self.length += bytes.len();
    }

    /// Writes a number in decimal and a byte behind it.
    fn put_number(&mut self, mut number: u32, behind: u8) {
        let digits = number.checked_ilog10().unwrap_or(0) as usize + 1;
        let place = &mut self.bytes[self.length..=self.length + digits];
        place[digits] = behind;
        for digit in place[..digits].iter_mut().rev() {
            *digit = b'0' + (number % 10) as u8;
            number /= 10;
        }
        self.length += digits + 1;
    }
}
