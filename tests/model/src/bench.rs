//! The program `bench` as a function from its input to its output.

use crate::{Model, Session, Twist, LINE_REPORT_WORDS, MOST_PROMISES, MOST_TASKS};

/// The longest line, without its LF.
pub const LINE_BYTES: usize = 2048;
/// At this line the program stops.
pub const BENCH_LINES: u32 = 1_000_000;

impl Model {
    pub fn bench(&self, input: &[u8]) -> Vec<u8> {
        let mut session = Session::Unopened;
        let mut tasks = [0; MOST_TASKS];
        let mut promises = [0; MOST_PROMISES];
        let mut report = [0; LINE_REPORT_WORDS];
        let mut answer_line = [0; 2048];
        let mut output = Vec::new();
        let mut number = 0;
        let mut rest = self.read_part(input);
        let full_line = BENCH_LINES + self.slip(Twist::FullLate) as u32 - self.slip(Twist::FullEarly) as u32;

        while !rest.is_empty() {
            number += 1;
            if number >= full_line {
                output.extend_from_slice(self.full());
                return output;
            }
            let (line, after) = self.first_line(rest);
            rest = after;
            if line.is_empty() && self.is(Twist::EmptyLineSkipped) {
                number -= 1;
                continue;
            }
            let number = number.min(BENCH_LINES - 1);
            let length = self
                .serving(rest.is_empty() && !input.ends_with(b"\n"))
                .line(line, number, &mut session, &mut tasks, &mut promises, &mut report, &mut answer_line)
                .expect("everything lent to the line entry is of the right size");
            output.extend_from_slice(&answer_line[..length]);
            if self.is(Twist::SessionForgotten) {
                session = Session::Unopened;
            }
        }
        if number + 1 == full_line && self.is(Twist::FullWithoutLine) {
            output.extend_from_slice(self.full());
        }
        if input.ends_with(b"\n") && self.is(Twist::EmptyLastAnswered) {
            output.extend_from_slice(format!("{}\trefused\t14\t0\n", number + 1).as_bytes());
        }
        output
    }

    /// The model that serves a line, which may be a last one without LF.
    fn serving(&self, last_without_lf: bool) -> Model {
        match self.twist {
            Twist::LongLastTellsBadByte if last_without_lf => Model::twisted(Twist::LongTellsBadByte),
            _ => *self,
        }
    }

    fn full(&self) -> &'static [u8] {
        match self.twist {
            Twist::FullNumbered => b"1000000\tfull\n",
            _ => b"full\n",
        }
    }

    /// The part of the input that is read at all.
    fn read_part<'a>(&self, input: &'a [u8]) -> &'a [u8] {
        match input.iter().rposition(|&byte| byte == b'\n') {
            Some(end) if self.is(Twist::LastLineDropped) => &input[..=end],
            None if self.is(Twist::LastLineDropped) => b"",
            _ => input,
        }
    }

    /// The first line of the input, without its LF, and what comes after it.
    fn first_line<'a>(&self, input: &'a [u8]) -> (&'a [u8], &'a [u8]) {
        match input.iter().position(|&byte| byte == b'\n') {
            Some(end) if end > LINE_BYTES && self.is(Twist::LongLineInPieces) => input.split_at(LINE_BYTES),
            Some(end) => (&input[..end], &input[end + 1..]),
            None => (input, b""),
        }
    }
}
