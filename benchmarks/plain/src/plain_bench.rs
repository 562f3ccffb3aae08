//! The job of `bench` as a plain, unverified program.
//!
//! `plain_bench` tests soundness at each step; `plain_bench --no-soundness-test` does not.

use plain::session::{Session, LINE_BYTES};
use std::io::{Read, Write};

/// At this line the program stops.
const FULL_LINE: u32 = 1_000_000;
/// Output is written when this much has gathered, and before each read.
const OUTPUT_BYTES: usize = 64 * 1024;

fn main() -> std::io::Result<()> {
    let tests_soundness = std::env::args().nth(1).as_deref() != Some("--no-soundness-test");
    let mut bench = Bench {
        session: Session::new(tests_soundness),
        number: 0,
        line: Vec::with_capacity(LINE_BYTES + 1),
        begun: false,
        output: Vec::with_capacity(2 * OUTPUT_BYTES),
    };
    let mut input = vec![0; OUTPUT_BYTES];
    let mut stdin = std::io::stdin().lock();
    loop {
        bench.flush()?;
        let length = stdin.read(&mut input)?;
        if length == 0 {
            bench.end_of_input();
            return bench.flush();
        }
        if !bench.take(&input[..length])? {
            return bench.flush();
        }
    }
}

struct Bench {
    session: Session,
    number: u32,
    /// The line read so far, at most one byte more than a line may have.
    line: Vec<u8>,
    /// Whether a byte of the next line has been seen.
    begun: bool,
    output: Vec<u8>,
}

impl Bench {
    /// Takes what was read; false at the line where the program stops.
    fn take(&mut self, mut input: &[u8]) -> std::io::Result<bool> {
        while !input.is_empty() {
            if !self.begun {
                self.begun = true;
                self.number += 1;
                if self.number == FULL_LINE {
                    self.output.extend_from_slice(b"full\n");
                    return Ok(false);
                }
            }
            match input.iter().position(|&byte| byte == b'\n') {
                None => {
                    self.keep(input);
                    return Ok(true);
                }
                Some(end) if self.line.is_empty() => {
                    let line = &input[..end];
                    self.session.answer(self.number, line, &mut self.output);
                    input = &input[end + 1..];
                }
                Some(end) => {
                    self.keep(&input[..end]);
                    self.session.answer(self.number, &self.line, &mut self.output);
                    self.line.clear();
                    input = &input[end + 1..];
                }
            }
            self.begun = false;
            if self.output.len() > OUTPUT_BYTES {
                self.flush()?;
            }
        }
        Ok(true)
    }

    /// Keeps as much of a line's part as is needed to know the line, or that it is too long.
    fn keep(&mut self, part: &[u8]) {
        let room = LINE_BYTES + 1 - self.line.len();
        self.line.extend_from_slice(&part[..part.len().min(room)]);
    }

    fn end_of_input(&mut self) {
        if self.begun {
            self.session.answer(self.number, &self.line, &mut self.output);
        }
    }

    fn flush(&mut self) -> std::io::Result<()> {
        std::io::stdout().lock().write_all(&self.output)?;
        std::io::stdout().lock().flush()?;
        self.output.clear();
        Ok(())
    }
}
