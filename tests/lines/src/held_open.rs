//! Answers to what has arrived are written before the next read blocks.

use crate::blocks;
use crate::program::{ended_well, Program};
use model::{Model, LINE_BYTES};
use std::io::{Read, Write};
use std::process::{Child, ChildStdin, Stdio};
use std::sync::mpsc::{self, Receiver, RecvTimeoutError};
use std::time::{Duration, Instant};

/// How long an answer may take.
const PATIENCE: Duration = Duration::from_secs(20);
/// How long to look whether something comes that should not.
const SILENCE: Duration = Duration::from_millis(150);

/// How many lines are awaited one by one at least, and how many bytes they have.
const AWAITED_LINES: usize = 70_000;
const AWAITED_BYTES: usize = 710_000;

/// A running program whose input stays open.
struct Held {
    child: Child,
    input: Option<ChildStdin>,
    output: Receiver<Vec<u8>>,
    unread: Vec<u8>,
}

impl Held {
    fn start(program: &Program) -> Held {
        let mut child = program.spawn(Stdio::piped());
        let input = child.stdin.take();
        let mut pipe = child.stdout.take().expect("the output is a pipe");
        let (sender, output) = mpsc::channel();
        std::thread::spawn(move || {
            let mut bytes = [0; 65536];
            while let Ok(length @ 1..) = pipe.read(&mut bytes) {
                if sender.send(bytes[..length].to_vec()).is_err() {
                    return;
                }
            }
        });
        Held { child, input, output, unread: Vec::new() }
    }

    fn write(&mut self, bytes: &[u8]) -> Result<(), String> {
        let input = self.input.as_mut().expect("the input is still open");
        input.write_all(bytes).and_then(|()| input.flush()).map_err(|error| format!("input not taken: {error}"))
    }

    /// The next bytes of output must be these, and must come while the input stays open.
    fn expect(&mut self, expected: &str) -> Result<(), String> {
        self.expect_bytes(expected.replace(' ', "\t").as_bytes())
    }

    fn expect_bytes(&mut self, expected: &[u8]) -> Result<(), String> {
        let start = Instant::now();
        while self.unread.len() < expected.len() {
            let left = PATIENCE.saturating_sub(start.elapsed());
            match self.output.recv_timeout(left) {
                Ok(bytes) => self.unread.extend(bytes),
                Err(_) => break,
            }
        }
        let length = expected.len().min(self.unread.len());
        let found: Vec<u8> = self.unread.drain(..length).collect();
        if found == expected {
            Ok(())
        } else {
            Err(format!("expected {}, found {}", expected.escape_ascii(), found.escape_ascii()))
        }
    }

    /// Nothing may come while the line is not complete.
    fn expect_silence(&mut self) -> Result<(), String> {
        match self.output.recv_timeout(SILENCE) {
            Err(RecvTimeoutError::Timeout) if self.unread.is_empty() => Ok(()),
            _ => Err("something was written, or the program ended, before the line was complete".to_string()),
        }
    }

    fn close_input(&mut self) {
        self.input = None;
    }

    /// The program must write nothing more and end well.
    fn expect_end(mut self) -> Result<(), String> {
        match self.output.recv_timeout(PATIENCE) {
            Err(RecvTimeoutError::Disconnected) if self.unread.is_empty() => {}
            Err(RecvTimeoutError::Timeout) => {
                let _ = self.child.kill();
                return Err("the program did not end".to_string());
            }
            _ => return Err("more was written".to_string()),
        }
        ended_well(self.child.wait().map_err(|error| error.to_string())?)
    }
}

/// Every check that needs the input held open, with its name.
pub fn check_all(program: &Program) -> Vec<(&'static str, Result<(), String>)> {
    vec![
        ("one line at a time", one_at_a_time(program)),
        ("lines with the start of the next", parts_of_lines(program)),
        ("bad lines in two parts", parts_of_bad_lines(program)),
        ("each answer awaited", awaited(program)),
        ("full at the first byte of the millionth line", full(program)),
    ]
}

fn one_at_a_time(program: &Program) -> Result<(), String> {
    let mut held = Held::start(program);
    for (line, answer) in [
        ("open 3 4", "1 opened"),
        ("new 0 0", "2 made"),
        ("new 0 1", "3 made"),
        ("async 0 1 1", "4 started"),
        ("get 1 0", "5 waits 1"),
        ("get 0 1", "6 cycle 2 0 1 1 0"),
        ("", "7 refused 14 0"),
        ("set 0 00", "8 refused 14 7"),
        ("set 0", "9 refused 14 5"),
        ("set 0 0", "10 set 1 1"),
        ("end 1", "11 ended 1 1 0"),
    ] {
        held.write(format!("{}\n", line.replace(' ', "\t")).as_bytes())?;
        held.expect(&format!("{answer}\n"))?;
    }
    held.write(&[b'x'; 5000])?;
    held.write(b"\n")?;
    held.expect("12 refused 14 2048\n")?;
    held.close_input();
    held.expect_end()
}

/// A partner who waits for each answer before the next line: the program reads once for each of them.
fn awaited(program: &Program) -> Result<(), String> {
    let trace = blocks::steps(AWAITED_BYTES);
    let answers = Model::PAPER.bench(&trace);
    let mut held = Held::start(program);
    let ends = |&byte: &u8| byte == b'\n';
    let mut lines = 0;
    for (line, answer) in trace.split_inclusive(ends).zip(answers.split_inclusive(ends)) {
        held.write(line)?;
        if !line.ends_with(b"\n") {
            held.close_input();
        }
        held.expect_bytes(answer).map_err(|problem| format!("after {lines} lines: {problem}"))?;
        lines += 1;
    }
    if lines < AWAITED_LINES {
        return Err(format!("only {lines} lines were sent"));
    }
    held.expect_end()
}

fn parts_of_lines(program: &Program) -> Result<(), String> {
    let mut held = Held::start(program);
    held.write(b"open\t2\t")?;
    held.expect_silence()?;
    held.write(b"2\nnew\t0\t0\nnew\t0\t1\nset\t0")?;
    held.expect("1 opened\n2 made\n3 made\n")?;
    held.expect_silence()?;
    held.write(b"\t1\n\n\nget\t0\t1")?;
    held.expect("4 set 0\n5 refused 14 0\n6 refused 14 0\n")?;
    held.close_input();
    held.expect("7 value\n")?;
    held.expect_end()
}

/// An async line of this length that ends with a tab: only its end comes too early.
fn unfinished(length: usize) -> Vec<u8> {
    let mut line = if length.is_multiple_of(2) { b"async\t0\t1".to_vec() } else { b"async\t0\t10".to_vec() };
    while line.len() < length - 1 {
        line.extend_from_slice(b"\t1");
    }
    line.push(b'\t');
    line
}

/// Lines that are bad already, or may still become good ones, get no answer before their end.
fn parts_of_bad_lines(program: &Program) -> Result<(), String> {
    let mut held = Held::start(program);
    for (first, then, answer) in [
        (b"newx".to_vec(), "\t0\t1\n", "1 refused 14 3\n"),
        (b"new\t0\t6553".to_vec(), "6\n", "2 refused 14 10\n"),
        (unfinished(LINE_BYTES - 1), "\n", "3 refused 14 2047\n"),
        (unfinished(LINE_BYTES - 1), "\t\n", "4 refused 14 2047\n"),
        (unfinished(LINE_BYTES), "\n", "5 refused 14 2048\n"),
        (unfinished(LINE_BYTES), "1\n", "6 refused 14 2048\n"),
        (vec![b'x'; LINE_BYTES], "\n", "7 refused 14 0\n"),
        (vec![b'x'; LINE_BYTES], "x\n", "8 refused 14 2048\n"),
    ] {
        held.write(&first)?;
        held.expect_silence()?;
        held.write(then.as_bytes())?;
        held.expect(answer)?;
    }
    held.close_input();
    held.expect_end()
}

fn full(program: &Program) -> Result<(), String> {
    let mut held = Held::start(program);
    let lines = 999_999;
    let block = vec![b'\n'; 9_999];
    for start in (0..lines).step_by(block.len()) {
        let end = (start + block.len()).min(lines);
        held.write(&block[..end - start])?;
        let answers: String = (start + 1..=end).map(|number| format!("{number} refused 14 0\n")).collect();
        held.expect(&answers)?;
    }
    held.expect_silence()?;
    held.write(b"e")?;
    held.expect("full\n")?;
    held.expect_end()
}
