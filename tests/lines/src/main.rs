//! The program `bench` against the model, byte by byte.
//!
//! REGISTRY_BENCH names the program.
//!
//! `lines [--seed S] [--traces N]`   all sweeps, N random traces, and what needs a pipe held open
//! `lines --seconds N [--seed S]`    random traces for that long, with a progress line
//! `lines --trace SEED`              one random trace, by the seed that a difference names
//! `lines --small`                   few traces, under valgrind

mod blocks;
mod feed;
mod held_open;
mod program;

use cases::answer_names::{blamed_names, BLAMED_NAMES};
use cases::options::{number_after, present};
use cases::progress::Progress;
use cases::random::case_seed;
use cases::shrink_bytes::shrink_bytes;
use cases::tally::Tally;
use cases::trace_sweeps::{full_traces, sweep_traces};
use cases::traces::random_trace;
use feed::Feed;
use model::{Model, LINE_BYTES};
use program::Program;
use std::process::exit;

const FIXED_SEED: u64 = 1;
const USUAL_TRACES: u64 = 1_500;
const SMALL_TRACES: u64 = 3;
const SHRINK_TRIES: usize = 1_500;
/// A swept trace of more bytes than this is fed in one way only.
const LARGE_TRACE: usize = 150_000;
/// Every first word an answer can have, and every refusal a line can get:
/// with sound tables from the start, refusal 2 is never among them.
const ANSWERS: [&str; 10] = ["opened", "made", "set", "value", "blamed", "waits", "cycle", "started", "ended", "full"];
const REFUSALS: [u16; 15] = [1, 3, 4, 5, 6, 7, 8, 9, 10, 11, 12, 13, 14, 15, 17];
/// The columns of refusal 14 that must be seen, by where they lie.
const COLUMNS: [&str; 5] = ["column 0", "column to 15", "column to 255", "column to 2047", "column 2048"];

struct Check {
    program: Program,
    tally: Tally,
    traces: u64,
}

fn main() {
    let small = present("--small");
    let seed = number_after("--seed").unwrap_or(FIXED_SEED);
    let expected = ANSWERS.iter().map(|word| word.to_string());
    let expected = expected.chain(REFUSALS.iter().map(|number| format!("refused {number:02}")));
    let expected = expected.chain(COLUMNS.iter().chain(&BLAMED_NAMES).map(|name| name.to_string()));
    let mut check = Check { program: Program::from_environment(small), tally: Tally::expecting(expected), traces: 0 };

    if let Some(seed) = number_after("--trace") {
        check.random(seed);
        println!("lines: no difference in trace {seed}");
        return;
    }
    if let Some(seconds) = number_after("--seconds") {
        let mut progress = Progress::start("lines");
        for index in 0.. {
            check.random(case_seed(seed, index));
            if progress.over(seconds) {
                break;
            }
            progress.tell(|| format!("{} traces, seed {seed}, no difference", index + 1));
        }
        return check.finish(true);
    }
    for (index, (name, trace)) in sweep_traces().iter().enumerate() {
        let feeds: &[Feed] = match small {
            true if index % 80 == 5 => &[Feed::Whole],
            true => &[],
            false if trace.len() > LARGE_TRACE => &[Feed::Whole],
            false => &[Feed::Whole, Feed::Pieces, Feed::File],
        };
        for &feed in feeds {
            check.compare(&format!("sweep {index} ({name})"), trace, feed);
        }
    }
    for (name, trace) in blocks::traces() {
        for &feed in if small { &[][..] } else { &[Feed::Whole, Feed::Pieces, Feed::File][..] } {
            check.compare(&format!("blocks ({name})"), &trace, feed);
        }
    }
    for index in 0..if small { SMALL_TRACES } else { number_after("--traces").unwrap_or(USUAL_TRACES) } {
        check.random(case_seed(seed, index));
    }
    if !small {
        check.held_open();
        for (name, trace) in full_traces() {
            check.compare(&format!("{name} lines"), &trace, Feed::Whole);
        }
    }
    check.finish(small);
}

impl Check {
    fn random(&mut self, seed: u64) {
        let (family, trace) = random_trace(seed);
        let feed = [Feed::Whole, Feed::Pieces, Feed::File, Feed::Pieces][seed as usize % 4];
        self.compare(&format!("trace {seed} ({family}); again with: lines --trace {seed}"), &trace, feed);
    }

    fn compare(&mut self, place: &str, trace: &[u8], feed: Feed) {
        self.traces += 1;
        let expected = Model::PAPER.bench(trace);
        self.count(&expected);
        if self.program.run(trace, feed) != Ok(expected) {
            self.show(place, trace, feed);
        }
    }

    fn count(&mut self, output: &[u8]) {
        for line in output.split(|&byte| byte == b'\n').filter(|line| !line.is_empty()) {
            let mut fields = std::str::from_utf8(line).expect("an answer is text").split('\t').skip(1);
            match (fields.next(), fields.next()) {
                (Some("refused"), Some(number)) => {
                    self.tally.add(&format!("refused {number:0>2}"), 1);
                    let mut value = || fields.next().and_then(|field| field.parse().ok());
                    match number {
                        "14" => self.tally.add(column_name(value()), 1),
                        "17" => blamed_values(value(), value()).iter().for_each(|name| self.tally.add(name, 1)),
                        _ => {}
                    }
                }
                (Some(word), _) => self.tally.add(word, 1),
                (None, _) => self.tally.add("full", 1),
            }
        }
    }

    /// Shows the difference on the smallest trace that has one, and ends.
    fn show(&self, place: &str, trace: &[u8], feed: Feed) -> ! {
        println!("lines: DIFFERENCE (expected by the model / found in the program), fed {feed:?}, in {place}");
        let quiet = self.program.quietly();
        let differs = |trace: &[u8]| quiet.run(trace, feed) != Ok(Model::PAPER.bench(trace));
        let small = shrink_bytes(trace, SHRINK_TRIES, &mut |trace| differs(trace));
        println!("  input ({} bytes): {}", small.len(), shown(&small, 0));
        let expected = Model::PAPER.bench(&small);
        match self.program.run(&small, feed) {
            Err(problem) => println!("  {problem}"),
            Ok(found) => {
                let same = expected.iter().zip(&found).take_while(|(l, r)| l == r).count();
                println!("  same for the first {same} bytes of output, then");
                println!("  expected: {}", shown(&expected, same));
                println!("  found:    {}", shown(&found, same));
            }
        }
        exit(1)
    }

    fn held_open(&self) {
        for (name, outcome) in held_open::check_all(&self.program) {
            if let Err(problem) = outcome {
                println!("lines: DIFFERENCE with the input held open, {name}: {problem}");
                exit(1);
            }
        }
    }

    fn finish(&self, may_miss_some: bool) {
        println!("lines: {} traces, no difference; seen: {}", self.traces, self.tally.line());
        let unseen = self.tally.unseen();
        if !unseen.is_empty() && !may_miss_some {
            println!("lines: FAILED, never seen: {}", unseen.join(", "));
            exit(1);
        }
    }
}

/// How the tally calls a column of refusal 14.
fn column_name(column: Option<usize>) -> &'static str {
    match column {
        Some(0) => COLUMNS[0],
        Some(1..=15) => COLUMNS[1],
        Some(16..=255) => COLUMNS[2],
        Some(256..LINE_BYTES) => COLUMNS[3],
        Some(LINE_BYTES) => COLUMNS[4],
        _ => panic!("the model told column {column:?}"),
    }
}

/// How the tally calls a 17 with these values: the task, or the place and the task.
fn blamed_values(first: Option<usize>, second: Option<usize>) -> [&'static str; 2] {
    match (first, second) {
        (Some(task), None) => blamed_names(None, task as u16),
        (Some(place), Some(task)) => blamed_names(Some(place as u16), task as u16),
        _ => panic!("the model told 17 without a task"),
    }
}

/// The bytes from a little before `place` on, as many as are worth reading.
fn shown(bytes: &[u8], place: usize) -> String {
    let start = place.saturating_sub(40);
    let end = bytes.len().min(start + 600);
    let text = bytes[start..end].escape_ascii();
    let (before, after) = (if start > 0 { ".." } else { "" }, if end < bytes.len() { ".." } else { "" });
    format!("{before}{text}{after}")
}
