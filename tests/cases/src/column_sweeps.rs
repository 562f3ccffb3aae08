//! Sweeps of lines that go bad at every place and in every way.

use crate::long_lines::{line_of_length, Flaw};
use crate::random::Random;
use model::LINE_BYTES;

/// Well-formed lines of every kind, which the sweeps change.
const GOOD_LINES: [&str; 7] =
    ["open 64 256", "new 0 1", "set 10 65535", "get 6553 0", "async 0 1", "async 2 31 0 65535 12345 7", "end 65535"];
const WORDS: [&str; 6] = ["open", "new", "set", "get", "async", "end"];

pub fn column_traces() -> Vec<(&'static str, Vec<u8>)> {
    let mut traces = vec![("mixed words", mixed_words()), ("every cut", every_cut())];
    traces.extend(GOOD_LINES.iter().map(|line| ("every change", every_change(line))));
    traces.push(("too large numbers", too_large_numbers()));
    for length in LINE_BYTES - 2..=LINE_BYTES + 2 {
        let trace = bad_round_limit(length);
        traces.push(("bad round the limit", [&trace[..], b"\n"].concat()));
        traces.push(("bad round the limit, no LF", trace));
    }
    traces
}

fn tabs(text: &str) -> Vec<u8> {
    text.replace(' ', "\t").into_bytes()
}

/// A trace of these lines, in a session that is open.
fn trace_of(lines: impl IntoIterator<Item = Vec<u8>>) -> Vec<u8> {
    let mut trace = b"open\t3\t3\n".to_vec();
    for line in lines {
        trace.extend_from_slice(&line);
        trace.push(b'\n');
    }
    trace
}

/// The start of each word with the end of each, alone and before numbers.
fn mixed_words() -> Vec<u8> {
    let mut lines = Vec::new();
    for (first, second) in WORDS.iter().flat_map(|first| WORDS.iter().map(move |second| (first, second))) {
        for (start, end) in (0..=first.len()).flat_map(|start| (0..=second.len()).map(move |end| (start, end))) {
            let word = format!("{}{}", &first[..start], &second[end..]);
            lines.push(tabs(&format!("{word} 0 1")));
            lines.push(word.into_bytes());
        }
    }
    trace_of(lines)
}

/// Every good line cut at every place, the cut line with a tab, a digit or a letter after it,
/// and the line with the byte at that place, or all up to it, taken out.
fn every_cut() -> Vec<u8> {
    let mut lines = Vec::new();
    for line in GOOD_LINES.map(tabs) {
        for place in 0..=line.len() {
            let (start, end) = line.split_at(place);
            lines.extend(["", "\t", "0", "6", "t"].map(|more| [start, more.as_bytes()].concat()));
            lines.push(end.to_vec());
            lines.push([start, end.get(1..).unwrap_or_default()].concat());
        }
    }
    trace_of(lines)
}

/// The line with every byte but LF put in at every place, and put in place of every byte.
fn every_change(line: &str) -> Vec<u8> {
    let line = tabs(line);
    let mut lines = Vec::new();
    for byte in (0..=255).filter(|&byte| byte != b'\n') {
        for place in 0..=line.len() {
            let (start, end) = line.split_at(place);
            lines.push([start, &[byte], end].concat());
            if let [_, end @ ..] = end {
                lines.push([start, &[byte], end].concat());
            }
        }
    }
    trace_of(lines)
}

/// Numbers of five and more digits in every place where a number may stand.
fn too_large_numbers() -> Vec<u8> {
    let numbers = (65_530..65_545).chain((65_550..100_000).step_by(1_511));
    let longer = (655_300..655_400).step_by(7).chain((100_000..9_999_999_999u64).step_by(400_000_007));
    let mut lines = Vec::new();
    for number in numbers.chain(longer) {
        for (start, end) in
            [("open ", " 1"), ("new 0 ", ""), ("async ", " 1 2"), ("async 0 1 65535 ", " 2"), ("end ", "")]
        {
            lines.push(tabs(&format!("{start}{number}{end}")));
            lines.push(tabs(&format!("{start}0{number}{end}")));
        }
    }
    trace_of(lines)
}

/// Lines of this length that are bad at the first, the last and other places, or unfinished; the last has no LF.
fn bad_round_limit(length: usize) -> Vec<u8> {
    let mut r = Random::new(length as u64);
    let mut lines = vec![line_of_length(&mut r, 0, 1, length, Flaw::Unfinished)];
    for place in [0, 1, 4, 5, 6, 7, 9, 255, 256, 1000, length - 3, length - 2, length - 1] {
        for byte in *b"\t x0" {
            let mut line = line_of_length(&mut r, 0, 1, length, Flaw::Nothing);
            line[place] = byte;
            lines.push(line);
        }
    }
    lines.push(line_of_length(&mut r, 0, 1, length, Flaw::Early));
    let mut trace = trace_of(lines);
    trace.pop();
    trace
}
