//! Sweeps of traces: through every ring length, byte value, number, line length and way to go bad, and up to `full`.

use crate::blamed_sweeps::blamed_traces;
use crate::column_sweeps::column_traces;
use crate::long_lines::{line_of_length, Flaw};
use crate::random::Random;
use crate::repeat_sweeps::repeat_trace;
use crate::trace_writer::TraceWriter;
use crate::traces::chain_trace;
use model::{Step, LINE_BYTES};

/// Traces that go through every ring length, byte value, number, line length and way to go bad in order.
pub fn sweep_traces() -> Vec<(&'static str, Vec<u8>)> {
    let mut r = Random::new(2);
    let mut traces = vec![("empty", vec![]), ("one LF", b"\n".to_vec()), ("one byte", b"x".to_vec())];
    for length in 1..=64 {
        traces.push(("ring of each length", chain_trace(&mut r, length, length, length).bytes));
        traces.push(("ring of each length", chain_trace(&mut r, 64, 256, length).bytes));
    }
    traces.push(("longest answers", longest_answers()));
    traces.push(("repeats in lists", repeat_trace()));
    traces.push(("every byte", every_byte()));
    traces.extend(every_number().map(|bytes| ("every number", bytes)));
    for length in (LINE_BYTES - 8..=LINE_BYTES + 8).chain([4095, 4096, 4097, 65535, 65536, 65537, 200_000]) {
        for flaw in [Flaw::Nothing, Flaw::Anywhere] {
            let mut trace = TraceWriter::opened(3, 3);
            trace.line(&line_of_length(&mut r, 0, 1, length, flaw));
            trace.blanks("new 0 0");
            trace.line(&line_of_length(&mut r, 0, 1, length, flaw));
            traces.push(("every length", trace.bytes.clone()));
            trace.bytes.pop();
            traces.push(("every length, no LF", trace.bytes));
        }
    }
    traces.extend(column_traces());
    traces.extend(blamed_traces());
    traces
}

/// All promises omitted at once with all other tasks made ready, and before that as many by a set.
fn longest_answers() -> Vec<u8> {
    let mut trace = TraceWriter::opened(64, 256);
    for p in 0..256 {
        trace.step(&Step::New { t: 0, p });
    }
    for t in 1..64 {
        trace.step(&Step::Async { t: 0, c: t, list: vec![] });
        trace.step(&Step::Get { t, p: 255 });
    }
    trace.step(&Step::Set { t: 0, p: 255 });
    for t in 1..64 {
        trace.step(&Step::Get { t, p: 191 + t });
    }
    trace.step(&Step::End { t: 0 });
    trace.bytes
}

/// Every byte value alone, before, within and after a well-formed line.
fn every_byte() -> Vec<u8> {
    let mut bytes = b"open\t3\t3\nnew\t0\t1\n".to_vec();
    for byte in 0..=255u8 {
        let line = b"get\t0\t1";
        bytes.extend_from_slice(&[byte, b'\n']);
        for place in 0..=line.len() {
            bytes.extend_from_slice(&line[..place]);
            bytes.push(byte);
            bytes.extend_from_slice(&line[place..]);
            bytes.push(b'\n');
            if place < line.len() {
                bytes.extend_from_slice(&line[..place]);
                bytes.push(byte);
                bytes.extend_from_slice(&line[place + 1..]);
                bytes.push(b'\n');
            }
        }
    }
    bytes
}

/// Every number from 0 to past 65535 in one place of a line, and with a leading zero now and then.
fn every_number() -> impl Iterator<Item = Vec<u8>> {
    let places = ["get 0 ", "end ", "async 0 1 ", "async 0 ", "open 2 ", "open "];
    places.into_iter().map(|start| {
        let mut text = if start.starts_with("open") { String::new() } else { "open 2 3\nnew 0 1\n".to_string() };
        let rest = if start == "open " { " 3" } else { "" };
        // Opens go down, so that all but the last few are refused.
        let down = start.starts_with("open");
        for n in 0..=66_000u32 {
            let n = if down { 66_000 - n } else { n };
            text += &format!("{start}{n}{rest}\n");
            if n % 97 == 0 {
                text += &format!("{start}0{n}{rest}\n");
            }
        }
        text.replace(' ', "\t").into_bytes()
    })
}

/// Traces of about a million lines: just below `full`, at it and past it.
pub fn full_traces() -> impl Iterator<Item = (&'static str, Vec<u8>)> {
    let lines = |count: usize| {
        let mut bytes = b"open\t2\t2\nnew\t0\t0\nset\t0\t0\n".to_vec();
        for number in 3..count {
            bytes.extend_from_slice(if number % 1000 == 0 { b"get\t0\t0\n" } else { b"\n" });
        }
        bytes
    };
    let last = |mut bytes: Vec<u8>, end: &[u8]| {
        bytes.extend_from_slice(end);
        bytes
    };
    [
        ("999,999", 999_999, &b""[..]),
        ("1,000,000", 1_000_000, b""),
        ("999,999 without LF", 999_998, b"get\t0\t0"),
        ("1,000,000 without LF", 999_999, b"x"),
        ("1,000,001", 1_000_001, b""),
    ]
    .into_iter()
    .map(move |(name, count, end)| (name, last(lines(count), end)))
}
