//! Inputs of lines without form.

use cases::random::Random;
use cases::trace_writer::{step_line, TraceWriter};
use model::Step;

const LINES: usize = 300_000;
/// Bytes that stand in no line, whatever the place.
const FOREIGN: [u8; 6] = *b" +z\r\0\xff";

/// Lines of up to 63 bytes, each of them any byte but LF.
pub fn random_bytes() -> Vec<u8> {
    let mut r = Random::new(5);
    formless(|line| {
        for _ in 0..r.below(64) {
            let byte = r.bits() as u8;
            line.push(if byte == b'\n' { b'\t' } else { byte });
        }
    })
}

/// Lines of every kind, each broken by a foreign byte at any place: in its word, at a tab, in a number, at its end.
pub fn broken_lines() -> Vec<u8> {
    let mut r = Random::new(6);
    formless(|line| {
        line.extend(step_line(&any_step(&mut r)));
        let place = r.below(line.len() + 1);
        let byte = r.pick(&FOREIGN);
        match line.get_mut(place) {
            Some(broken) => *broken = byte,
            None => line.push(byte),
        }
    })
}

/// An open session, and then as many lines as `push` makes.
fn formless(mut push: impl FnMut(&mut Vec<u8>)) -> Vec<u8> {
    let mut bytes = TraceWriter::opened(64, 256).bytes;
    let mut line = Vec::new();
    for _ in 0..LINES {
        line.clear();
        push(&mut line);
        bytes.extend_from_slice(&line);
        bytes.push(b'\n');
    }
    bytes
}

fn any_step(r: &mut Random) -> Step {
    let (t, p) = (r.below(64) as u16, r.below(256) as u16);
    match r.below(5) {
        0 => Step::New { t, p },
        1 => Step::Set { t, p },
        2 => Step::Get { t, p },
        3 => Step::Async { t, c: r.below(64) as u16, list: (0..r.below(32)).map(|_| r.below(256) as u16).collect() },
        _ => Step::End { t },
    }
}
