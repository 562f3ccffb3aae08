//! The ways in which input reaches the program.

use cases::random::Random;
use std::io::Write;
use std::time::Duration;

#[derive(Clone, Copy, PartialEq, Eq, Debug)]
pub enum Feed {
    /// Through a pipe, in one write.
    Whole,
    /// Through a pipe, in pieces of many sizes.
    Pieces,
    /// From a file.
    File,
}

/// Writes the input in pieces, with a pause after some of them.
/// A program that stops reading is no trouble.
pub fn write_pieces(input: &[u8], pipe: &mut dyn Write) {
    let mut r = Random::new(input.len() as u64);
    let largest = if input.len() <= 400 { r.pick(&[1, 3, 7, 64]) } else { r.pick(&[64, 2047, 2048, 2049, 5000]) };
    let largest = largest.max(input.len() / 200);
    let mut rest = input;
    while !rest.is_empty() {
        let length = if r.once_in(2) { largest } else { 1 + r.below(largest) };
        let (piece, after) = rest.split_at(length.min(rest.len()));
        if pipe.write_all(piece).and_then(|()| pipe.flush()).is_err() {
            return;
        }
        rest = after;
        if r.once_in(4) {
            std::thread::sleep(Duration::from_micros(20));
        }
    }
}
