//! Lines of a given length, most of them about as long as a line may be.

use crate::random::Random;

/// What is wrong with a line, its length aside.
#[derive(Clone, Copy, PartialEq, Eq, Debug)]
pub enum Flaw {
    Nothing,
    /// A byte somewhere.
    Anywhere,
    /// A byte of the first few.
    Early,
    /// The last byte or one just before it.
    Late,
    /// The line ends with a tab: all is well but for the end.
    Unfinished,
}

pub const FLAWS: [Flaw; 5] = [Flaw::Nothing, Flaw::Anywhere, Flaw::Early, Flaw::Late, Flaw::Unfinished];

/// How many bytes at either end of a line are its first few and its last few.
const FEW: usize = 12;

/// The least length such a line can have.
pub const LEAST_LENGTH: usize = 24;

/// An async line of exactly `length` bytes, which is well formed but for the flaw and maybe the length.
/// A flaw of one byte may come out well formed.
pub fn line_of_length(r: &mut Random, t: u16, c: u16, length: usize, flaw: Flaw) -> Vec<u8> {
    let place = match flaw {
        Flaw::Nothing => return good_line_of_length(r, t, c, length),
        Flaw::Unfinished => return [&good_line_of_length(r, t, c, length - 1)[..], b"\t"].concat(),
        Flaw::Anywhere => r.below(length),
        Flaw::Early => r.below(FEW),
        Flaw::Late => {
            let few = r.pick(&[1, 2, FEW]);
            length - 1 - r.below(few)
        }
    };
    let mut line = good_line_of_length(r, t, c, length);
    line[place] = r.pick(b"\t x\0");
    line
}

/// A well-formed async line of exactly `length` bytes, if the length allows it.
fn good_line_of_length(r: &mut Random, t: u16, c: u16, length: usize) -> Vec<u8> {
    let mut line = format!("async\t{t}\t{c}").into_bytes();
    while line.len() < length {
        let room = length - line.len();
        // A tab and one to five digits, with never a single byte left over.
        let digits = match room {
            0..=6 => room - 1,
            7 => 4,
            _ => 1 + r.below(5),
        };
        line.push(b'\t');
        for place in 0..digits {
            line.push(if place == 0 && digits > 1 { b'1' + r.below(5) as u8 } else { b'0' + r.below(6) as u8 });
        }
    }
    line
}
