//! The starts of well-formed lines, held to what the word means: bytes are a start if and only if
//! some line that begins with them passes the model's check of the form.
//!
//! That a start is one is shown by such a line. That something is no start can only be shown by trying
//! continuations. It is enough to try `endings`: if a well-formed line begins with the bytes, then so does
//! the one that goes on with what is left of its word, leaves a number that was begun as it is, and has 0
//! for every number that is still missing, of which there are two at most. This is so because a number cut
//! short is a number or nothing. `all_continuations` does without this argument where the bytes to choose
//! from are few: there, only the length of the continuations is taken from it. The bytes tried are short;
//! a list of many entries is met in `paper.rs`, where lines are as long as they may be.

use model::Model;
use std::collections::HashSet;

const PAPER: Model = Model::PAPER;
const WORDS: [&str; 6] = ["open", "new", "set", "get", "async", "end"];

/// Every end of every word, then the end of a number and the numbers still missing.
fn endings() -> Vec<Vec<u8>> {
    let tails: HashSet<&str> = WORDS.iter().flat_map(|word| (0..=word.len()).map(|cut| &word[cut..])).collect();
    let numbers = ["", "0", "\t0", "0\t0", "\t0\t0"];
    tails.iter().flat_map(|tail| numbers.map(|numbers| format!("{tail}{numbers}").into_bytes())).collect()
}

fn has_an_ending(bytes: &[u8], endings: &[Vec<u8>]) -> bool {
    endings.iter().any(|ending| PAPER.is_well_formed(&[bytes, ending].concat()))
}

/// Whether some continuation of at most `more` bytes out of the alphabet makes a well-formed line.
fn all_continuations(bytes: &mut Vec<u8>, alphabet: &[u8], more: usize) -> bool {
    if PAPER.is_well_formed(bytes) {
        return true;
    }
    more > 0
        && alphabet.iter().any(|&byte| {
            bytes.push(byte);
            let found = all_continuations(bytes, alphabet, more - 1);
            bytes.pop();
            found
        })
}

/// Shows `check` the bytes with every continuation of at most `more` bytes out of the alphabet.
fn for_each(bytes: &mut Vec<u8>, alphabet: &[u8], more: usize, check: &mut dyn FnMut(&[u8])) {
    check(bytes);
    if more > 0 {
        for &byte in alphabet {
            bytes.push(byte);
            for_each(bytes, alphabet, more - 1, check);
            bytes.pop();
        }
    }
}

fn agree(bytes: &[u8], is_start: bool) {
    assert_eq!(PAPER.is_start(bytes), is_start, "whether {} is a start", bytes.escape_ascii());
}

/// All strings of at most 6 digits. More need not be tried: no number has more than 5.
#[test]
fn digits() {
    let numbers = (0..=65_535).map(|number| number.to_string().into_bytes());
    let starts: HashSet<Vec<u8>> =
        numbers.flat_map(|digits| (0..=digits.len()).map(move |cut| digits[..cut].to_vec())).collect();
    for before in ["end\t", "new\t0\t", "async\t0\t1\t65535\t"] {
        for_each(&mut before.as_bytes().to_vec(), b"0123456789", 6, &mut |bytes| {
            agree(bytes, starts.contains(&bytes[before.len()..]));
        });
    }
}

/// All strings of at most 5 letters out of those of the words and one more.
#[test]
fn letters() {
    let endings = endings();
    for_each(&mut Vec::new(), b"openwstgaycdx", 4, &mut |bytes| agree(bytes, has_an_ending(bytes, &endings)));
    for_each(&mut Vec::new(), b"openwstgaycdx", 5, &mut |bytes| {
        agree(bytes, WORDS.iter().any(|word| word.as_bytes().starts_with(bytes)));
    });
}

/// All strings of at most two bytes of any value, alone and after some that are a start.
#[test]
fn any_two_bytes() {
    let endings = endings();
    let every_byte: Vec<u8> = (0..=255).collect();
    for before in ["", "asyn", "end", "get\t1", "async\t0\t1\t6553"] {
        for_each(&mut before.as_bytes().to_vec(), &every_byte, 2, &mut |bytes| {
            agree(bytes, has_an_ending(bytes, &endings));
        });
    }
}

/// After each word and its tab, all strings of at most 6 bytes out of a few. They need at most the 3 bytes
/// of a number, a tab and a number to end well, so 4 are more than enough to try.
#[test]
fn after_each_word() {
    for word in WORDS {
        for_each(&mut format!("{word}\t").into_bytes(), b"\t01x", 6, &mut |bytes| {
            agree(bytes, all_continuations(&mut bytes.to_vec(), b"\t01x", 4));
        });
    }
}

/// From the first byte on, all strings of at most 3 bytes out of those of `end` and `new`. They need at
/// most the 6 bytes after the first of `new`, and only bytes that are here.
#[test]
fn from_the_first_byte() {
    for_each(&mut Vec::new(), b"newd\t0", 3, &mut |bytes| {
        agree(bytes, all_continuations(&mut bytes.to_vec(), b"newd\t0", 6));
    });
}

/// The column, looked for from the first byte on and by endings alone, for each line with one byte changed or put in.
#[test]
fn columns() {
    let endings = endings();
    let searched = |line: &[u8]| {
        let bad = (0..line.len()).find(|&c| !has_an_ending(&line[..=c], &endings));
        bad.unwrap_or(line.len())
    };
    for line in ["open\t3\t4", "get\t0\t65535", "async\t0\t1\t10\t6553", "end\t7"] {
        for place in 0..line.len() {
            for byte in *b"\t 0169:/xnet\0\xff" {
                let (start, end) = line.as_bytes().split_at(place);
                for changed in [[start, &[byte], end].concat(), [start, &[byte], &end[1..]].concat()] {
                    assert_eq!(PAPER.column(&changed), searched(&changed), "{}", changed.escape_ascii());
                }
            }
        }
    }
}
