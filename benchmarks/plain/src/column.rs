//! Where a line without form went bad.

use crate::session::LINE_BYTES;

/// The words, and how many numbers follow each at most.
const FORMS: [(&[u8], usize); 6] =
    [(b"open", 2), (b"new", 2), (b"set", 2), (b"get", 2), (b"async", usize::MAX), (b"end", 1)];

/// The first byte with which the line stops being the start of one that has a form, or its length if only its end
/// came too early; 2,048 if it is too long.
pub fn column(line: &[u8]) -> usize {
    if line.len() > LINE_BYTES {
        return LINE_BYTES;
    }
    let mut at = line.iter().position(|&byte| byte == b'\t').unwrap_or(line.len());
    let Some(&(_, mut numbers)) = FORMS.iter().find(|(word, _)| *word == &line[..at]) else {
        return FORMS.iter().map(|(word, _)| shared(word, &line[..at])).max().unwrap_or(0);
    };
    // Here is a tab, or the line's end.
    while at < line.len() && numbers > 0 {
        let digits = number_bytes(&line[at + 1..]);
        at += 1 + digits;
        numbers -= 1;
        if digits == 0 || at < line.len() && line[at] != b'\t' {
            break;
        }
    }
    at
}

/// How many bytes both begin with.
fn shared(word: &[u8], line: &[u8]) -> usize {
    word.iter().zip(line).take_while(|(a, b)| a == b).count()
}

/// How many bytes at the front go on to be a number.
fn number_bytes(bytes: &[u8]) -> usize {
    let mut value = 0u32;
    for (i, byte) in bytes.iter().enumerate() {
        let digit = u32::from(byte.wrapping_sub(b'0'));
        let zero_leads = i > 0 && value == 0;
        if digit > 9 || zero_leads || value * 10 + digit > u32::from(u16::MAX) {
            return i;
        }
        value = value * 10 + digit;
    }
    bytes.len()
}
