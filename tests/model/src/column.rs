//! Where a line went bad: the first byte with which it stops being the start of any well-formed line.

use crate::{Model, Twist, LINE_BYTES};

/// Every first word, with the most numbers that may come after it. Each takes at least one.
pub(crate) const FORMS: [(&[u8], usize); 6] =
    [(b"open", 2), (b"new", 2), (b"set", 2), (b"get", 2), (b"async", usize::MAX), (b"end", 1)];

impl Model {
    /// The column of a line that is not well formed and not too long: the least c such that its first
    /// c + 1 bytes are no start of a well-formed line, or its length if only the end came too early.
    pub fn column(&self, line: &[u8]) -> usize {
        let places: Vec<usize> = (0..line.len()).collect();
        // A start's own starts are starts too, so the places up to which all is well come first.
        places.partition_point(|&c| self.is_start(&line[..=c]))
    }

    /// Whether some well-formed line, of whatever length, starts with these bytes.
    pub fn is_start(&self, bytes: &[u8]) -> bool {
        let mut fields = bytes.split(|&byte| byte == b'\t');
        let word = fields.next().unwrap_or_default();
        let numbers: Vec<&[u8]> = fields.collect();
        match numbers.split_last() {
            None => FORMS.iter().any(|(name, _)| name.starts_with(word)),
            Some((last, complete)) => {
                FORMS.iter().any(|&(name, most)| name == word && numbers.len() <= most)
                    && complete.iter().all(|field| self.number(field).is_some())
                    && self.is_start_of_number(last)
            }
        }
    }

    /// A number cut short is a smaller number, or nothing at all.
    fn is_start_of_number(&self, field: &[u8]) -> bool {
        field.is_empty() || self.number(field).is_some()
    }

    /// The column that refusal 14 tells of a line, which may be too long.
    pub(crate) fn told_column(&self, line: &[u8], too_long: bool) -> usize {
        if too_long {
            self.long_column(line)
        } else {
            self.bent_column(line, self.column(line))
        }
    }

    /// A line that is too long gives column 2,048, whatever it holds.
    fn long_column(&self, line: &[u8]) -> usize {
        match self.twist {
            Twist::LongTellsBadByte => self.column(&line[..LINE_BYTES]),
            Twist::LongTellsLength => line.len(),
            Twist::LongTellsLastByte => LINE_BYTES - 1,
            _ => LINE_BYTES,
        }
    }
}
