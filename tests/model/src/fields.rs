//! The form of a line: fields parted by tabs, a word and numbers.

use crate::{Model, Step, Twist};

/// What a well-formed line asks for.
#[derive(Clone, PartialEq, Eq, Debug)]
pub(crate) enum Record {
    Open { tasks: u16, promises: u16 },
    Step(Step),
}

impl Model {
    /// Whether the line has one of the forms, its length aside.
    pub fn is_well_formed(&self, line: &[u8]) -> bool {
        self.record(line).is_some()
    }

    /// What the line asks for, or nothing if it has no such form.
    pub(crate) fn record(&self, line: &[u8]) -> Option<Record> {
        let line = self.trimmed(line);
        let parts = |&byte: &u8| byte == b'\t' || byte == b' ' && self.is(Twist::BlanksPartFields);
        let mut fields = line.split(parts);
        let word = fields.next()?;
        let numbers: Vec<u16> = fields.map(|field| self.number(field)).collect::<Option<_>>()?;
        let lower = word.to_ascii_lowercase();
        let word = if self.is(Twist::CapitalsTaken) { &lower } else { word };
        let numbers = match word {
            b"async" => &numbers[..],
            _ if self.is(Twist::ExtraFieldTaken) => &numbers[..numbers.len().min(if word == b"end" { 1 } else { 2 })],
            _ => &numbers[..],
        };
        match (word, numbers) {
            (b"open", &[tasks, promises]) => Some(Record::Open { tasks, promises }),
            (b"new", &[t, p]) => Some(Record::Step(Step::New { t, p })),
            (b"set", &[t, p]) => Some(Record::Step(Step::Set { t, p })),
            (b"get", &[t, p]) => Some(Record::Step(Step::Get { t, p })),
            (b"async", &[_, _]) if self.is(Twist::AsyncNeedsEntry) => None,
            (b"async", [t, c, list @ ..]) => Some(Record::Step(Step::Async { t: *t, c: *c, list: list.to_vec() })),
            (b"end", &[t]) => Some(Record::Step(Step::End { t })),
            _ => None,
        }
    }

    fn trimmed<'a>(&self, line: &'a [u8]) -> &'a [u8] {
        match line {
            [line @ .., b'\t'] if self.is(Twist::TrailingTabTaken) => line,
            [line @ .., b'\r'] if self.is(Twist::CarriageReturnTaken) => line,
            _ => line,
        }
    }

    /// 1 to 5 digits, no leading zero but in 0 itself, at most 65535.
    pub(crate) fn number(&self, field: &[u8]) -> Option<u16> {
        let field = match field {
            [b'+', digits @ ..] if self.is(Twist::PlusTaken) => digits,
            [] if self.is(Twist::EmptyNumberIsZero) => b"0",
            _ => field,
        };
        let most_digits = if self.is(Twist::NumbersRollOver) { 9 } else { 5 };
        let well_formed = (1..=most_digits).contains(&field.len())
            && field.iter().all(u8::is_ascii_digit)
            && (field[0] != b'0' || field.len() == 1 || self.is(Twist::LeadingZerosTaken));
        if !well_formed {
            return None;
        }
        let value = field.iter().fold(0u32, |value, digit| value * 10 + u32::from(digit - b'0'));
        match value {
            65535 if self.is(Twist::Refuses65535) => None,
            0..=65535 => Some(value as u16),
            65536 if self.is(Twist::Takes65536) => Some(65535),
            _ if self.is(Twist::NumbersRollOver) => Some(value as u16),
            _ => None,
        }
    }
}
