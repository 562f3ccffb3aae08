//! The wrong columns that the checks must find. Without a twist the column stays what it is.

use crate::column::FORMS;
use crate::{Model, Twist, LINE_BYTES};

/// A line that is not well formed, and the column with which it went bad.
struct BadLine<'a> {
    line: &'a [u8],
    column: usize,
}

impl Model {
    /// The column, bent where a twist asks for it.
    pub(crate) fn bent_column(&self, line: &[u8], column: usize) -> usize {
        let bad = BadLine { line, column };
        match self.twist {
            Twist::ColumnFromOne => column + 1,
            Twist::ColumnOfField => bad.field(),
            Twist::ColumnOfLineEnd => line.len(),
            Twist::ColumnAtTabStops => bad.at_tab_stops(),
            Twist::ColumnRollsOver => column % 256,
            Twist::ColumnFromList => column - bad.list().unwrap_or(0),
            Twist::LimitCounts if bad.ends_early() && line.len() == LINE_BYTES => column - 1,
            Twist::LastByteUnseen if line.len() == LINE_BYTES && column == LINE_BYTES - 1 => column + 1,
            Twist::NumbersBeforeWord => bad.number_after_bad_word(self).unwrap_or(column),
            Twist::MissingBeforeBad if bad.misses_a_field() => line.len(),
            Twist::SurplusBeforeBad => bad.surplus_tab().unwrap_or(column),
            Twist::BadWordAtZero if bad.is_in_word() => 0,
            Twist::BadWordAtEnd if bad.is_in_word() => bad.field_end(),
            Twist::EarlyEndAtLastByte if bad.ends_early() => column.saturating_sub(1),
            Twist::ListTabIsSurplus if bad.ends_early() && bad.list() == Some(column) => column - 1,
            Twist::SurplusTabLate if bad.surplus_tab() == Some(column) => column + 1,
            Twist::EmptyNumberAtTab if bad.is_empty_number() => column - 1,
            Twist::LeadingZeroEarly if bad.has_leading_zero() => column - 1,
            Twist::LeadingZeroLate if bad.has_leading_zero() => column + 1,
            Twist::TooLargeAtStart if bad.is_too_large() => bad.field(),
            Twist::TooLargeAtEnd if bad.is_too_large() => bad.field_end(),
            Twist::TooLargeEarly if bad.is_too_large() => column - 1,
            Twist::TooLargeLate if bad.is_too_large() => column + 1,
            _ => column,
        }
    }
}

impl BadLine<'_> {
    /// The bad byte, if the line did not end too early.
    fn byte(&self) -> Option<u8> {
        self.line.get(self.column).copied()
    }

    fn ends_early(&self) -> bool {
        self.column == self.line.len()
    }

    /// Where the tabs of the line stand.
    fn tabs(&self) -> impl Iterator<Item = usize> + '_ {
        (0..self.line.len()).filter(|&place| self.line[place] == b'\t')
    }

    /// Where the field starts in which the line went bad; a tab belongs to the field before it.
    fn field(&self) -> usize {
        self.tabs().take_while(|&tab| tab < self.column).last().map_or(0, |tab| tab + 1)
    }

    /// Where that field ends.
    fn field_end(&self) -> usize {
        self.tabs().find(|&tab| tab >= self.column).unwrap_or(self.line.len())
    }

    fn is_in_word(&self) -> bool {
        self.field() == 0
    }

    fn is_empty_number(&self) -> bool {
        !self.is_in_word() && self.byte() == Some(b'\t') && self.column == self.field()
    }

    fn has_leading_zero(&self) -> bool {
        self.is_bad_digit() && &self.line[self.field()..self.column] == b"0"
    }

    /// A digit is bad in a number after a leading zero or when the number gets too large with it.
    fn is_too_large(&self) -> bool {
        self.is_bad_digit() && !self.has_leading_zero()
    }

    fn is_bad_digit(&self) -> bool {
        !self.is_in_word() && self.byte().is_some_and(|byte| byte.is_ascii_digit())
    }

    /// Where the list of an async starts, if the line came so far before it went bad.
    fn list(&self) -> Option<usize> {
        let third = self.tabs().nth(2).filter(|&tab| tab < self.column)?;
        self.line.starts_with(b"async").then_some(third + 1)
    }

    /// The most numbers the line's first word takes, if it is such a word.
    fn most_numbers(&self) -> Option<usize> {
        let word = self.line.split(|&byte| byte == b'\t').next()?;
        FORMS.iter().find(|(name, _)| *name == word).map(|&(_, most)| most)
    }

    /// The first tab after as many numbers as the line's word takes, good ones or bad ones.
    fn surplus_tab(&self) -> Option<usize> {
        self.tabs().nth(self.most_numbers()?)
    }

    /// Whether there are fewer fields than the line's word needs: two numbers, or one for `end`.
    fn misses_a_field(&self) -> bool {
        self.most_numbers().is_some_and(|most| self.tabs().count() < most.min(2))
    }

    /// The first bad byte among the numbers after a word that is bad itself.
    fn number_after_bad_word(&self, model: &Model) -> Option<usize> {
        let tab = self.tabs().next().filter(|_| self.is_in_word())?;
        let word = b"async";
        let with_good_word = [word, &self.line[tab..]].concat();
        let column = model.column(&with_good_word);
        (column < with_good_word.len()).then(|| column - word.len() + tab)
    }

    /// The column as an editor shows it, with a tab stop every 8 columns.
    fn at_tab_stops(&self) -> usize {
        let past = |at: usize, byte: &u8| if *byte == b'\t' { at / 8 * 8 + 8 } else { at + 1 };
        self.line[..self.column].iter().fold(0, past)
    }
}
