//! Words lent with guards on both sides, so that a stray write is seen.

const GUARD: u16 = 0xA5C3;
const GUARD_WORDS: usize = 8;

/// A copy of some words, with guards around it or lent just as long as it is.
pub struct Guarded {
    words: Box<[u16]>,
    guard: usize,
}

impl Guarded {
    pub fn new(words: &[u16], with_guards: bool) -> Guarded {
        let guard = if with_guards { GUARD_WORDS } else { 0 };
        let mut all = Vec::with_capacity(words.len() + 2 * guard);
        all.resize(guard, GUARD);
        all.extend_from_slice(words);
        all.resize(words.len() + 2 * guard, GUARD);
        Guarded { words: all.into_boxed_slice(), guard }
    }

    pub fn lend(&mut self) -> &mut [u16] {
        let end = self.words.len() - self.guard;
        &mut self.words[self.guard..end]
    }

    pub fn guards_kept(&self) -> bool {
        let end = self.words.len() - self.guard;
        self.words[..self.guard].iter().chain(&self.words[end..]).all(|&word| word == GUARD)
    }
}
