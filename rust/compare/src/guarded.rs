//! Lent memory inside a larger row of random values, so that a store before or after it is seen.

use crate::random::Random;
use berylskip::Branch;

const GUARDS_BEFORE: usize = 9;
const GUARDS_AFTER: usize = 71;

/// Two sets of lent memory are equal when their guards are too.
#[derive(Clone, PartialEq, Eq)]
pub struct Guarded<T> {
    all: Vec<T>,
    length: usize,
}

/// A value that lent memory can hold on entry.
pub trait Content: Copy + PartialEq + std::fmt::Debug {
    fn from_word(word: u64) -> Self;
}

impl Content for u64 {
    fn from_word(word: u64) -> u64 {
        word
    }
}

impl Content for u16 {
    fn from_word(word: u64) -> u16 {
        word as u16
    }
}

impl Content for u8 {
    fn from_word(word: u64) -> u8 {
        word as u8
    }
}

impl Content for Branch {
    fn from_word(word: u64) -> Branch {
        let [rule, place, start, middle, end, ..] = word.to_le_bytes();
        Branch {
            rule,
            place,
            start,
            middle,
            end,
        }
    }
}

impl<T: Content> Guarded<T> {
    /// Memory of a length with arbitrary contents: mostly random, sometimes all 0 or all ones.
    pub fn arbitrary(random: &mut Random, length: usize) -> Guarded<T> {
        let same = match random.below(8) {
            0 => Some(T::from_word(0)),
            1 => Some(T::from_word(u64::MAX)),
            _ => None,
        };
        let all = (0..GUARDS_BEFORE + length + GUARDS_AFTER)
            .map(|_| same.unwrap_or_else(|| T::from_word(random.word())))
            .collect();
        Guarded { all, length }.with_random_guards(random)
    }

    /// Memory that holds the values given.
    pub fn holding(random: &mut Random, values: &[T]) -> Guarded<T> {
        let mut all = vec![T::from_word(0); GUARDS_BEFORE];
        all.extend_from_slice(values);
        all.extend(vec![T::from_word(0); GUARDS_AFTER]);
        Guarded {
            all,
            length: values.len(),
        }
        .with_random_guards(random)
    }

    fn with_random_guards(mut self, random: &mut Random) -> Guarded<T> {
        let after = GUARDS_BEFORE + self.length;
        for place in (0..GUARDS_BEFORE).chain(after..self.all.len()) {
            self.all[place] = T::from_word(random.word());
        }
        self
    }

    pub fn lent(&mut self) -> &mut [T] {
        &mut self.all[GUARDS_BEFORE..GUARDS_BEFORE + self.length]
    }

    pub fn read(&self) -> &[T] {
        &self.all[GUARDS_BEFORE..GUARDS_BEFORE + self.length]
    }

    /// Where the first difference is, counted from the start of the lent part, and both values.
    pub fn difference(&self, expected: &Guarded<T>, name: &str) -> Option<String> {
        let place = (0..self.all.len()).find(|&place| self.all[place] != expected.all[place])?;
        let at = place as isize - GUARDS_BEFORE as isize;
        let (is, should) = (self.all[place], expected.all[place]);
        Some(format!(
            "{name}[{at}] of {} is {is:?}, expected {should:?}",
            self.length
        ))
    }
}
