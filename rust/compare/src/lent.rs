//! Lists as they are lent: each is the middle of a longer one, so that a write outside is seen. The
//! sentences are those on lent lists in "Refusal numbers" of document 01.

use second::random::Random;
use std::fmt::Debug;

/// Guard words before a lent list.
const BEFORE: usize = 64;

/// An entry of a lent list.
pub trait Word: Copy + PartialEq + Debug {
    /// Guard words after a lent list: as many as the longest answer has entries, so that even an
    /// entry that never looks at the length of its list stays inside.
    const AFTER: usize;

    /// Some word, made of bits.
    fn of(bits: u64) -> Self;
}

impl Word for u8 {
    const AFTER: usize = 12_288;
    fn of(bits: u64) -> u8 {
        bits as u8
    }
}

impl Word for u16 {
    const AFTER: usize = 1_024;
    fn of(bits: u64) -> u16 {
        bits as u16
    }
}

impl Word for u32 {
    const AFTER: usize = 1_024;
    fn of(bits: u64) -> u32 {
        bits as u32
    }
}

/// A lent list with its guards.
#[derive(Clone)]
pub struct Lent<T> {
    whole: Vec<T>,
    room: usize,
}

impl<T: Word> Lent<T> {
    /// A list of a length with a pattern in it and around it. The pattern is another one each
    /// time, so that no constant written by mistake goes unseen.
    pub fn filled(random: &mut Random, room: usize) -> Lent<T> {
        let salt = random.bits();
        let word = |place: usize| {
            T::of((place as u64).wrapping_add(salt).wrapping_mul(0x9e37_79b9_7f4a_7c15) >> 24)
        };
        Lent { whole: (0..BEFORE + room + T::AFTER).map(word).collect(), room }
    }

    /// A list with these entries, and the pattern around it.
    pub fn holding(random: &mut Random, entries: &[T]) -> Lent<T> {
        let mut lent = Lent::filled(random, entries.len());
        lent.list_mut().copy_from_slice(entries);
        lent
    }

    /// A list that is lent for reading alone, between copies of something that could go on from
    /// it: an entry that reads past the end would come to another answer.
    pub fn among(entries: &[T], more: &[T]) -> Lent<T> {
        let around = more.iter().copied().cycle();
        let before = around.clone().take(BEFORE);
        let after = around.take(BEFORE);
        let whole = before.chain(entries.iter().copied()).chain(after).collect();
        Lent { whole, room: entries.len() }
    }

    /// The list.
    pub fn list(&self) -> &[T] {
        &self.whole[BEFORE..BEFORE + self.room]
    }

    /// The list, to be lent.
    pub fn list_mut(&mut self) -> &mut [T] {
        &mut self.whole[BEFORE..BEFORE + self.room]
    }

    /// The first word around the list that is not what it was: its place, counted from the list's
    /// first entry, with the word then and now.
    pub fn stray(&self, before: &Lent<T>) -> Option<(isize, T, T)> {
        let around = (0..BEFORE).chain(BEFORE + self.room..self.whole.len());
        let mut pairs = around.map(|at| (at, before.whole[at], self.whole[at]));
        let (at, then, now) = pairs.find(|(_, then, now)| then != now)?;
        Some((at as isize - BEFORE as isize, then, now))
    }
}
