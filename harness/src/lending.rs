//! What the tests lend to operations, what these make beside what the reference makes, and which answers came up.

use std::collections::BTreeMap;
use std::fmt::Debug;

use crate::random::Random;
use crate::{ffi, reference, Answer};

/// A slice lent to an operation, with entries before and behind it that are none of the operation's business.
#[derive(Clone, Debug, PartialEq)]
pub struct Lent<T> {
    entries: Vec<T>,
}

impl<T: Copy + Debug + PartialEq> Lent<T> {
    const MARGIN: usize = 9;

    /// A lent slice of this length; `fill` gives so many entries.
    pub fn new(length: usize, mut fill: impl FnMut(usize) -> Vec<T>) -> Lent<T> {
        Lent { entries: fill(length + 2 * Self::MARGIN) }
    }

    pub fn slice(&mut self) -> &mut [T] {
        let end = self.entries.len() - Self::MARGIN;
        &mut self.entries[Self::MARGIN..end]
    }
}

/// The length of the new file of a model of n lines and d levels, and so of the buffer that it needs.
pub fn file_length(n: usize, d: usize) -> usize {
    16 + d + 2 * n + 8 * n * d
}

/// The length of the page of n lines, and so of the buffer that it needs.
pub fn page_length(n: usize) -> usize {
    41 * (n + 1)
}

/// Makes something in a buffer of this length, by the engine and by the reference, and compares all they leave. `of` is what it is made of.
pub fn made_both(
    random: &mut Random,
    of: impl Debug,
    length: usize,
    by_engine: impl FnOnce(&mut [u8]) -> Answer,
    by_reference: impl FnOnce(&mut [u8]) -> Answer,
) -> Answer {
    let mut buffer = Lent::new(length, |count| random.bytes(count));
    let mut expected = buffer.clone();
    let answer = by_engine(buffer.slice());
    assert_eq!(answer, by_reference(expected.slice()), "{length} {of:?}");
    assert_eq!(buffer, expected, "{length} {of:?}");
    answer
}

/// Makes the page so.
pub fn page_both(random: &mut Random, file: &[u8], length: usize) -> Answer {
    page_beside(random, file, length, |buffer| reference::page(file, buffer))
}

/// The same where the reference's part is this.
pub fn page_beside(
    random: &mut Random,
    file: &[u8],
    length: usize,
    make: impl FnOnce(&mut [u8]) -> Answer,
) -> Answer {
    made_both(random, file, length, |buffer| ffi::page(file, buffer), make)
}

/// How often each number was answered.
#[derive(Default)]
pub struct Seen(BTreeMap<u64, usize>);

impl Seen {
    pub fn note(&mut self, answer: Answer) {
        assert_ne!(answer.number, 8, "8 is retired");
        *self.0.entry(answer.number).or_default() += 1;
    }

    pub fn assert_each(&self, numbers: &[u64], least: usize) {
        for number in numbers {
            let times = self.0.get(number).copied().unwrap_or(0);
            assert!(times >= least, "number {number} came up {times} times only");
        }
    }
}
