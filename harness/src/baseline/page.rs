//! The bench page over the judgement of `by_levels`: items put one behind the other, as the engine puts them, and the share of the lines
//! that a search over words meets.

use super::{by_levels, full_set, u64_at, Model, MAX_LINES};
use crate::{Answer, PROGRAM_CEILING};
use std::cmp::Ordering;

const ROW_PLACES: usize = 40;

/// Puts a text at a place, and gives the place behind it.
fn put(out: &mut [u8], at: usize, text: &[u8]) -> usize {
    let end = at + text.len();
    out[at..end].copy_from_slice(text);
    end
}

fn put_blanks(out: &mut [u8], at: usize, count: usize) -> usize {
    out[at..at + count].fill(b' ');
    at + count
}

fn put_right(out: &mut [u8], at: usize, places: usize, x: u64) -> usize {
    let (mut digits, mut rest) = (1, x);
    while rest > 9 {
        rest /= 10;
        digits += 1;
    }
    let first = put_blanks(out, at, places - digits);
    rest = x;
    for digit in out[first..first + digits].iter_mut().rev() {
        *digit = b'0' + (rest % 10) as u8;
        rest /= 10;
    }
    at + places
}

fn end_row(out: &mut [u8], start: usize, at: usize) -> usize {
    let end = put_blanks(out, at, start + ROW_PLACES - at);
    put(out, end, b"\n")
}

/// 1000 × good / n, a half to the even neighbour.
fn share(good: u64, n: u64) -> u64 {
    let low = 1000 * good / n;
    match (2 * (1000 * good % n)).cmp(&n) {
        Ordering::Less => low,
        Ordering::Equal => low + low % 2,
        Ordering::Greater => low + 1,
    }
}

/// The lines that can be met from line 0: each is followed once, the lowest first.
fn met(m: Model) -> u64 {
    // The operands of each line, at whatever level.
    let mut next = [0; MAX_LINES];
    for (next, line) in next.iter_mut().zip(m.file[m.words_at()..].chunks_exact(8 * m.levels)) {
        *next = line.chunks_exact(8).fold(0, |lines, word| lines | u64_at(word, 0));
    }
    let all = full_set(m.lines);
    let (mut found, mut followed) = (1_u64, 0);
    while followed != found {
        let i = (found ^ followed).trailing_zeros() as usize;
        followed |= 1 << i;
        found |= next[i] & all;
    }
    found
}

/// The same of a file that is not refused.
pub fn met_lines(file: &[u8]) -> Result<u64, u64> {
    Model::check(file).map(met)
}

pub fn page(file: &[u8], buffer: &mut [u8]) -> Answer {
    let m = match Model::check(file) {
        Ok(m) => m,
        Err(number) => return Answer::refused(number),
    };
    let n = m.lines;
    let judged = by_levels::built(file, 0, full_set(n), PROGRAM_CEILING);
    if judged.number != 0 {
        return judged;
    }
    let set = judged.set;
    if buffer.len() < (ROW_PLACES + 1) * (n + 1) {
        return Answer::refused(12);
    }
    let met = met(m);
    let share = share((set & met).count_ones() as u64, met.count_ones() as u64);
    let mut at = put(buffer, 0, b"lines ");
    at = put_right(buffer, at, 2, n as u64);
    at = put(buffer, at, b" levels ");
    at = put_right(buffer, at, 1, m.levels as u64);
    at = put(buffer, at, b" share ");
    at = put_right(buffer, at, 4, share);
    let mut next = end_row(buffer, 0, at);
    for i in 0..n {
        at = put_right(buffer, next, 2, i as u64);
        at = put(buffer, at, [b" any ", b" all ", b" vot "][m.kind(i) as usize]);
        at = put(buffer, at, if set >> i & 1 == 1 { b"+" } else { b"-" });
        next = end_row(buffer, next, at);
    }
    Answer { length: next as u64, ..Answer::default() }
}
