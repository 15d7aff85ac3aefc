//! Joining over words: the first file's as they are, the second's shifted, as the engine does it.

use super::{u64_at, Model, MAX_LINES, SIGNS_AT};
use crate::Answer;

/// Puts a model's kinds, thresholds and words into the sections of a joined file that are its own, each selection moved up by so many
/// lines.
fn put_lines(m: Model, up: usize, records: &mut [u8], words: &mut [u8]) {
    for (i, record) in records.chunks_exact_mut(2).enumerate() {
        record.copy_from_slice(&[m.kind(i), m.threshold(i)]);
    }
    let own = m.file[m.words_at()..].chunks_exact(8);
    for (word, own) in words.chunks_exact_mut(8).zip(own) {
        word.copy_from_slice(&(u64_at(own, 0) << up).to_le_bytes());
    }
}

/// The length of the joined file.
fn put_joined(first: &[u8], second: &[u8], buffer: &mut [u8]) -> Result<usize, u64> {
    let (first, second) = (Model::check(first)?, Model::check(second)?);
    if first.signs() != second.signs() {
        return Err(15);
    }
    let (lines, levels) = (first.lines + second.lines, first.levels);
    if lines > MAX_LINES {
        return Err(2);
    }
    let kinds_at = SIGNS_AT + levels;
    let words_at = kinds_at + 2 * lines;
    let length = words_at + 8 * lines * levels;
    if buffer.len() < length {
        return Err(12);
    }
    buffer[0..2].copy_from_slice(&(lines as u16).to_le_bytes());
    buffer[2..4].copy_from_slice(&(levels as u16).to_le_bytes());
    for (place, offset) in [(4, SIGNS_AT), (8, kinds_at), (12, words_at)] {
        buffer[place..place + 4].copy_from_slice(&(offset as u32).to_le_bytes());
    }
    buffer[SIGNS_AT..kinds_at].copy_from_slice(first.signs());
    let (records, words) = buffer[kinds_at..length].split_at_mut(2 * lines);
    let (first_records, second_records) = records.split_at_mut(2 * first.lines);
    let (first_words, second_words) = words.split_at_mut(8 * first.lines * levels);
    put_lines(first, 0, first_records, first_words);
    put_lines(second, first.lines, second_records, second_words);
    Ok(length)
}

pub fn join(first: &[u8], second: &[u8], buffer: &mut [u8]) -> Answer {
    match put_joined(first, second, buffer) {
        Ok(length) => Answer { length: length as u64, ..Answer::default() },
        Err(number) => Answer::refused(number),
    }
}
