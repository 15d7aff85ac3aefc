//! The operations, with their refusals in document 01's order. Each has the signature of the engine's.

use super::forecast::{built_in_trees, over};
use super::model::{set_of, within, word_of, Model, Parts, Set};
use super::one_sided::by_stages;
use super::plain::rounds;
use super::restricted::restricted;
use super::tree::Tree;
use crate::Answer;

/// Whether a word has a bit of n or more.
fn strays(word: u64, n: usize) -> bool {
    (n..64).any(|line| word >> line & 1 == 1)
}

/// A file's model with the bounds as sets, or the first of refusals 1 to 7, 14 and 9.
pub fn judgeable(file: &[u8], a: u64, b: u64) -> Result<(Model, Set, Set), u64> {
    let model = Model::from_file(file)?;
    let n = model.lines();
    if strays(a, n) || strays(b, n) {
        return Err(9);
    }
    let (lower, upper) = (set_of(a, n), set_of(b, n));
    if !within(&lower, &upper) {
        return Err(9);
    }
    Ok((model, lower, upper))
}

pub fn read(
    file: &[u8],
    signs: &mut [u8],
    kinds: &mut [u8],
    thresholds: &mut [u8],
    words: &mut [u64],
) -> Answer {
    let model = match Model::from_file(file) {
        Ok(model) => model,
        Err(number) => return Answer::refused(number),
    };
    let (n, d) = (model.lines(), model.levels());
    if signs.len() < d || kinds.len() < n || thresholds.len() < n || words.len() < n * d {
        return Answer::refused(12);
    }
    let parts = model.parts();
    signs[..d].copy_from_slice(&parts.signs);
    kinds[..n].copy_from_slice(&parts.kinds);
    thresholds[..n].copy_from_slice(&parts.thresholds);
    words[..n * d].copy_from_slice(&parts.words);
    Answer { lines: n as u64, levels: d as u64, ..Answer::default() }
}

pub fn write(
    n: usize,
    d: usize,
    signs: &[u8],
    kinds: &[u8],
    thresholds: &[u8],
    words: &[u64],
    buffer: &mut [u8],
) -> Answer {
    if !(1..=64).contains(&n) {
        return Answer::refused(2);
    }
    if !(1..=8).contains(&d) {
        return Answer::refused(3);
    }
    if signs.len() != d || kinds.len() != n || thresholds.len() != n || words.len() != n * d {
        return Answer::refused(13);
    }
    let parts = Parts {
        signs: signs.to_vec(),
        kinds: kinds.to_vec(),
        thresholds: thresholds.to_vec(),
        words: words.to_vec(),
    };
    match Model::from_parts(n, d, &parts) {
        Ok(model) => put(&model.file(), buffer),
        Err(number) => Answer::refused(number),
    }
}

/// Puts bytes into a lent buffer, or refusal 12.
pub fn put(bytes: &[u8], buffer: &mut [u8]) -> Answer {
    if buffer.len() < bytes.len() {
        return Answer::refused(12);
    }
    buffer[..bytes.len()].copy_from_slice(bytes);
    Answer { length: bytes.len() as u64, ..Answer::default() }
}

/// The joined model of two files, or the first of refusals 1 to 7 and 14 of each, 15 and 2.
fn joinable(first: &[u8], second: &[u8]) -> Result<Model, u64> {
    let (first, second) = (Model::from_file(first)?, Model::from_file(second)?);
    if first.greatest != second.greatest {
        return Err(15);
    }
    if first.lines() + second.lines() > 64 {
        return Err(2);
    }
    Ok(first.joined(&second))
}

pub fn join(first: &[u8], second: &[u8], buffer: &mut [u8]) -> Answer {
    match joinable(first, second) {
        Ok(model) => put(&model.file(), buffer),
        Err(number) => Answer::refused(number),
    }
}

pub fn query(file: &[u8], arguments: &[u64]) -> Answer {
    let model = match Model::from_file(file) {
        Ok(model) => model,
        Err(number) => return Answer::refused(number),
    };
    let n = model.lines();
    if arguments.len() != model.levels() {
        return Answer::refused(13);
    }
    if arguments.iter().any(|&word| strays(word, n)) {
        return Answer::refused(9);
    }
    let sets: Vec<Set> = arguments.iter().map(|&word| set_of(word, n)).collect();
    Answer { set: word_of(&model.query(&sets)), ..Answer::default() }
}

pub fn plain(file: &[u8], a: u64, b: u64, ceiling: u64) -> Answer {
    match judgeable(file, a, b) {
        Err(number) => Answer::refused(number),
        Ok((model, lower, upper)) => match rounds(&model, &lower, &upper, ceiling) {
            None => Answer::refused(10),
            Some((set, count)) => Answer::judged(word_of(&set), count),
        },
    }
}

pub fn built(file: &[u8], a: u64, b: u64, ceiling: u64) -> Answer {
    match judgeable(file, a, b) {
        Err(number) => Answer::refused(number),
        Ok((model, lower, upper)) => match over(&model, ceiling) {
            Some(refusal) => refusal,
            None => {
                let [u, v] = built_in_trees(&model);
                let (set, count) = restricted(&model, &lower, &upper, &u, &v);
                Answer::judged(word_of(&set), count)
            }
        },
    }
}

pub fn lent(file: &[u8], a: u64, b: u64, u: &[u8], v: &[u8]) -> Answer {
    let (model, lower, upper) = match judgeable(file, a, b) {
        Ok(judgeable) => judgeable,
        Err(number) => return Answer::refused(number),
    };
    if u.len() > 1023 || v.len() > 1023 {
        return Answer::refused(11);
    }
    let trees = (Tree::from_gaps(model.least_levels(), u), Tree::from_gaps(model.greatest_levels(), v));
    let (Some(u), Some(v)) = trees else {
        return Answer::refused(11);
    };
    let (set, count) = restricted(&model, &lower, &upper, &u, &v);
    Answer::judged(word_of(&set), count)
}

/// In so many lent words. What it leaves in those for its variables is free.
pub fn one_sided(file: &[u8], v: &[u8], room: usize) -> Answer {
    let model = match Model::from_file(file) {
        Ok(model) => model,
        Err(number) => return Answer::refused(number),
    };
    if v.len() > 1023 {
        return Answer::refused(11);
    }
    let Some(tree) = Tree::from_gaps(model.greatest_levels(), v) else {
        return Answer::refused(11);
    };
    if (room as u64) < tree.leaf_count() + 1 {
        return Answer::refused(12);
    }
    let (set, count) = by_stages(&model, &tree);
    Answer::judged(word_of(&set), count)
}
