//! The share, and the bench page laid out by Rust's own formatting. The good lines are those that win the game.

use super::forecast::over;
use super::game::good_lines;
use super::met::met_lines;
use super::model::{Kind, Model};
use super::operations::put;
use crate::{Answer, PROGRAM_CEILING};

/// 1000 × good lines / n, rounded: of all whole numbers that a share can be, the nearest, and the even one of two.
pub fn share(good: usize, n: usize) -> u64 {
    let distance = |whole: usize| (1000 * good).abs_diff(whole * n);
    (0..=1000).min_by_key(|&whole| (distance(whole), whole % 2)).expect("there are some") as u64
}

/// The share of a model with these good lines. The lines that can be met from line 0 count, and no other.
pub fn share_of(model: &Model, good: &[bool]) -> u64 {
    let met = met_lines(model);
    let of_met: Vec<bool> = (0..met.len()).filter(|&i| met[i]).map(|i| good[i]).collect();
    share(of_met.iter().filter(|&&is_good| is_good).count(), of_met.len())
}

/// The page of a model between empty and full.
pub fn page_text(model: &Model) -> String {
    let (n, d) = (model.lines(), model.levels());
    let good = good_lines(model);
    let share = share_of(model, &good);
    let mut rows = vec![format!("lines {n:>2} levels {d:>1} share {share:>4}")];
    for i in 0..n {
        let kind = match model.kinds[i] {
            Kind::Any => "any",
            Kind::All => "all",
            Kind::AtLeast(_) => "vot",
        };
        let mark = if good[i] { '+' } else { '-' };
        rows.push(format!("{i:>2} {kind} {mark}"));
    }
    rows.iter().map(|row| format!("{row:<40}\n")).collect()
}

/// The page of a file, or the first of refusals 1 to 7, 14 and 10.
pub fn page_of(file: &[u8]) -> Result<String, Answer> {
    let model = Model::from_file(file).map_err(Answer::refused)?;
    match over(&model, PROGRAM_CEILING) {
        Some(refusal) => Err(refusal),
        None => Ok(page_text(&model)),
    }
}

pub fn page(file: &[u8], buffer: &mut [u8]) -> Answer {
    match page_of(file) {
        Ok(text) => put(text.as_bytes(), buffer),
        Err(refusal) => refusal,
    }
}
