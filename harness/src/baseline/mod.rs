//! The four routes, the bench page and joining in safe Rust over the same bytes as the engine, with the same checks. The benchmark
//! compares their speed with the engine's. They prove nothing and are no reference.
//!
//! - `whole`: a whole query at each leaf, and the recursion of document 01.
//! - `by_levels`: the engine's own algorithm for three of the routes.
//! - `one_sided`: the engine's own algorithm for the one-sided route.
//! - `page`: the bench page.
//! - `join`: the joined file.

pub mod by_levels;
pub mod join;
pub mod one_sided;
pub mod page;
pub mod whole;

use crate::Answer;

const MAX_LINES: usize = 64;
const MAX_LEVELS: usize = 8;
const MAX_GAPS: usize = 1023;
const SIGNS_AT: usize = 16;
const ALL: u8 = 1;
const VOTE: u8 = 2;

/// The leaves of the built-in trees, by height and lines, in a table as the engine has them.
static LEAVES: [[u64; MAX_LINES + 1]; MAX_LEVELS + 1] = leaf_table();

const fn leaf_table() -> [[u64; MAX_LINES + 1]; MAX_LEVELS + 1] {
    let mut leaves = [[1; MAX_LINES + 1]; MAX_LEVELS + 1];
    let mut h = 1;
    while h <= MAX_LEVELS {
        leaves[h][0] = 0;
        let mut n = 1;
        while n <= MAX_LINES {
            leaves[h][n] = leaves[h][n / 2] + leaves[h - 1][n] + leaves[h][(n - 1) / 2];
            n += 1;
        }
        h += 1;
    }
    leaves
}

/// A checked file with its two counts.
#[derive(Clone, Copy)]
struct Model<'a> {
    file: &'a [u8],
    lines: usize,
    levels: usize,
    /// The bytes of a line among the kinds: its kind and its threshold, in an old file its kind alone.
    record: usize,
}

/// A set, and the queries made on the way to it.
struct Found {
    set: u64,
    count: u64,
}

fn u16_at(file: &[u8], at: usize) -> usize {
    u16::from_le_bytes(file[at..at + 2].try_into().expect("two bytes")) as usize
}

fn u32_at(file: &[u8], at: usize) -> usize {
    u32::from_le_bytes(file[at..at + 4].try_into().expect("four bytes")) as usize
}

fn u64_at(file: &[u8], at: usize) -> u64 {
    u64::from_le_bytes(file[at..at + 8].try_into().expect("eight bytes"))
}

fn full_set(n: usize) -> u64 {
    if n == 64 {
        u64::MAX
    } else {
        (1 << n) - 1
    }
}

impl<'a> Model<'a> {
    /// Refusals 1 to 7 and 14.
    fn check(file: &'a [u8]) -> Result<Model<'a>, u64> {
        if file.len() < SIGNS_AT {
            return Err(1);
        }
        let (lines, levels) = (u16_at(file, 0), u16_at(file, 2));
        if lines == 0 || lines > MAX_LINES {
            return Err(2);
        }
        if levels == 0 || levels > MAX_LEVELS {
            return Err(3);
        }
        let record = if u32_at(file, 12) == SIGNS_AT + levels + lines { 1 } else { 2 };
        let model = Model { file, lines, levels, record };
        let offsets = [SIGNS_AT, model.kinds_at(), model.words_at()];
        if [u32_at(file, 4), u32_at(file, 8), u32_at(file, 12)] != offsets {
            return Err(4);
        }
        if file.len() != model.words_at() + 8 * lines * levels {
            return Err(5);
        }
        let largest_kind = if record == 1 { ALL } else { VOTE };
        let over = |i: usize| model.kind(i) > largest_kind;
        if model.signs().iter().any(|&sign| sign > 1) || (0..lines).any(over) {
            return Err(6);
        }
        let word = |at: usize| u64_at(file, model.words_at() + 8 * at);
        if (0..lines * levels).any(|at| word(at) & !full_set(lines) != 0) {
            return Err(7);
        }
        let operands = |i: usize| (0..levels).map(|level| word(levels * i + level).count_ones()).sum::<u32>();
        let misfits = |i: usize| match model.threshold(i) as u32 {
            0 => model.kind(i) == VOTE,
            t => model.kind(i) != VOTE || t > operands(i),
        };
        if (0..lines).any(misfits) {
            return Err(14);
        }
        Ok(model)
    }

    /// Refusals 1 to 7, 14 and 9.
    fn admit(file: &'a [u8], a: u64, b: u64) -> Result<Model<'a>, u64> {
        let model = Model::check(file)?;
        if (a | b) & !full_set(model.lines) != 0 || a & !b != 0 {
            return Err(9);
        }
        Ok(model)
    }

    fn kinds_at(self) -> usize {
        SIGNS_AT + self.levels
    }

    fn words_at(self) -> usize {
        self.kinds_at() + self.record * self.lines
    }

    fn kind(self, i: usize) -> u8 {
        self.file[self.kinds_at() + self.record * i]
    }

    /// How many operands a vote needs; 0 in other lines.
    fn threshold(self, i: usize) -> u8 {
        if self.record == 1 {
            0
        } else {
            self.file[self.kinds_at() + 2 * i + 1]
        }
    }

    fn signs(self) -> &'a [u8] {
        &self.file[SIGNS_AT..self.kinds_at()]
    }

    fn is_greatest(self, level: usize) -> bool {
        self.file[SIGNS_AT + level] == 1
    }

    fn least_levels(self) -> usize {
        (0..self.levels).filter(|&level| !self.is_greatest(level)).count()
    }

    /// The leaves of both built-in trees, multiplied.
    fn forecast(self) -> u64 {
        let least = self.least_levels();
        LEAVES[least][self.lines] * LEAVES[self.levels - least][self.lines]
    }
}

/// The gaps of a tree with its height.
#[derive(Clone, Copy)]
struct Lent<'a> {
    height: usize,
    gaps: &'a [u8],
}

impl<'a> Lent<'a> {
    /// The two trees, of the heights that the model asks for. Refusal 11.
    fn of(m: Model, u: &'a [u8], v: &'a [u8]) -> Result<(Lent<'a>, Lent<'a>), u64> {
        let least = m.least_levels();
        let (u, v) = (Lent { height: least, gaps: u }, Lent { height: m.levels - least, gaps: v });
        if u.is_bad() || v.is_bad() {
            return Err(11);
        }
        Ok((u, v))
    }

    /// The one tree of the one-sided route, with room for its variables in the words. Refusals 11, then 12.
    fn one_of(m: Model, v: &'a [u8], words: &[u64]) -> Result<Lent<'a>, u64> {
        let v = Lent { height: m.levels - m.least_levels(), gaps: v };
        if v.is_bad() {
            return Err(11);
        }
        if words.len() < v.gaps.len() + 2 {
            return Err(12);
        }
        Ok(v)
    }

    fn is_bad(self) -> bool {
        self.gaps.len() > MAX_GAPS || self.gaps.iter().any(|&gap| gap == 0 || gap as usize > self.height)
    }

    /// The first child of the root, and the tree of the others if there are any.
    fn split(self) -> (Lent<'a>, Option<Lent<'a>>) {
        let cut = self.gaps.iter().position(|&gap| gap as usize == self.height);
        let end = cut.unwrap_or(self.gaps.len());
        let first = Lent { height: self.height - 1, gaps: &self.gaps[..end] };
        (first, cut.map(|cut| Lent { height: self.height, gaps: &self.gaps[cut + 1..] }))
    }
}

fn answer(found: Result<Found, u64>) -> Answer {
    match found {
        Ok(found) => Answer::judged(found.set, found.count),
        Err(number) => Answer::refused(number),
    }
}

/// The judgement of an admitted model by built-in trees. Refusal 10 where its forecast is over the ceiling.
fn answer_under(ceiling: u64, admitted: Result<Model, u64>, judge: impl FnOnce(Model) -> Found) -> Answer {
    match admitted.map(|m| (m, m.forecast())) {
        Ok((_, forecast)) if forecast > ceiling => Answer::over(forecast),
        Ok((m, _)) => answer(Ok(judge(m))),
        Err(number) => Answer::refused(number),
    }
}
