//! The engine's own algorithm: what the outer arguments decide is carried from level to level, so that each argument is looked at
//! once, and only by the lines that are undecided and that the bounds leave open.

use super::{answer, answer_under, full_set, u64_at, Found, Lent, Model, ALL, MAX_LINES, VOTE};
use crate::Answer;

/// What the outer arguments decide: the query's set, if none of the undecided lines is decided any more.
#[derive(Clone, Copy)]
struct Pending {
    set: u64,
    undecided: u64,
}

/// How many set operands each line still needs that is not set without operands.
type Needs = [u8; MAX_LINES];

impl Pending {
    fn begin(m: Model) -> Pending {
        let set = (0..m.lines).rev().fold(0, |set, i| 2 * set + (m.kind(i) == ALL) as u64);
        Pending { set, undecided: full_set(m.lines) }
    }

    /// What the argument x of the level decides, of the lines in b that are not in a, and which lines then need less than before.
    fn decide(self, m: Model, needs: &Needs, level: usize, x: u64, a: u64, b: u64) -> (Pending, u64) {
        let asked = self.undecided & b & !a;
        let words = &m.file[m.words_at() + 8 * level..];
        let (hit, lowered) = reaching(words, 8 * m.levels, asked & !self.set, needs, x);
        let missed = selecting(words, 8 * m.levels, asked & self.set, !x);
        let decided = hit | missed;
        (Pending { set: self.set ^ decided, undecided: asked ^ decided }, lowered)
    }

    /// The same, and on to the level below. Where no line needs less than before, it is handed the same needs.
    fn descend<T>(
        self,
        m: Model,
        needs: &Needs,
        level: usize,
        x: u64,
        (a, b): (u64, u64),
        to_below: impl FnOnce(Pending, &Needs) -> T,
    ) -> T {
        let (decided, lowered) = self.decide(m, needs, level, x, a, b);
        if lowered == 0 {
            to_below(decided, needs)
        } else {
            to_below(decided, &needs_below(m, needs, level, x, lowered))
        }
    }
}

fn needs_at_first(m: Model) -> Needs {
    let mut needs = [1; MAX_LINES];
    for i in (0..m.lines).filter(|&i| m.kind(i) == VOTE) {
        needs[i] = m.threshold(i);
    }
    needs
}

/// What is still needed where x is the argument of the level; of each of the lowered lines it has some operands, but too few.
fn needs_below(m: Model, needs: &Needs, level: usize, x: u64, lowered: u64) -> Needs {
    let words = &m.file[m.words_at() + 8 * level..];
    let (mut below, mut rest) = (*needs, lowered);
    while rest != 0 {
        let i = rest.trailing_zeros() as usize;
        below[i] -= (u64_at(words, 8 * m.levels * i) & x).count_ones() as u8;
        rest &= rest - 1;
    }
    below
}

/// Those of some lines that have as many operands in x, at a level, as they need, and those that have some, but fewer.
fn reaching(words: &[u8], line: usize, lines: u64, needs: &Needs, x: u64) -> (u64, u64) {
    let (mut rest, mut found, mut lowered) = (lines, 0, 0);
    while rest != 0 {
        let i = rest.trailing_zeros() as usize;
        let others = rest & (rest - 1);
        let hit = u64_at(words, line * i) & x;
        if hit != 0 {
            if needs[i] <= 1 || hit.count_ones() >= needs[i] as u32 {
                found |= rest ^ others;
            } else {
                lowered |= rest ^ others;
            }
        }
        rest = others;
    }
    (found, lowered)
}

/// Those of some lines whose word selects a line of x.
fn selecting(words: &[u8], line: usize, lines: u64, x: u64) -> u64 {
    let (mut rest, mut found) = (lines, 0);
    while rest != 0 {
        let i = rest.trailing_zeros() as usize;
        let others = rest & (rest - 1);
        if u64_at(words, line * i) & x != 0 {
            found |= rest ^ others;
        }
        rest = others;
    }
    found
}

// ---- plain rounds ----

fn innermost_rounds(m: Model, a: u64, b: u64, w: Pending, needs: &Needs, left: u64) -> Option<(u64, u64)> {
    let mut x = if m.is_greatest(0) { b } else { a };
    let mut left = left;
    while left != 0 {
        let set = a | (b & w.decide(m, needs, 0, x, a, b).0.set);
        left -= 1;
        if set == x {
            return Some((set, left));
        }
        x = set;
    }
    None
}

fn plain_level(
    m: Model,
    a: u64,
    b: u64,
    k: usize,
    w: Pending,
    needs: &Needs,
    left: u64,
) -> Option<(u64, u64)> {
    let below = k - 1;
    if below == 0 {
        return innermost_rounds(m, a, b, w, needs, left);
    }
    let mut x = if m.is_greatest(below) { b } else { a };
    let mut left = left;
    loop {
        let (set, unused) =
            w.descend(m, needs, below, x, (a, b), |w, needs| plain_level(m, a, b, below, w, needs, left))?;
        left = unused;
        if set == x {
            return Some((set, left));
        }
        x = set;
    }
}

// ---- the innermost level ----

fn innermost_least(m: Model, w: Pending, needs: &Needs, a: u64, b: u64, leaves: usize) -> Found {
    let mut low = a;
    for _ in 0..leaves {
        low |= b & w.decide(m, needs, 0, low, low, b).0.set;
    }
    Found { set: low, count: leaves as u64 }
}

fn innermost_greatest(m: Model, w: Pending, needs: &Needs, a: u64, b: u64, leaves: usize) -> Found {
    let mut high = b;
    for _ in 0..leaves {
        high = a | (high & w.decide(m, needs, 0, high, a, high).0.set);
    }
    Found { set: high, count: leaves as u64 }
}

// ---- built-in trees: none is stored, a child is found by its place ----

fn child_lines(n: usize, i: usize) -> usize {
    let (mut lines, mut at) = (n, i);
    loop {
        let (first, second) = (lines / 2, (lines - 1) / 2);
        if at == first {
            return lines;
        }
        if at < first {
            lines = first;
        } else {
            (lines, at) = (second, at - first - 1);
        }
    }
}

fn built_least(
    m: Model,
    below: usize,
    w: Pending,
    needs: &Needs,
    a: u64,
    b: u64,
    p: usize,
    q: usize,
) -> Found {
    let (mut low, mut count) = (a, 0);
    for i in 0..p {
        let child = w.descend(m, needs, below, low, (low, b), |w, needs| {
            built_level(m, below, w, needs, low, b, child_lines(p, i), q)
        });
        (low, count) = (child.set, count + child.count);
    }
    Found { set: low, count }
}

fn built_greatest(
    m: Model,
    below: usize,
    w: Pending,
    needs: &Needs,
    a: u64,
    b: u64,
    p: usize,
    q: usize,
) -> Found {
    let (mut high, mut count) = (b, 0);
    for i in 0..q {
        let child = w.descend(m, needs, below, high, (a, high), |w, needs| {
            built_level(m, below, w, needs, a, high, p, child_lines(q, i))
        });
        (high, count) = (child.set, count + child.count);
    }
    Found { set: high, count }
}

fn built_level(m: Model, k: usize, w: Pending, needs: &Needs, a: u64, b: u64, p: usize, q: usize) -> Found {
    match (m.is_greatest(k - 1), k) {
        (true, 1) => innermost_greatest(m, w, needs, a, b, q),
        (true, _) => built_greatest(m, k - 1, w, needs, a, b, p, q),
        (false, 1) => innermost_least(m, w, needs, a, b, p),
        (false, _) => built_least(m, k - 1, w, needs, a, b, p, q),
    }
}

// ---- lent trees ----

fn lent_least(m: Model, below: usize, w: Pending, needs: &Needs, a: u64, b: u64, u: Lent, v: Lent) -> Found {
    let (mut low, mut count, mut rest) = (a, 0, Some(u));
    while let Some(tree) = rest {
        let (first, others) = tree.split();
        let child = w.descend(m, needs, below, low, (low, b), |w, needs| {
            lent_level(m, below, w, needs, low, b, first, v)
        });
        (low, count, rest) = (child.set, count + child.count, others);
    }
    Found { set: low, count }
}

fn lent_greatest(
    m: Model,
    below: usize,
    w: Pending,
    needs: &Needs,
    a: u64,
    b: u64,
    u: Lent,
    v: Lent,
) -> Found {
    let (mut high, mut count, mut rest) = (b, 0, Some(v));
    while let Some(tree) = rest {
        let (first, others) = tree.split();
        let child = w.descend(m, needs, below, high, (a, high), |w, needs| {
            lent_level(m, below, w, needs, a, high, u, first)
        });
        (high, count, rest) = (child.set, count + child.count, others);
    }
    Found { set: high, count }
}

fn lent_level(m: Model, k: usize, w: Pending, needs: &Needs, a: u64, b: u64, u: Lent, v: Lent) -> Found {
    match (m.is_greatest(k - 1), k) {
        (true, 1) => innermost_greatest(m, w, needs, a, b, v.gaps.len() + 1),
        (true, _) => lent_greatest(m, k - 1, w, needs, a, b, u, v),
        (false, 1) => innermost_least(m, w, needs, a, b, u.gaps.len() + 1),
        (false, _) => lent_least(m, k - 1, w, needs, a, b, u, v),
    }
}

// ---- the operations ----

pub fn plain(file: &[u8], a: u64, b: u64, ceiling: u64) -> Answer {
    answer(Model::admit(file, a, b).and_then(|m| {
        let (set, left) =
            plain_level(m, a, b, m.levels, Pending::begin(m), &needs_at_first(m), ceiling).ok_or(10_u64)?;
        Ok(Found { set, count: ceiling - left })
    }))
}

pub fn built(file: &[u8], a: u64, b: u64, ceiling: u64) -> Answer {
    answer_under(ceiling, Model::admit(file, a, b), |m| {
        built_level(m, m.levels, Pending::begin(m), &needs_at_first(m), a, b, m.lines, m.lines)
    })
}

pub fn lent(file: &[u8], a: u64, b: u64, u: &[u8], v: &[u8]) -> Answer {
    answer(Model::admit(file, a, b).and_then(|m| {
        let (u, v) = Lent::of(m, u, v)?;
        Ok(lent_level(m, m.levels, Pending::begin(m), &needs_at_first(m), a, b, u, v))
    }))
}
