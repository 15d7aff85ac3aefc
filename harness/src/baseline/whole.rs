//! A whole query at each leaf, and the recursion of document 01.

use super::{answer, answer_under, full_set, u64_at, Found, Lent, Model, ALL, VOTE};
use crate::Answer;

impl Model<'_> {
    /// A line's value by its operands, up to the first word that decides it.
    fn line_value(record: &[u8], line: &[u8], xs: &[u64; 8]) -> bool {
        let mut pairs = line.chunks_exact(8).map(|bytes| u64_at(bytes, 0)).zip(xs);
        match record[0] {
            VOTE => {
                let mut needed = record[1] as u32;
                pairs.any(|(word, x)| {
                    let hits = (word & x).count_ones();
                    let reached = hits >= needed;
                    needed = needed.saturating_sub(hits);
                    reached
                })
            }
            ALL => pairs.all(|(word, x)| word & !x == 0),
            _ => pairs.any(|(word, x)| word & x != 0),
        }
    }

    /// One query, line by line.
    fn query(self, xs: &[u64; 8]) -> u64 {
        let records = self.file[self.kinds_at()..self.words_at()].chunks_exact(self.record);
        let lines = self.file[self.words_at()..].chunks_exact(8 * self.levels);
        let values = records.zip(lines).map(|(record, line)| Self::line_value(record, line, xs));
        values.enumerate().fold(0, |set, (i, value)| set | (value as u64) << i)
    }

    /// The same for some lines alone, the lowest first.
    pub(super) fn query_lines(self, xs: &[u64; 8], lines: u64) -> u64 {
        let words = &self.file[self.words_at()..];
        let records = &self.file[self.kinds_at()..];
        let mut rest = lines;
        let mut set = 0;
        while rest != 0 {
            let i = rest.trailing_zeros() as usize;
            let others = rest & (rest - 1);
            let record = &records[i * self.record..][..self.record];
            let line = &words[i * 8 * self.levels..][..8 * self.levels];
            if Self::line_value(record, line, xs) {
                set |= rest ^ others;
            }
            rest = others;
        }
        set
    }

    fn bounded_step(self, a: u64, b: u64, xs: &[u64; 8]) -> u64 {
        a | (b & self.query(xs))
    }
}

// ---- plain rounds ----

/// The set of the levels k, .., 1 and what is left of the ceiling, or none where it does not suffice.
fn plain_level(m: Model, a: u64, b: u64, k: usize, xs: &[u64; 8], left: u64) -> Option<(u64, u64)> {
    if k == 0 {
        let left = left.checked_sub(1)?;
        return Some((m.bounded_step(a, b, xs), left));
    }
    let below = k - 1;
    let mut ys = *xs;
    let mut x = if m.is_greatest(below) { b } else { a };
    let mut left = left;
    loop {
        ys[below] = x;
        let (set, unused) = plain_level(m, a, b, below, &ys, left)?;
        left = unused;
        if set == x {
            return Some((set, left));
        }
        x = set;
    }
}

// ---- the innermost level: its tree's children are leaves, one query each ----

fn innermost_least(m: Model, xs: &[u64; 8], a: u64, b: u64, leaves: usize) -> Found {
    let mut ys = *xs;
    let mut x = a;
    for _ in 0..leaves {
        ys[0] = x;
        x = m.bounded_step(x, b, &ys);
    }
    Found { set: x, count: leaves as u64 }
}

fn innermost_greatest(m: Model, xs: &[u64; 8], a: u64, b: u64, leaves: usize) -> Found {
    let mut ys = *xs;
    let mut x = b;
    for _ in 0..leaves {
        ys[0] = x;
        x = m.bounded_step(a, x, &ys);
    }
    Found { set: x, count: leaves as u64 }
}

// ---- built-in trees: none is stored, the halves of S(p, h) are ----

fn built_least(m: Model, below: usize, xs: &[u64; 8], a: u64, b: u64, p: usize, q: usize) -> Found {
    if below == 0 {
        return innermost_least(m, xs, a, b, p);
    }
    if p == 0 {
        return Found { set: a, count: 0 };
    }
    let first = built_least(m, below, xs, a, b, p / 2, q);
    let mut ys = *xs;
    ys[below] = first.set;
    let middle = built_level(m, below, &ys, first.set, b, p, q);
    let last = built_least(m, below, xs, middle.set, b, (p - 1) / 2, q);
    Found { set: last.set, count: first.count + middle.count + last.count }
}

fn built_greatest(m: Model, below: usize, xs: &[u64; 8], a: u64, b: u64, p: usize, q: usize) -> Found {
    if below == 0 {
        return innermost_greatest(m, xs, a, b, q);
    }
    if q == 0 {
        return Found { set: b, count: 0 };
    }
    let first = built_greatest(m, below, xs, a, b, p, q / 2);
    let mut ys = *xs;
    ys[below] = first.set;
    let middle = built_level(m, below, &ys, a, first.set, p, q);
    let last = built_greatest(m, below, xs, a, middle.set, p, (q - 1) / 2);
    Found { set: last.set, count: first.count + middle.count + last.count }
}

fn built_level(m: Model, k: usize, xs: &[u64; 8], a: u64, b: u64, p: usize, q: usize) -> Found {
    if k == 0 {
        return Found { set: m.bounded_step(a, b, xs), count: 1 };
    }
    if m.is_greatest(k - 1) {
        built_greatest(m, k - 1, xs, a, b, p, q)
    } else {
        built_least(m, k - 1, xs, a, b, p, q)
    }
}

// ---- lent trees ----

fn lent_least(m: Model, below: usize, xs: &[u64; 8], a: u64, b: u64, u: Lent, v: Lent) -> Found {
    if below == 0 {
        return innermost_least(m, xs, a, b, u.gaps.len() + 1);
    }
    let (child, others) = u.split();
    let mut ys = *xs;
    ys[below] = a;
    let first = lent_level(m, below, &ys, a, b, child, v);
    let Some(others) = others else {
        return first;
    };
    let rest = lent_least(m, below, xs, first.set, b, others, v);
    Found { set: rest.set, count: first.count + rest.count }
}

fn lent_greatest(m: Model, below: usize, xs: &[u64; 8], a: u64, b: u64, u: Lent, v: Lent) -> Found {
    if below == 0 {
        return innermost_greatest(m, xs, a, b, v.gaps.len() + 1);
    }
    let (child, others) = v.split();
    let mut ys = *xs;
    ys[below] = b;
    let first = lent_level(m, below, &ys, a, b, u, child);
    let Some(others) = others else {
        return first;
    };
    let rest = lent_greatest(m, below, xs, a, first.set, u, others);
    Found { set: rest.set, count: first.count + rest.count }
}

fn lent_level(m: Model, k: usize, xs: &[u64; 8], a: u64, b: u64, u: Lent, v: Lent) -> Found {
    if k == 0 {
        return Found { set: m.bounded_step(a, b, xs), count: 1 };
    }
    if m.is_greatest(k - 1) {
        lent_greatest(m, k - 1, xs, a, b, u, v)
    } else {
        lent_least(m, k - 1, xs, a, b, u, v)
    }
}

// ---- the operations ----

pub fn plain(file: &[u8], a: u64, b: u64, ceiling: u64) -> Answer {
    answer(Model::admit(file, a, b).and_then(|m| {
        let (set, left) = plain_level(m, a, b, m.levels, &[0; 8], ceiling).ok_or(10_u64)?;
        Ok(Found { set, count: ceiling - left })
    }))
}

pub fn built(file: &[u8], a: u64, b: u64, ceiling: u64) -> Answer {
    answer_under(ceiling, Model::admit(file, a, b), |m| {
        built_level(m, m.levels, &[0; 8], a, b, m.lines, m.lines)
    })
}

pub fn lent(file: &[u8], a: u64, b: u64, u: &[u8], v: &[u8]) -> Answer {
    answer(Model::admit(file, a, b).and_then(|m| {
        let (u, v) = Lent::of(m, u, v)?;
        Ok(lent_level(m, m.levels, &[0; 8], a, b, u, v))
    }))
}

// ---- the one-sided route: the equations as data, and all of them gone over in every stage ----

/// The bound of an equation, and its arguments; its own variable is its place, from 1.
type Equation = (usize, [usize; 8]);

fn generate(m: Model, k: usize, args: &[usize; 8], b: usize, v: Lent, equations: &mut Vec<Equation>) {
    let Some(below) = k.checked_sub(1) else {
        equations.push((b, *args));
        return;
    };
    let mut ys = *args;
    if !m.is_greatest(below) {
        ys[below] = equations.len() + v.gaps.len() + 1;
        return generate(m, below, &ys, b, v, equations);
    }
    let (mut bound, mut rest) = (b, Some(v));
    while let Some(tree) = rest {
        let (child, others) = tree.split();
        ys[below] = bound;
        generate(m, below, &ys, bound, child, equations);
        (bound, rest) = (equations.len(), others);
    }
}

fn stages(m: Model, v: Lent) -> Found {
    let mut equations = Vec::new();
    generate(m, m.levels, &[0; 8], 0, v, &mut equations);
    let mut state = vec![0; equations.len() + 1];
    state[0] = full_set(m.lines);
    let mut changed = vec![true; state.len()];
    let mut count = 0;
    while changed.contains(&true) {
        let mut next = state.clone();
        for (i, &(b, args)) in equations.iter().enumerate() {
            if changed[b] || args[..m.levels].iter().any(|&y| changed[y]) {
                next[i + 1] = state[b] & m.query(&args.map(|y| state[y]));
                count += 1;
            }
        }
        for (flag, (before, after)) in changed.iter_mut().zip(state.iter().zip(&next)) {
            *flag = before != after;
        }
        state = next;
    }
    Found { set: state[equations.len()], count }
}

pub fn one_sided(file: &[u8], v: &[u8], words: &mut [u64]) -> Answer {
    answer(Model::check(file).and_then(|m| Ok(stages(m, Lent::one_of(m, v, words)?))))
}
