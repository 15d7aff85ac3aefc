//! The one-sided route (request W9): document 001's Algorithm 1 by recursion over the nodes of its tree, with a fresh variable where it takes one,
//! its equations solved by stages; and the set that this comes to, by its definition.

use super::model::{set_of, within, Model, Set};
use super::tree::Tree;

/// "x = b * f(y1, .., yd)", each a variable by its number.
struct Equation {
    x: usize,
    b: usize,
    ys: Vec<usize>,
}

/// Algorithm 1. The variable 0 is the full set.
struct Generator<'a> {
    model: &'a Model,
    variables: usize,
    equations: Vec<Equation>,
}

impl Generator<'_> {
    fn fresh_variable(&mut self) -> usize {
        self.variables += 1;
        self.variables - 1
    }

    /// The equations of the levels `left`, .., 1; the variables of the levels outside them stand in ys.
    fn generate(&mut self, x: usize, left: usize, ys: &mut Vec<usize>, b: usize, v: &Tree) {
        if left == 0 {
            self.equations.push(Equation { x, b, ys: ys.clone() });
            return;
        }
        let level = left - 1;
        if self.model.greatest[level] {
            let mut bs = vec![b];
            bs.extend((1..v.children.len()).map(|_| self.fresh_variable()));
            bs.push(x);
            for (ends, child) in bs.windows(2).zip(&v.children) {
                ys[level] = ends[0];
                self.generate(ends[1], level, ys, ends[0], child);
            }
        } else {
            ys[level] = x;
            self.generate(x, level, ys, b, v);
        }
    }
}

/// The set between no line and all lines, by stages, and the right sides that they evaluate.
pub fn by_stages(model: &Model, v: &Tree) -> (Set, u64) {
    let mut generator = Generator { model, variables: 1, equations: Vec::new() };
    let result = generator.fresh_variable();
    generator.generate(result, model.levels(), &mut vec![0; model.levels()], 0, v);
    let Generator { variables, equations, .. } = generator;
    let mut values = vec![vec![false; model.lines()]; variables];
    values[0] = vec![true; model.lines()];
    let mut changed = vec![true; variables];
    let mut count = 0;
    while changed.contains(&true) {
        let left = values.clone();
        for Equation { x, b, ys } in &equations {
            if changed[*b] || ys.iter().any(|&y| changed[y]) {
                let arguments: Vec<Set> = ys.iter().map(|&y| left[y].clone()).collect();
                let query = model.query(&arguments);
                values[*x] = (0..model.lines()).map(|i| left[*b][i] && query[i]).collect();
                count += 1;
            }
        }
        changed = (0..variables).map(|y| values[y] != left[y]).collect();
    }
    (values[result].clone(), count)
}

/// The set by its definition: a greatest level goes over the children of its node, and a least level visits every set.
pub fn one_sided(model: &Model, a: &[bool], b: &[bool], v: &Tree) -> Set {
    let mut arguments = vec![Vec::new(); model.levels()];
    levels(model, model.levels(), &mut arguments, a, b, v)
}

fn levels(model: &Model, left: usize, arguments: &mut Vec<Set>, a: &[bool], b: &[bool], v: &Tree) -> Set {
    if left == 0 {
        return model.bounded_step(a, b, arguments);
    }
    let level = left - 1;
    if model.greatest[level] {
        let mut upper = b.to_vec();
        for child in &v.children {
            arguments[level].clone_from(&upper);
            upper = levels(model, level, arguments, a, &upper, child);
        }
        return upper;
    }
    let n = model.lines();
    let mut least = vec![true; n];
    for word in 0..1 << n {
        let set = set_of(word, n);
        arguments[level].clone_from(&set);
        if within(&levels(model, level, arguments, a, b, v), &set) {
            least = (0..n).map(|i| least[i] && set[i]).collect();
        }
    }
    least
}
