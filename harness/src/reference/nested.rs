//! The nested fixpoint by its definition. It visits every set at every level: 2 to the power n × d queries.

use super::model::{set_of, within, Model, Set};

/// From level 1 outwards, the least or greatest fixed point of the bounded step.
pub fn nested(model: &Model, a: &[bool], b: &[bool]) -> Set {
    let mut arguments = vec![vec![false; model.lines()]; model.levels()];
    levels(model, a, b, model.levels(), &mut arguments)
}

/// The same of the levels `left`, .., 1, the arguments of the levels outside them fixed.
fn levels(model: &Model, a: &[bool], b: &[bool], left: usize, arguments: &mut Vec<Set>) -> Set {
    if left == 0 {
        return model.bounded_step(a, b, arguments);
    }
    let n = model.lines();
    let level = left - 1;
    // The intersection of no set has all lines, the union of none has no line.
    let mut fixpoint = vec![!model.greatest[level]; n];
    for word in 0..1 << n {
        let set = set_of(word, n);
        arguments[level].clone_from(&set);
        let image = levels(model, a, b, level, arguments);
        if model.greatest[level] {
            if within(&set, &image) {
                fixpoint = (0..n).map(|i| fixpoint[i] || set[i]).collect();
            }
        } else if within(&image, &set) {
            fixpoint = (0..n).map(|i| fixpoint[i] && set[i]).collect();
        }
    }
    fixpoint
}
