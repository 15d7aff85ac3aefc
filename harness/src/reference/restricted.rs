//! The restricted set, by recursion over the nodes of its two trees.

use super::model::{Model, Set};
use super::tree::Tree;

/// The restricted set of a model over trees of the heights of its least and its greatest levels, and the queries made.
pub fn restricted(model: &Model, a: &[bool], b: &[bool], u: &Tree, v: &Tree) -> (Set, u64) {
    let mut arguments = vec![Vec::new(); model.levels()];
    levels(model, model.levels(), &mut arguments, a, b, u, v)
}

/// The same of the levels `left`, .., 1, the arguments of the levels outside them fixed.
fn levels(
    model: &Model,
    left: usize,
    arguments: &mut Vec<Set>,
    a: &[bool],
    b: &[bool],
    u: &Tree,
    v: &Tree,
) -> (Set, u64) {
    if left == 0 {
        return (model.bounded_step(a, b, arguments), 1);
    }
    let level = left - 1;
    let mut made = 0;
    if model.greatest[level] {
        let mut upper = b.to_vec();
        for child in &v.children {
            arguments[level].clone_from(&upper);
            let (set, count) = levels(model, level, arguments, a, &upper, u, child);
            upper = set;
            made += count;
        }
        (upper, made)
    } else {
        let mut lower = a.to_vec();
        for child in &u.children {
            arguments[level].clone_from(&lower);
            let (set, count) = levels(model, level, arguments, &lower, b, child, v);
            lower = set;
            made += count;
        }
        (lower, made)
    }
}
