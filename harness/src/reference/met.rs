//! Which lines can be met from line 0, by paths: line 0, one of its operands' lines, one of that line's, and so on, at whatever levels.

use super::model::{Kind, Model, Operand, Set};
use std::iter::successors;

/// Where the paths of 0, 1, 2 and more operands from line 0 end.
pub fn ends_of_paths(model: &Model) -> impl Iterator<Item = Set> + '_ {
    let n = model.lines();
    let line_0 = (0..n).map(|i| i == 0).collect();
    successors(Some(line_0), move |ends: &Set| {
        let mut onward = vec![false; n];
        for i in (0..n).filter(|&i| ends[i]) {
            for operand in &model.operands[i] {
                onward[operand.line] = true;
            }
        }
        Some(onward)
    })
}

/// The lines that can be met from line 0. A path that comes to a line twice can be cut short, so those of fewer operands than there are
/// lines are enough.
pub fn met_lines(model: &Model) -> Set {
    let n = model.lines();
    let mut met = vec![false; n];
    for ends in ends_of_paths(model).take(n) {
        met = (0..n).map(|i| met[i] || ends[i]).collect();
    }
    met
}

/// The model of the met lines alone, in their order.
pub fn without_spares(model: &Model) -> Model {
    let met = met_lines(model);
    let place = |line: usize| met[..line].iter().filter(|&&is_met| is_met).count();
    let mut without = Model { kinds: Vec::new(), operands: Vec::new(), ..model.clone() };
    for i in (0..model.lines()).filter(|&i| met[i]) {
        let moved = |o: &Operand| Operand { level: o.level, line: place(o.line) };
        without.kinds.push(model.kinds[i]);
        without.operands.push(model.operands[i].iter().map(moved).collect());
    }
    without
}

/// A model whose lines are met one after the other, in this order, at one level after the other and again. All are of kind any.
pub fn chain(order: &[usize], greatest: &[bool]) -> Model {
    let n = order.len();
    let mut operands = vec![Vec::new(); n];
    for (link, pair) in order.windows(2).enumerate() {
        operands[pair[0]].push(Operand { level: link % greatest.len(), line: pair[1] });
    }
    Model { greatest: greatest.to_vec(), kinds: vec![Kind::Any; n], operands }
}

/// The model with each line decided by itself, this one good and no other, as votes or not. The same lines are met. The model has
/// levels of both signs.
pub fn with_one_good_line(model: &Model, good: usize, votes: bool) -> Model {
    let mut decided = model.clone();
    for i in 0..model.lines() {
        decided.decide_by_itself(i, i == good, votes);
    }
    decided
}
