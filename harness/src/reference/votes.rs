//! Votes rewritten into "any" and "all" lines.

use super::model::{Kind, Model, Operand, Set};

/// A model without votes, with its A and B: the lines of this one, and behind them further ones, of which there may be many,
/// in B and not in A. Its nested fixpoint has the same of the first lines.
///
/// For a further line depends on itself only by way of an operand of the vote. So whatever the sets of all levels, what the
/// further lines are follows from the operands: nothing else is a fixed point of theirs, least or greatest. They are read at
/// level 1 alone, the innermost. So its fixed point has of the first lines what it has where the vote is counted, and what a
/// further line is at the outer levels is never read.
pub fn without_votes(model: &Model, a: &[bool], b: &[bool]) -> (Model, Set, Set) {
    let mut rewritten = model.clone();
    for i in 0..model.lines() {
        if let Kind::AtLeast(t) = model.kinds[i] {
            rewritten.kinds[i] = Kind::Any;
            rewritten.operands[i] = vec![at_least(&mut rewritten, &model.operands[i], t)];
        }
    }
    let (mut lower, mut upper) = (a.to_vec(), b.to_vec());
    lower.resize(rewritten.lines(), false);
    upper.resize(rewritten.lines(), true);
    (rewritten, lower, upper)
}

/// What is read at a place among a vote's operands while they are sorted.
#[derive(Clone, Copy)]
enum Node {
    Line(Operand),
    /// Any or all of two others, for which there is no line yet.
    Two(Kind, usize, usize),
}

/// What says that at least t of these operands are set: the t-th of them, when they are sorted so that those that are set come
/// first. Two are put in order by a line that is any of them and a line that is all of them.
fn at_least(model: &mut Model, operands: &[Operand], t: usize) -> Operand {
    let mut nodes: Vec<Node> = operands.iter().copied().map(Node::Line).collect();
    let mut sorted: Vec<usize> = (0..operands.len()).collect();
    for (first, second) in exchanges(operands.len()) {
        let (x, y) = (sorted[first], sorted[second]);
        (sorted[first], sorted[second]) = (nodes.len(), nodes.len() + 1);
        nodes.extend([Node::Two(Kind::Any, x, y), Node::Two(Kind::All, x, y)]);
    }
    line_of(model, &mut nodes, sorted[t - 1])
}

/// The line of a node; it is added, after those that it reads, if there is none.
fn line_of(model: &mut Model, nodes: &mut [Node], at: usize) -> Operand {
    match nodes[at] {
        Node::Line(operand) => operand,
        Node::Two(kind, x, y) => {
            let two = vec![line_of(model, nodes, x), line_of(model, nodes, y)];
            let operand = Operand { level: 0, line: model.lines() };
            model.kinds.push(kind);
            model.operands.push(two);
            nodes[at] = Node::Line(operand);
            operand
        }
    }
}

/// Which two of m places to put in order, one pair after the other, so that all are: Batcher's merge exchange.
pub fn exchanges(m: usize) -> Vec<(usize, usize)> {
    let mut pairs = Vec::new();
    let top = m.next_power_of_two() / 2;
    let mut p = top;
    while p > 0 {
        let (mut q, mut r, mut distance) = (top, 0, p);
        loop {
            pairs.extend((0..m - distance).filter(|i| i & p == r).map(|i| (i, i + distance)));
            if q == p {
                break;
            }
            (distance, q, r) = (q - p, q / 2, p);
        }
        p /= 2;
    }
    pairs
}
