//! The plain route: rounds at each level, counted.

use super::model::{Model, Set};

/// The set and the count of the full run, or none if it makes more than `limit` queries.
pub fn rounds(model: &Model, a: &[bool], b: &[bool], limit: u64) -> Option<(Set, u64)> {
    let arguments = vec![Vec::new(); model.levels()];
    let mut run = Run { model, a, b, arguments, made: 0, limit };
    let set = run.levels(model.levels())?;
    Some((set, run.made))
}

struct Run<'a> {
    model: &'a Model,
    a: &'a [bool],
    b: &'a [bool],
    arguments: Vec<Set>,
    made: u64,
    limit: u64,
}

impl Run<'_> {
    /// The levels `left`, .., 1.
    fn levels(&mut self, left: usize) -> Option<Set> {
        if left == 0 {
            self.made += 1;
            let step = || self.model.bounded_step(self.a, self.b, &self.arguments);
            return (self.made <= self.limit).then(step);
        }
        let level = left - 1;
        let start = if self.model.greatest[level] { self.b } else { self.a };
        let mut value = start.to_vec();
        loop {
            self.arguments[level].clone_from(&value);
            let next = self.levels(level)?;
            if next == value {
                return Some(value);
            }
            value = next;
        }
    }
}
