//! The nested fixpoint as the winning positions of a parity game, solved by Zielonka's recursive algorithm.
//!
//! A play goes from a line to one of its operands and on to that operand's line. At an "any" line the verifier moves,
//! at an "all" line the refuter. The outermost level that is read again and again decides an endless play: the
//! verifier wins if it is greatest, the refuter if it is least. Whoever must move and cannot, at a line without operands, loses.
//! A line of A is won at once, a line outside B lost. Votes are rewritten first.

use super::model::{Kind, Model, Set};
use super::votes::without_votes;

struct Position {
    /// Whether the verifier moves here.
    verifier: bool,
    priority: usize,
    moves: Vec<usize>,
}

struct Game {
    positions: Vec<Position>,
    /// For each position, those that have a move to it.
    sources: Vec<Vec<usize>>,
}

/// The nested fixpoint between A and B.
pub fn winning_lines(model: &Model, a: &[bool], b: &[bool]) -> Set {
    let (rewritten, lower, upper) = without_votes(model, a, b);
    let game = game_of(&rewritten, &lower, &upper);
    let mut won = game.solve(&vec![true; game.positions.len()]);
    won.truncate(model.lines());
    won
}

/// The good lines: the nested fixpoint between empty and full.
pub fn good_lines(model: &Model) -> Set {
    let n = model.lines();
    winning_lines(model, &vec![false; n], &vec![true; n])
}

/// Positions: the lines, then each line that is read at a level, as valued there. An even priority is the verifier's; a
/// level's is even if it is greatest, and above that of each level inside it. A line's own never decides.
fn game_of(model: &Model, a: &[bool], b: &[bool]) -> Game {
    let n = model.lines();
    let mut read = model.operands.concat();
    read.sort();
    read.dedup();
    let mut positions = Vec::new();
    for i in 0..n {
        let all = model.kinds[i] == Kind::All;
        positions.push(if a[i] || (b[i] && all && model.is_idle(i)) {
            Position { verifier: true, priority: 0, moves: vec![i] }
        } else if !b[i] || model.is_idle(i) {
            Position { verifier: true, priority: 1, moves: vec![i] }
        } else {
            let place = |o| n + read.binary_search(o).expect("it is read");
            Position { verifier: !all, priority: 0, moves: model.operands[i].iter().map(place).collect() }
        });
    }
    for operand in &read {
        let priority = 2 * operand.level + if model.greatest[operand.level] { 2 } else { 3 };
        positions.push(Position { verifier: true, priority, moves: vec![operand.line] });
    }
    let mut sources = vec![Vec::new(); positions.len()];
    for (from, position) in positions.iter().enumerate() {
        for &to in &position.moves {
            sources[to].push(from);
        }
    }
    Game { positions, sources }
}

impl Game {
    /// The positions from which a player can force the play into `target`, all within `inside`.
    fn attractor(&self, inside: &[bool], verifier: bool, target: Vec<usize>) -> Vec<bool> {
        let in_game = |moves: &[usize]| moves.iter().filter(|&&to| inside[to]).count();
        // How many moves the other player still has that stay outside.
        let mut escapes: Vec<usize> = self.positions.iter().map(|p| in_game(&p.moves)).collect();
        let mut attracted = vec![false; self.positions.len()];
        for &position in &target {
            attracted[position] = true;
        }
        let mut open = target;
        while let Some(to) = open.pop() {
            for &from in &self.sources[to] {
                escapes[from] -= 1;
                let forced = self.positions[from].verifier == verifier || escapes[from] == 0;
                if inside[from] && !attracted[from] && forced {
                    attracted[from] = true;
                    open.push(from);
                }
            }
        }
        attracted
    }

    /// The positions of the game `inside` that the verifier wins. Each has a move that stays inside.
    fn solve(&self, inside: &[bool]) -> Vec<bool> {
        let size = self.positions.len();
        let members = |set: &dyn Fn(usize) -> bool| (0..size).filter(|&p| set(p)).collect::<Vec<_>>();
        let Some(highest) = (0..size).filter(|&p| inside[p]).map(|p| self.positions[p].priority).max() else {
            return vec![false; size];
        };
        let verifier = highest % 2 == 0;
        let decisive = members(&|p| inside[p] && self.positions[p].priority == highest);
        let near = self.attractor(inside, verifier, decisive);
        let far: Vec<bool> = (0..size).map(|p| inside[p] && !near[p]).collect();
        let won_far = self.solve(&far);
        let lost_far = members(&|p| far[p] && won_far[p] != verifier);
        if lost_far.is_empty() {
            return inside.iter().map(|&position| position && verifier).collect();
        }
        let lost = self.attractor(inside, !verifier, lost_far);
        let rest: Vec<bool> = (0..size).map(|p| inside[p] && !lost[p]).collect();
        let won_rest = self.solve(&rest);
        (0..size).map(|p| if lost[p] { !verifier } else { won_rest[p] }).collect()
    }
}
