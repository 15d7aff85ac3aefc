//! The models that are judged.

use std::hint::black_box;

use harness::random::{self, full, Density, Random};
use harness::reference::{forecast, Kind, Model, Tree};
use harness::Answer;

use super::judges::{Judge, Layout, Route};

/// Where a plain run is cut off, so that each ends in reasonable time.
pub const CEILING: u64 = 200_000;

/// A model to judge between empty and full, with the trees to lend for it.
pub struct Subject {
    pub name: &'static str,
    pub lines: usize,
    pub levels: usize,
    pub votes: bool,
    pub file: Vec<u8>,
    pub u: Vec<u8>,
    pub v: Vec<u8>,
    pub built_queries: u64,
    pub lent_queries: u64,
}

/// The built-in tree of height h for the most lines, n at most, that may be lent.
pub fn largest_lent(n: usize, h: usize) -> Vec<u8> {
    let mut trees = (1..=n).rev().map(|lines| Tree::built_in(lines, h).gaps());
    trees.find(|gaps| gaps.len() <= 1023).expect("S(1, h) has one leaf")
}

/// A model with signs that alternate, level 1 least, and these kinds, one line after the other and again.
pub fn model_of(seed: u64, lines: usize, levels: usize, kinds: &[Kind], density: Density) -> Model {
    let kinds: Vec<Kind> = kinds.iter().copied().cycle().take(lines).collect();
    random::model_of_kinds(&mut Random::new(seed), &kinds, &random::alternating(levels, false), density, 0)
}

impl Subject {
    pub fn new(name: &'static str, layout: Layout, model: Model) -> Subject {
        let lines = model.lines();
        let u = largest_lent(lines, model.least_levels());
        let v = largest_lent(lines, model.greatest_levels());
        Subject {
            name,
            lines,
            levels: model.levels(),
            votes: model.kinds.iter().any(|kind| matches!(kind, Kind::AtLeast(_))),
            file: if layout == Layout::Old { model.old_file() } else { model.file() },
            built_queries: forecast(&model),
            lent_queries: ((u.len() + 1) * (v.len() + 1)) as u64,
            u,
            v,
        }
    }

    /// Any and all lines in turn, with two or three operands a line.
    pub fn sparse(layout: Layout, seed: u64, lines: usize, levels: usize) -> Subject {
        let model = model_of(seed, lines, levels, &[Kind::Any, Kind::All], Density::Several);
        Subject::new("sparse", layout, model)
    }

    /// The same with half of all possible operands.
    pub fn dense(layout: Layout, seed: u64, lines: usize, levels: usize) -> Subject {
        let model = model_of(seed, lines, levels, &[Kind::Any, Kind::All], Density::Share(50));
        Subject::new("dense", layout, model)
    }

    /// A model of the lower bound, where plain rounds are many.
    pub fn hard(layout: Layout, seed: u64, lines: usize, levels: usize) -> Subject {
        let model = random::hard_model(&mut Random::new(seed), lines, levels / 2, 0, 0);
        Subject::new("hard", layout, model)
    }

    /// Any lines, all lines and votes of two in turn, with three operands a line.
    pub fn votes(layout: Layout, seed: u64, lines: usize, levels: usize) -> Subject {
        let kinds = [Kind::Any, Kind::All, Kind::AtLeast(2)];
        Subject::new("2-of-3", layout, model_of(seed, lines, levels, &kinds, Density::Three))
    }

    /// The same with half of all possible operands, of which a vote needs more than half.
    pub fn dense_votes(layout: Layout, seed: u64, lines: usize, levels: usize) -> Subject {
        let kinds = [Kind::Any, Kind::All, Kind::AtLeast(1)];
        let mut model = model_of(seed, lines, levels, &kinds, Density::Share(50));
        for i in (2..lines).step_by(3) {
            model.kinds[i] = Kind::AtLeast(model.operands[i].len() / 2 + 1);
        }
        Subject::new("dense", layout, model)
    }

    /// The most queries that judging may make.
    pub fn most_queries(&self, route: Route) -> u64 {
        match route {
            Route::Built => self.built_queries,
            Route::Lent => self.lent_queries,
            Route::Plain => CEILING,
            Route::OneSided => (self.v.len() as u64 + 1) * (1 + self.lines * self.levels) as u64,
        }
    }

    pub fn judged(&self, judge: Judge, route: Route) -> Answer {
        let (file, a, b) = (black_box(&self.file[..]), black_box(0), black_box(full(self.lines)));
        match route {
            Route::Built => judge.built(file, a, b),
            Route::Lent => judge.lent(file, a, b, black_box(&self.u), black_box(&self.v)),
            Route::Plain => judge.plain(file, a, b, black_box(CEILING)),
            Route::OneSided => judge.one_sided(file, black_box(&self.v), &mut black_box([0; 1025])),
        }
    }
}

/// Makes the model of a seed in a file of this layout, of so many lines and levels.
pub type Make = fn(Layout, u64, usize, usize) -> Subject;
