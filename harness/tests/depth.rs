//! The deepest runs of the tree routes: 8 levels over lent trees with 1,023 gaps on both sides, and over the largest built-in
//! trees. The engine goes over a tree's children in a loop and calls itself once for each level; no proof bounds the stack, so
//! the runs are made on the stack that the header says is enough. The other operations are in callers.rs.

use harness::random::{self, full, Density, Random};
use harness::reference::restricted::restricted;
use harness::reference::{forecast, good_lines, set_of, word_of, Kind, Model, Operand, Tree};
use harness::{ffi, on_a_small_stack, Answer};

const GAPS: usize = 1023;

/// A model of so many lines and eight levels of alternating signs, level 8 greatest or least. Line 1 is idle, and line 2 five of
/// itself at each level.
fn model(lines: usize, outermost_greatest: bool) -> Model {
    let signs = random::alternating(8, !outermost_greatest);
    let mut model = random::model(&mut Random::new(801), lines, &signs, Density::Several);
    (model.kinds[1], model.operands[1]) = (Kind::All, Vec::new());
    let at_each_level = (0..8).map(|level| Operand { level, line: 2 }).collect();
    (model.kinds[2], model.operands[2]) = (Kind::AtLeast(5), at_each_level);
    model
}

/// Gaps of trees of height 4. On the way to the last leaf of the first two every gap is met: all stand at the root, or
/// they fall towards the leaves. The third has any gaps.
fn full_trees() -> [Vec<u8>; 3] {
    let falling = (0..GAPS).map(|at| 4 - (4 * at / GAPS) as u8).collect();
    [vec![4; GAPS], falling, random::gaps(&mut Random::new(802), 4, GAPS)]
}

#[test]
fn the_deepest_lent_runs_end_on_a_small_stack() {
    for outermost_greatest in [false, true] {
        let model = model(3, outermost_greatest);
        for gaps in full_trees() {
            let tree = Tree::from_gaps(4, &gaps).unwrap();
            let (set, count) = restricted(&model, &set_of(0, 3), &set_of(7, 3), &tree, &tree);
            assert_eq!(count, 1024 * 1024);
            let file = model.file();
            let answer = on_a_small_stack(move || ffi::lent(&file, 0, 7, &gaps, &gaps));
            assert_eq!(answer, Answer::judged(word_of(&set), count));
        }
    }
}

#[test]
fn the_deepest_built_in_runs_end_on_a_small_stack() {
    for outermost_greatest in [false, true] {
        let model = model(64, outermost_greatest);
        let (set, forecast) = (good_lines(&model), forecast(&model));
        let file = model.file();
        let answer = on_a_small_stack(move || ffi::built(&file, 0, full(64), forecast));
        assert_eq!(answer, Answer::judged(word_of(&set), forecast));
        assert_eq!(forecast, 2645 * 2645);
    }
}
