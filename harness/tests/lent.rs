//! Judging by lent trees against the reference.

use harness::lending::Seen;
use harness::random::{self, full, Case, Random};
use harness::reference::nested::nested;
use harness::reference::tree::lower_bound_model;
use harness::reference::{forecast, word_of, Kind, Tree};
use harness::{ffi, reference, Answer};

/// Judges by the engine and by the reference, and compares.
fn judge_both(case: &Case, u: &[u8], v: &[u8]) -> Answer {
    let answer = ffi::lent(&case.file, case.a, case.b, u, v);
    let expected = reference::lent(&case.file, case.a, case.b, u, v);
    assert_eq!(answer, expected, "U {u:?} V {v:?} {case:?}");
    answer
}

/// Trees for a case, the product of whose leaves is at most `most`.
fn trees(random: &mut Random, case: &Case, most: usize) -> (Vec<u8>, Vec<u8>) {
    let u = random::tree(random, case.model.least_levels(), most.min(1023));
    let v = random::tree(random, case.model.greatest_levels(), (most / (u.len() + 1)).clamp(1, 1024) - 1);
    (u, v)
}

#[test]
fn every_size_has_the_restricted_set() {
    let mut random = Random::new(601);
    for n in 1..=64 {
        for d in 1..=8 {
            let case = random::case(&mut random, n, d);
            for most in [1, 10, 400] {
                let (u, v) = trees(&mut random, &case, most);
                assert_eq!(judge_both(&case, &u, &v).number, 0);
            }
        }
    }
}

#[test]
fn long_trees_have_the_restricted_set() {
    let mut random = Random::new(602);
    for _ in 0..200 {
        let (n, d) = (random.between(1, 24), random.between(1, 8));
        let case = random::case(&mut random, n, d);
        let (u, v) = trees(&mut random, &case, 20_000);
        assert_eq!(judge_both(&case, &u, &v).number, 0);
        // The long tree on the other side.
        let case = Case { file: case.model.dual().file(), model: case.model.dual(), ..case };
        assert_eq!(judge_both(&case, &v, &u).number, 0);
    }
}

#[test]
fn small_trees_miss_the_nested_fixpoint_and_universal_ones_have_it() {
    let mut random = Random::new(603);
    let (mut universal, mut missed) = (0, 0);
    for _ in 0..2000 {
        let case = random::small_case(&mut random);
        let n = case.model.lines();
        let (a, b) = case.bounds();
        let set = word_of(&nested(&case.model, &a, &b));
        let heights = [case.model.least_levels(), case.model.greatest_levels()];
        // A built-in tree with gaps put in, which may part what must stay together, or any tree.
        let gaps = heights.map(|h| {
            let mut gaps = Tree::built_in(n, h).gaps();
            if h > 0 && random.chance(50) {
                for _ in 0..random.between(0, 3) {
                    gaps.insert(random.between(0, gaps.len()), random.between(1, h) as u8);
                }
            } else if h > 0 {
                gaps = random::tree(&mut random, h, 4);
            }
            gaps
        });
        let answer = judge_both(&case, &gaps[0], &gaps[1]);
        let is_universal =
            |at: usize| Tree::from_gaps(heights[at], &gaps[at]).unwrap().is_universal_for(n, heights[at]);
        if is_universal(0) && is_universal(1) {
            assert_eq!(answer.set, set, "{gaps:?} {case:?}");
            universal += 1;
        } else {
            missed += (answer.set != set) as usize;
        }
    }
    assert!(universal > 500 && missed > 50, "{universal} universal, {missed} missed");
}

#[test]
fn lower_bound_models_need_a_tree_in_which_theirs_fits() {
    let mut random = Random::new(604);
    let (mut fitting, mut others) = (0, 0);
    for _ in 0..2000 {
        let (n, h) = (random.between(1, 7), random.between(1, 4));
        let t = Tree::from_gaps(h, &random::gaps(&mut random, h, n - 1)).unwrap();
        // The tree's own gaps with some put in or left out.
        let mut u = t.gaps();
        for _ in 0..random.between(0, 6) {
            u.insert(random.between(0, u.len()), random.between(1, h) as u8);
        }
        if random.chance(40) && !u.is_empty() {
            u.remove(random.between(0, u.len() - 1));
        }
        let v = Tree::built_in(n, h).gaps();
        let fits = t.fits_in(&Tree::from_gaps(h, &u).unwrap());
        let mut model = lower_bound_model(&t);
        // An idle line of kind all is in every set.
        if random.chance(50) {
            model.kinds.push(Kind::All);
            model.operands.push(Vec::new());
        }
        let all = full(model.lines());
        let answer = ffi::lent(&random::file(&mut random, &model), 0, all, &u, &v);
        assert_eq!(answer.set == all, fits, "T {:?} U {u:?}", t.gaps());
        // Upside down: the other tree for the other signs, and the empty set for the full one.
        let dual = ffi::lent(&model.dual().file(), 0, all, &v, &u);
        assert_eq!(dual.set == 0, fits, "T {:?} V {u:?}", t.gaps());
        assert_eq!(answer.count, (u.len() as u64 + 1) * (v.len() as u64 + 1));
        assert_eq!(dual.count, answer.count);
        *(if fits { &mut fitting } else { &mut others }) += 1;
    }
    assert!(fitting > 300 && others > 300, "{fitting} fit, {others} do not");
}

#[test]
fn the_built_in_trees_can_be_lent() {
    let mut random = Random::new(605);
    let mut lent = 0;
    for _ in 0..300 {
        let (n, d) = (random.between(1, 64), random.between(1, 8));
        let case = random::case(&mut random, n, d);
        let u = Tree::built_in(n, case.model.least_levels()).gaps();
        let v = Tree::built_in(n, case.model.greatest_levels()).gaps();
        let forecast = forecast(&case.model);
        if u.len() <= 1023 && v.len() <= 1023 && forecast <= 50_000 {
            let built = ffi::built(&case.file, case.a, case.b, forecast);
            assert_eq!(judge_both(&case, &u, &v), built, "{case:?}");
            lent += 1;
        }
    }
    assert!(lent > 100, "only {lent} pairs of trees could be lent");
}

#[test]
fn equal_bounds_are_the_set() {
    let mut random = Random::new(606);
    for _ in 0..300 {
        let (n, d) = (random.between(1, 64), random.between(1, 8));
        let mut case = random::case(&mut random, n, d);
        case.a = random.word() & full(n);
        case.b = case.a;
        let (u, v) = trees(&mut random, &case, 1000);
        let count = (u.len() as u64 + 1) * (v.len() as u64 + 1);
        assert_eq!(judge_both(&case, &u, &v), Answer::judged(case.a, count));
    }
}

#[test]
fn one_bad_gap_is_refused_wherever_it_stands() {
    let mut random = Random::new(607);
    for _ in 0..100 {
        let d = random.between(2, 8);
        let mut model = random::any_model(&mut random, 2, d);
        // At least one level of each sign, so that each tree may have gaps.
        model.greatest[d - 1] = !model.greatest[0];
        let heights = [model.least_levels(), model.greatest_levels()];
        let case = Case::new(&mut random, model, (0, 3));
        let good = heights.map(|h| random::gaps(&mut random, h, 12));
        assert_eq!(judge_both(&case, &good[0], &good[1]).number, 0);
        for side in 0..2 {
            for at in 0..12 {
                for bad in [0, heights[side] as u8 + 1, 255] {
                    let mut gaps = good.clone();
                    gaps[side][at] = bad;
                    assert_eq!(judge_both(&case, &gaps[0], &gaps[1]), Answer::refused(11));
                }
            }
        }
    }
}

#[test]
fn a_tree_has_at_most_1023_gaps() {
    let mut random = Random::new(608);
    for d in 1..=8 {
        for greatest_levels in 0..=d {
            let signs: Vec<bool> = (0..d).map(|level| level < greatest_levels).collect();
            let model = random::model(&mut random, 3, &signs, random::Density::Few);
            let case = Case::new(&mut random, model, (0, 7));
            let heights = [d - greatest_levels, greatest_levels];
            for side in 0..2 {
                for (count, number) in [(1023, 0), (1024, 11), (1025, 11), (5000, 11)] {
                    let mut gaps = [vec![], vec![]];
                    gaps[side] = random::gaps(&mut random, heights[side].max(1), count);
                    let expected = if heights[side] == 0 { 11 } else { number };
                    assert_eq!(judge_both(&case, &gaps[0], &gaps[1]).number, expected);
                }
            }
        }
    }
}

#[test]
fn height_0_has_one_leaf_only() {
    let mut random = Random::new(609);
    for d in 1..=8 {
        for greatest in [false, true] {
            let model = random::model(&mut random, 5, &vec![greatest; d], random::Density::Few);
            let case = Case::new(&mut random, model, (0, 31));
            let other = random::gaps(&mut random, d, 20);
            for gap in [0, 1, d as u8, 255] {
                let (u, v) = if greatest { (vec![gap], other.clone()) } else { (other.clone(), vec![gap]) };
                assert_eq!(judge_both(&case, &u, &v), Answer::refused(11));
            }
            let (u, v) = if greatest { (vec![], other) } else { (other, vec![]) };
            assert_eq!(judge_both(&case, &u, &v).count, 21);
        }
    }
}

#[test]
fn judging_by_lent_trees_is_refused_in_order() {
    let mut random = Random::new(610);
    let mut seen = Seen::default();
    for _ in 0..20_000 {
        let (n, d) = random::mostly_small_size(&mut random);
        let case = random::troubled_case(&mut random, n, d);
        let (mut u, mut v) = trees(&mut random, &case, 20);
        if random.chance(30) {
            u = random::bad_tree(&mut random, case.model.least_levels());
        }
        if random.chance(30) {
            v = random::bad_tree(&mut random, case.model.greatest_levels());
        }
        seen.note(judge_both(&case, &u, &v));
    }
    seen.assert_each(&[0, 1, 2, 3, 4, 5, 6, 7, 14, 9, 11], 300);
}
