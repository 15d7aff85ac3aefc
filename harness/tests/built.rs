//! Judging by built-in trees against the reference.

use harness::lending::Seen;
use harness::random::{self, full, Case, Density, Random};
use harness::reference::game::winning_lines;
use harness::reference::nested::nested;
use harness::reference::{forecast, word_of, Tree};
use harness::{ffi, reference, Answer};

/// A case of this size whose forecast is at most so many queries, or as many as with all levels of one sign, which are the
/// fewest.
fn case_within(random: &mut Random, n: usize, d: usize, most: u64) -> Case {
    let most = most.max(Tree::built_in(n, d).leaf_count());
    loop {
        let case = random::case(random, n, d);
        if forecast(&case.model) <= most {
            return case;
        }
    }
}

/// Judges under the lowest ceiling that the forecast is not over.
fn judge(case: &Case) -> Answer {
    ffi::built(&case.file, case.a, case.b, forecast(&case.model))
}

#[test]
fn small_models_have_the_nested_fixpoint_by_its_definition() {
    let mut random = Random::new(501);
    let mut between = 0;
    for _ in 0..4000 {
        let case = random::small_case(&mut random);
        let (a, b) = case.bounds();
        let set = nested(&case.model, &a, &b);
        let expected = Answer::judged(word_of(&set), forecast(&case.model));
        assert_eq!(judge(&case), expected, "{case:?}");
        between += (set != a && set != b) as usize;
    }
    assert!(between > 1000, "only {between} sets strictly between their bounds");
}

#[test]
fn every_size_has_the_restricted_set_over_the_trees_nodes() {
    let mut random = Random::new(502);
    for n in 1..=64 {
        for d in 1..=8 {
            let case = case_within(&mut random, n, d, 10_000);
            let expected = reference::built(&case.file, case.a, case.b, u64::MAX);
            assert_eq!(judge(&case), expected, "{case:?}");
        }
    }
}

#[test]
fn larger_models_have_the_winning_lines_of_their_game() {
    let mut random = Random::new(503);
    let mut between = 0;
    for round in 0..300 {
        let (n, d) = (random.between(5, 64), random.between(2, 8));
        let mut case = random::case(&mut random, n, d);
        if round % 2 == 0 {
            (case.a, case.b) = (0, full(n));
        }
        let (a, b) = case.bounds();
        let set = winning_lines(&case.model, &a, &b);
        let expected = Answer::judged(word_of(&set), forecast(&case.model));
        assert_eq!(judge(&case), expected, "{case:?}");
        between += (set != a && set != b) as usize;
    }
    assert!(between > 100, "only {between} sets strictly between their bounds");
}

#[test]
fn lower_bound_models_are_judged_too() {
    let mut random = Random::new(504);
    for n in [1, 2, 3, 4, 7, 8, 15, 16, 31, 32, 63, 64] {
        for h in 1..=4 {
            let model = random::hard_model(&mut random, n, h, 20, 30);
            let case = Case::new(&mut random, model, (0, full(n)));
            let (a, b) = case.bounds();
            let set = winning_lines(&case.model, &a, &b);
            let expected = Answer::judged(word_of(&set), forecast(&case.model));
            assert_eq!(judge(&case), expected, "{case:?}");
        }
    }
}

#[test]
fn the_largest_run_is_judged() {
    let mut random = Random::new(505);
    let signs = random::alternating(8, false);
    let model = random::model(&mut random, 64, &signs, Density::Share(20));
    let case = Case::new(&mut random, model, (0, full(64)));
    let (a, b) = case.bounds();
    let set = winning_lines(&case.model, &a, &b);
    assert!(set != a && set != b && case.model.has_votes());
    // Four least and four greatest levels make the most queries of all signs.
    assert_eq!(judge(&case), Answer::judged(word_of(&set), forecast(&case.model)));
}

#[test]
fn equal_bounds_are_the_set() {
    let mut random = Random::new(506);
    for _ in 0..200 {
        let (n, d) = (random.between(1, 64), random.between(1, 8));
        let mut case = case_within(&mut random, n, d, 10_000);
        case.a = random.word() & full(n);
        case.b = case.a;
        assert_eq!(judge(&case), Answer::judged(case.a, forecast(&case.model)), "{case:?}");
    }
}

#[test]
fn judging_by_built_in_trees_is_refused_in_order() {
    let mut random = Random::new(507);
    let mut seen = Seen::default();
    for _ in 0..20_000 {
        let (n, d) = random::mostly_small_size(&mut random);
        let case = random::troubled_case(&mut random, n, d);
        // The reference is slow where a large model is judged, which other tests do.
        if n > 6 && reference::judgeable(&case.file, case.a, case.b).is_ok() {
            continue;
        }
        let answer = judge(&case);
        assert_eq!(answer, reference::built(&case.file, case.a, case.b, u64::MAX), "{case:?}");
        seen.note(answer);
    }
    seen.assert_each(&[0, 1, 2, 3, 4, 5, 6, 7, 14, 9], 300);
}
