//! Judging by plain rounds against the reference.

use harness::lending::Seen;
use harness::random::{self, full, Case, Random};
use harness::reference::game::winning_lines;
use harness::reference::nested::nested;
use harness::reference::plain::rounds;
use harness::reference::word_of;
use harness::{ffi, reference, Answer};

/// Judges under ceilings at, around and far from the count of the full run.
fn judge_around(case: &Case, set: u64, count: u64) {
    for ceiling in [count, count + 1, 2 * count, u64::MAX] {
        let answer = ffi::plain(&case.file, case.a, case.b, ceiling);
        assert_eq!(answer, Answer::judged(set, count), "ceiling {ceiling}, {case:?}");
    }
    for ceiling in [count - 1, count / 2, 0] {
        let answer = ffi::plain(&case.file, case.a, case.b, ceiling);
        assert_eq!(answer, Answer::refused(10), "ceiling {ceiling}, {case:?}");
    }
}

#[test]
fn small_models_have_the_nested_fixpoint_by_its_definition() {
    let mut random = Random::new(401);
    let mut between = 0;
    for _ in 0..4000 {
        let case = random::small_case(&mut random);
        let (a, b) = case.bounds();
        let set = nested(&case.model, &a, &b);
        let (_, count) = rounds(&case.model, &a, &b, u64::MAX).unwrap();
        judge_around(&case, word_of(&set), count);
        between += (set != a && set != b) as usize;
    }
    assert!(between > 1000, "only {between} sets strictly between their bounds");
}

#[test]
fn every_size_is_judged_with_its_count() {
    let mut random = Random::new(402);
    let limit = 10_000;
    let mut judged = 0;
    for n in 1..=64 {
        for d in 1..=8 {
            let case = random::case(&mut random, n, d);
            let (a, b) = case.bounds();
            match rounds(&case.model, &a, &b, limit) {
                Some((set, count)) => {
                    judge_around(&case, word_of(&set), count);
                    judged += 1;
                }
                None => {
                    let answer = ffi::plain(&case.file, case.a, case.b, limit);
                    assert_eq!(answer, Answer::refused(10), "{case:?}");
                }
            }
        }
    }
    assert!(judged > 400, "only {judged} sizes were judged");
}

#[test]
fn larger_models_have_the_winning_lines_of_their_game() {
    let mut random = Random::new(403);
    let limit = 10_000;
    let mut judged = 0;
    let mut between = 0;
    for round in 0..600 {
        let (n, d) = (random.between(5, 64), random.between(1, 8));
        let mut case = random::case(&mut random, n, d);
        if round % 2 == 0 {
            (case.a, case.b) = (0, full(n));
        }
        let answer = ffi::plain(&case.file, case.a, case.b, limit);
        let (a, b) = case.bounds();
        if answer == Answer::refused(10) {
            assert!(rounds(&case.model, &a, &b, limit).is_none(), "{case:?}");
            continue;
        }
        let set = winning_lines(&case.model, &a, &b);
        assert_eq!((answer.number, answer.set), (0, word_of(&set)), "{case:?}");
        judged += 1;
        between += (set != a && set != b) as usize;
    }
    assert!(judged > 400, "only {judged} models were judged");
    assert!(between > 160, "only {between} sets strictly between their bounds");
}

#[test]
fn equal_bounds_are_the_set() {
    let mut random = Random::new(404);
    for _ in 0..500 {
        let (n, d) = (random.between(1, 64), random.between(1, 8));
        let model = random::any_model(&mut random, n, d);
        let both = random.word() & full(n);
        let case = Case::new(&mut random, model, (both, both));
        // Every level starts from the set and ends after one round: one query.
        judge_around(&case, both, 1);
    }
}

#[test]
fn plain_judging_is_refused_in_order() {
    let mut random = Random::new(405);
    let mut seen = Seen::default();
    for _ in 0..20_000 {
        let (n, d) = random::mostly_small_size(&mut random);
        let case = random::troubled_case(&mut random, n, d);
        let ceiling = random.between(0, 60) as u64;
        let answer = ffi::plain(&case.file, case.a, case.b, ceiling);
        assert_eq!(answer, reference::plain(&case.file, case.a, case.b, ceiling), "{ceiling} {case:?}");
        seen.note(answer);
        let nothing = ffi::plain(&case.file, case.a, case.b, 0);
        assert_eq!(nothing, reference::plain(&case.file, case.a, case.b, 0), "{case:?}");
    }
    seen.assert_each(&[0, 1, 2, 3, 4, 5, 6, 7, 14, 9, 10], 300);
}
