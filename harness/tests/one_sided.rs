//! Judging by the one-sided route (request W9), against document 001's Algorithm 1 with its equations as data, and against the set by its definition.

use harness::lending::{Lent, Seen};
use harness::random::{self, full, Case, Random};
use harness::reference::nested::nested;
use harness::reference::{good_lines, one_sided::one_sided, set_of, word_of, Kind, Model, Tree};
use harness::{baseline, ffi, on_a_small_stack, reference, Answer};

/// Judges by the engine in so many words of any contents, by the reference and in Rust, and compares the answers and all that is promised of the words.
fn judge_all(random: &mut Random, file: &[u8], v: &[u8], length: usize) -> Answer {
    let mut words = Lent::new(length, |count| random.words(count));
    let before = words.clone();
    let answer = ffi::one_sided(file, v, words.slice());
    assert_eq!(answer, reference::one_sided(file, v, length), "V {v:?} {length} {file:?}");
    for in_rust in [baseline::one_sided::one_sided, baseline::whole::one_sided] {
        assert_eq!(answer, in_rust(file, v, before.clone().slice()), "V {v:?} {length} {file:?}");
    }
    // What the first words hold in the end is free: they are as many as the variables, and on refusal none.
    let free = if answer.number == 0 { v.len() + 2 } else { 0 };
    words.slice()[..free].copy_from_slice(&before.clone().slice()[..free]);
    assert_eq!(words, before, "V {v:?} {length} {file:?}");
    answer
}

/// The same where it is accepted: the count lies between the leaves and the leaves times 1 + n d.
fn judge_accepted(random: &mut Random, case: &Case, v: &[u8]) -> Answer {
    let spare = random.between(0, 3);
    let answer = judge_all(random, &case.file, v, v.len() + 2 + spare);
    assert_eq!(answer.number, 0, "{v:?} {case:?}");
    let leaves = v.len() as u64 + 1;
    let most = leaves * (1 + (case.model.lines() * case.model.levels()) as u64);
    assert!((leaves..=most).contains(&answer.count), "{} {v:?} {case:?}", answer.count);
    answer
}

/// The gaps of the built-in tree of a model's greatest levels, if it may be lent.
fn built_in(model: &Model) -> Option<Vec<u8>> {
    let gaps = Tree::built_in(model.lines(), model.greatest_levels()).gaps();
    (gaps.len() <= 1023).then_some(gaps)
}

#[test]
fn every_size_has_the_stages_of_the_equations() {
    let mut random = Random::new(901);
    for n in 1..=64 {
        for d in 1..=8 {
            let case = random::case(&mut random, n, d);
            for most in [0, 3, 12, 40] {
                let v = random::tree(&mut random, case.model.greatest_levels(), most);
                judge_accepted(&mut random, &case, &v);
            }
        }
    }
}

#[test]
fn trees_of_1023_gaps_have_them_too() {
    let mut random = Random::new(902);
    for at in 0..40 {
        let (n, d) = (random.between(1, 12), random.between(2, 8));
        let mut case = random::case(&mut random, n, d);
        while case.model.greatest_levels() == 0 {
            case = random::case(&mut random, n, d);
        }
        let h = case.model.greatest_levels();
        let v = match at % 4 {
            // All gaps at the root, or falling towards the leaves, or rising from them.
            0 => vec![h as u8; 1023],
            1 => (0..1023).map(|at| (h - h * at / 1023) as u8).collect(),
            2 => (0..1023).map(|at| (1 + h * at / 1023) as u8).collect(),
            _ => random::gaps(&mut random, h, 1023),
        };
        judge_accepted(&mut random, &case, &v);
    }
}

#[test]
fn the_set_is_the_one_sided_set_and_over_universal_trees_the_nested_fixpoint() {
    let mut random = Random::new(903);
    let (mut universal, mut missed) = (0, 0);
    for _ in 0..2000 {
        let case = random::small_case(&mut random);
        let (n, h) = (case.model.lines(), case.model.greatest_levels());
        let (a, b) = (set_of(0, n), set_of(full(n), n));
        let gaps =
            if random.chance(50) { random::tree(&mut random, h, 5) } else { Tree::built_in(n, h).gaps() };
        let tree = Tree::from_gaps(h, &gaps).unwrap();
        let answer = judge_accepted(&mut random, &case, &gaps);
        assert_eq!(answer.set, word_of(&one_sided(&case.model, &a, &b, &tree)), "{gaps:?} {case:?}");
        let set = word_of(&nested(&case.model, &a, &b));
        if tree.is_universal_for(n, h) {
            assert_eq!(answer.set, set, "{gaps:?} {case:?}");
            universal += 1;
        } else {
            missed += (answer.set != set) as usize;
        }
    }
    assert!(universal > 500 && missed > 20, "{universal} universal, {missed} missed");
}

#[test]
fn over_built_in_trees_of_every_size_it_is_the_judgement() {
    let mut random = Random::new(904);
    let mut judged = 0;
    for n in 1..=64 {
        for d in 1..=8 {
            let hard = d % 2 == 0 && random.chance(50) && n >= d;
            let model = match hard {
                true => random::hard_model(&mut random, n, d / 2, 0, n / 4),
                false => random::any_model(&mut random, n, d),
            };
            let Some(v) = built_in(&model) else { continue };
            let file = random::file(&mut random, &model);
            let answer = ffi::one_sided(&file, &v, &mut vec![0; v.len() + 2]);
            assert_eq!((answer.number, answer.set), (0, word_of(&good_lines(&model))), "{model:?}");
            judged += 1;
        }
    }
    assert!(judged > 450, "{judged}");
}

#[test]
fn a_tree_without_one_of_its_gaps_misses_a_model() {
    // One greatest level, where each line holds if the next does and the last never: every leaf takes one line away.
    let mut random = Random::new(905);
    for n in 2..=64 {
        let next = (0..n - 1).map(|i| (Kind::Any, vec![(1, i + 1)]));
        let lines: Vec<_> = next.chain([(Kind::Any, vec![])]).collect();
        let lines: Vec<(Kind, &[(usize, usize)])> = lines.iter().map(|(k, o)| (*k, &o[..])).collect();
        let case = Case::new(&mut random, Model::of(&[true], &lines), (0, full(n)));
        assert_eq!(judge_accepted(&mut random, &case, &vec![1; n - 1]).set, 0);
        assert_eq!(judge_accepted(&mut random, &case, &vec![1; n - 2]).set, 1);
    }
}

#[test]
fn it_is_refused_in_order_and_then_keeps_every_word() {
    let mut random = Random::new(906);
    let mut seen = Seen::default();
    for _ in 0..20_000 {
        let (n, d) = random::mostly_small_size(&mut random);
        let case = random::troubled_case(&mut random, n, d);
        let h = case.model.greatest_levels();
        let v = if random.chance(30) {
            random::bad_tree(&mut random, h)
        } else {
            random::tree(&mut random, h, 12)
        };
        let length = match random.between(0, 5) {
            0 => v.len() + 1,
            1 => random.between(0, v.len() + 1),
            2 => v.len() + 2 + random.between(1, 20),
            _ => v.len() + 2,
        };
        seen.note(judge_all(&mut random, &case.file, &v, length));
    }
    seen.assert_each(&[0, 1, 2, 3, 4, 5, 6, 7, 14, 11, 12], 300);
}

#[test]
fn the_longest_runs_end_on_a_small_stack() {
    let mut random = Random::new(907);
    let model = random::hard_model(&mut random, 64, 4, 0, 0);
    for v in [vec![4; 1023], random::gaps(&mut random, 4, 1023)] {
        let (file, lent) = (model.file(), v.clone());
        let answer = on_a_small_stack(move || ffi::one_sided(&file, &lent, &mut vec![0; 1025]));
        assert_eq!(answer, reference::one_sided(&model.file(), &v, 1025));
    }
}
