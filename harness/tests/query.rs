//! One query against the reference.

use harness::ffi;
use harness::lending::Seen;
use harness::random::{self, full, Random};
use harness::reference::{self, Kind};

/// Argument words of a model of n lines: any sets, and empty and full ones.
fn arguments(random: &mut Random, n: usize, d: usize) -> Vec<u64> {
    let mut argument = || match random.between(0, 9) {
        0 => 0,
        1 => full(n),
        2 => full(n) & !(1 << random.between(0, n - 1)),
        _ => random.word() & full(n),
    };
    (0..d).map(|_| argument()).collect()
}

#[test]
fn every_size_is_queried() {
    let mut random = Random::new(301);
    let mut different = 0;
    for n in 1..=64 {
        for d in 1..=8 {
            let model = random::any_model(&mut random, n, d);
            let file = random::file(&mut random, &model);
            for _ in 0..8 {
                let xs = arguments(&mut random, n, d);
                let answer = ffi::query(&file, &xs);
                assert_eq!(answer, reference::query(&file, &xs), "{xs:?} {file:?}");
                different += (answer.set != 0 && answer.set != full(n)) as usize;
            }
        }
    }
    assert!(different > 2000, "only {different} sets that are neither empty nor full");
}

#[test]
fn a_single_operand_is_the_bit_it_selects() {
    let mut random = Random::new(302);
    for _ in 0..2000 {
        let (n, d) = (random.between(1, 64), random.between(1, 8));
        let mut model = random::any_model(&mut random, n, d);
        let line = random.between(0, n - 1);
        let operand = reference::Operand { level: random.between(0, d - 1), line: random.between(0, n - 1) };
        model.operands[line] = vec![operand];
        // Whichever its kind.
        model.kinds[line] = [Kind::Any, Kind::All, Kind::AtLeast(1)][random.between(0, 2)];
        let xs = arguments(&mut random, n, d);
        let value = ffi::query(&random::file(&mut random, &model), &xs).set >> line & 1;
        assert_eq!(value, xs[operand.level] >> operand.line & 1, "line {line} of {model:?}");
    }
}

#[test]
fn queries_are_refused_in_order() {
    let mut random = Random::new(303);
    let mut seen = Seen::default();
    for _ in 0..20_000 {
        let (n, d) = random::mostly_small_size(&mut random);
        let case = random::troubled_case(&mut random, n, d);
        let mut xs = arguments(&mut random, n, d);
        if random.chance(30) {
            xs.truncate(random.between(0, d - 1));
        } else if random.chance(20) {
            xs.resize(random.between(d + 1, 12), 0);
        }
        if random.chance(30) && n < 64 && !xs.is_empty() {
            let at = random.between(0, xs.len() - 1);
            xs[at] |= 1 << random.between(n, 63);
        }
        let answer = ffi::query(&case.file, &xs);
        assert_eq!(answer, reference::query(&case.file, &xs), "{xs:?} {:?}", case.file);
        seen.note(answer);
    }
    seen.assert_each(&[0, 1, 2, 3, 4, 5, 6, 7, 14, 13, 9], 300);
}
