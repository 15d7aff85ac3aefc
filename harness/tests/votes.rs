//! Votes (request W4) in every operation: a line that is set where at least so many of its operands are.

use harness::random::{self, full, Case, Random, Written};
use harness::reference::model::Parts;
use harness::reference::nested::nested;
use harness::reference::plain::rounds;
use harness::reference::{set_of, word_of, Kind, Model, Operand, Tree};
use harness::{ffi, Answer};

fn write(n: usize, d: usize, parts: &Parts, buffer: &mut [u8]) -> Answer {
    let Parts { signs, kinds, thresholds, words } = parts;
    ffi::write(n, d, signs, kinds, thresholds, words, buffer)
}

/// Each possible operand of n lines and d levels with this chance in a hundred.
fn operands(random: &mut Random, n: usize, d: usize, share: usize) -> Vec<Operand> {
    let all = (0..d).flat_map(|level| (0..n).map(move |line| Operand { level, line }));
    all.filter(|_| random.chance(share)).collect()
}

#[test]
fn random_models_have_votes_of_every_sort() {
    let mut random = Random::new(1201);
    let (mut ones, mut twos, mut alls, mut others, mut across) = (0, 0, 0, 0, 0);
    let (mut without, mut alone, mut old) = (0, 0, 0);
    for _ in 0..1000 {
        let (n, d) = (random.between(1, 64), random.between(1, 8));
        let Case { model, file, .. } = random::case(&mut random, n, d);
        for (kind, operands) in model.kinds.iter().zip(&model.operands) {
            if let &Kind::AtLeast(t) = kind {
                let at = |level| operands.iter().filter(|o| o.level == level).count();
                *(match t {
                    1 => &mut ones,
                    2 => &mut twos,
                    _ if t == operands.len() => &mut alls,
                    _ => &mut others,
                }) += 1;
                // No level alone has as many operands as the vote needs.
                across += (0..d).all(|level| at(level) < t) as usize;
            }
        }
        without += !model.has_votes() as usize;
        alone += (0..n).all(|i| model.is_vote(i) || model.is_idle(i)) as usize;
        old += random::is_old(&file, n, d) as usize;
    }
    for count in [ones, twos, alls, others, across] {
        assert!(count > 300, "{ones} of one, {twos} of two, {alls} of all, {others} others, {across} across");
    }
    assert!(without > 200 && alone > 20 && old > 100, "{without} without, {alone} alone, {old} old files");
}

#[test]
fn thresholds_around_their_limits_in_every_operation() {
    let mut random = Random::new(1202);
    let (mut accepted, mut refused) = (0, 0);
    for m in (0..=12_usize).chain([63, 64, 65, 127, 128, 253, 254, 255, 256, 257, 300, 511, 512]) {
        let n = m.clamp(1, 64);
        let d = m.div_ceil(n).max(1);
        // Line i has m operands; all levels have one sign, so that the built-in trees are small.
        let i = random.between(0, n - 1);
        let mut of_line = operands(&mut random, n, d, 100);
        while of_line.len() > m {
            of_line.remove(random.between(0, of_line.len() - 1));
        }
        let mut operands = vec![Vec::new(); n];
        operands[i] = of_line;
        let greatest = vec![random.chance(50); d];
        let parts = Model { greatest, kinds: vec![Kind::Any; n], operands }.parts();
        let mut thresholds = vec![0, 1, 2, m.saturating_sub(1), m, m + 1, 254, 255];
        thresholds.retain(|&t| t <= 255);
        thresholds.sort();
        thresholds.dedup();
        for kind in 0..=2 {
            for &t in &thresholds {
                let fits = if kind == 2 { (1..=m).contains(&t) } else { t == 0 };
                let mut parts = parts.clone();
                (parts.kinds[i], parts.thresholds[i]) = (kind, t as u8);
                // The file by hand: the one of thresholds that fit, with this record put in.
                let mut file = vec![0; 16 + d + 2 * n + 8 * n * d];
                let mut fitting = parts.clone();
                (fitting.kinds[i], fitting.thresholds[i]) = (0, 0);
                assert_eq!(write(n, d, &fitting, &mut file).number, 0);
                file[16 + d + 2 * i..16 + d + 2 * i + 2].copy_from_slice(&[kind, t as u8]);

                let mut written = vec![0; file.len()];
                let answer = write(n, d, &parts, &mut written);
                if fits {
                    assert_eq!(answer, Answer { length: file.len() as u64, ..Answer::default() });
                    assert_eq!(written, file);
                    accepted += 1;
                } else {
                    assert_eq!(answer, Answer::refused(14), "kind {kind}, {t} of {m}");
                    assert!(written.iter().all(|&byte| byte == 0));
                    refused += 1;
                }
                for answer in ffi::all_of_file(&file, n, d) {
                    assert_eq!(answer.number, if fits { 0 } else { 14 }, "kind {kind}, {t} of {m}");
                }
            }
        }
    }
    assert!(accepted > 100 && refused > 100, "{accepted} accepted, {refused} refused");
}

/// Line 0 at each of the d levels that a word has.
fn of_line_0(levels: u32, d: usize) -> Vec<Operand> {
    let at = (0..d).filter(|level| levels >> level & 1 == 1);
    at.map(|level| Operand { level, line: 0 }).collect()
}

#[test]
fn a_line_selected_at_several_levels_counts_once_a_level() {
    for d in 1..=6 {
        for selected in 1_u32..1 << d {
            let operands = of_line_0(selected, d);
            for t in 1..=operands.len() {
                let file = Model {
                    greatest: vec![false; d],
                    kinds: vec![Kind::AtLeast(t)],
                    operands: vec![operands.clone()],
                }
                .file();
                for set in 0_u32..1 << d {
                    let xs: Vec<u64> = (0..d).map(|level| (set >> level & 1) as u64).collect();
                    let value = (selected & set).count_ones() as usize >= t;
                    let expected = Answer { set: value as u64, ..Answer::default() };
                    assert_eq!(ffi::query(&file, &xs), expected, "{t} of {selected:b} {set:b}");
                }
            }
        }
    }
}

/// A model whose lines, where they have operands, are votes that are just reached at these arguments, or just not; with the
/// lines that are set. Idle lines are of kind any.
fn close_votes(random: &mut Random, greatest: Vec<bool>, xs: &[u64], n: usize) -> (Model, u64) {
    let mut model = Model { greatest, kinds: vec![Kind::Any; n], operands: Vec::new() };
    let mut set = 0;
    for i in 0..n {
        let share = [3, 20, 50, 90, 100][random.between(0, 4)];
        let operands = operands(random, n, xs.len(), share);
        let count = operands.iter().filter(|o| xs[o.level] >> o.line & 1 == 1).count();
        let t = count + random.between(0, 1);
        // Neither 0 nor more than there are, nor more than a byte holds.
        let t = t.clamp(1, operands.len().clamp(1, 255));
        if !operands.is_empty() {
            model.kinds[i] = Kind::AtLeast(t);
            set |= ((count >= t) as u64) << i;
        }
        model.operands.push(operands);
    }
    (model, set)
}

#[test]
fn votes_that_are_just_reached_and_just_not() {
    let mut random = Random::new(1203);
    let mut both = 0;
    for _ in 0..3000 {
        let (n, d) = (random.between(1, 64), random.between(1, 8));
        let xs: Vec<u64> = random.words(d).iter().map(|word| word & full(n)).collect();
        let signs = random::signs(&mut random, d);
        let (model, set) = close_votes(&mut random, signs, &xs, n);
        assert_eq!(ffi::query(&model.file(), &xs), Answer { set, ..Answer::default() }, "{xs:?} {model:?}");
        both += (set != 0 && set != full(n)) as usize;

        // Over trees of one leaf the one query has A at each least level and B at each greatest.
        let (a, b) = random::bounds(&mut random, n);
        let signs = random::signs(&mut random, d);
        let xs: Vec<u64> = signs.iter().map(|&greatest| if greatest { b } else { a }).collect();
        let (model, set) = close_votes(&mut random, signs, &xs, n);
        let judged = ffi::lent(&model.file(), a, b, &[], &[]);
        assert_eq!(judged, Answer::judged(a | (b & set), 1), "{a} {b} {model:?}");
    }
    assert!(both > 1000, "only {both} sets that are neither empty nor full");
}

#[test]
fn votes_of_512_operands() {
    let operands: Vec<Operand> =
        (0..8).flat_map(|level| (0..64).map(move |line| Operand { level, line })).collect();
    let file = |greatest: &[bool], t: usize| {
        let kinds = vec![Kind::AtLeast(t); 64];
        Model { greatest: greatest.to_vec(), kinds, operands: vec![operands.clone(); 64] }.file()
    };
    let mut random = Random::new(1204);
    for t in [1, 2, 63, 64, 65, 127, 128, 129, 254, 255] {
        let file = file(&[false; 8], t);
        for count in [t - 1, t, t + 1, 256, 511, 512] {
            // So many operands that are set: all at the first levels, or anywhere.
            let mut chosen = operands.clone();
            if random.chance(50) {
                chosen.sort_by_cached_key(|_| random.word());
            }
            let mut xs = [0; 8];
            for operand in &chosen[..count] {
                xs[operand.level] |= 1 << operand.line;
            }
            let set = if count >= t { u64::MAX } else { 0 };
            assert_eq!(ffi::query(&file, &xs), Answer { set, ..Answer::default() }, "{t}, {count} are set");
        }
    }
    // 31 lines are 248 operands at eight levels, and 32 are 256: with 255 needed, the one supports nothing and the other all.
    for (lines, supports) in [(31, false), (32, true)] {
        let some = full(lines) << random.between(0, 64 - lines);
        let least = file(&[false; 8], 255);
        let set = if supports { u64::MAX } else { some };
        let greatest = file(&[true; 8], 255);
        let kept = if supports { some } else { 0 };
        // The built-in tree of height 8 for 64 lines has this many leaves, and the one of height 0 has one.
        let leaves = Tree::built_in(64, 8).leaf_count();
        assert_eq!(ffi::built(&least, some, u64::MAX, leaves), Answer::judged(set, leaves));
        assert_eq!(ffi::built(&greatest, 0, some, leaves), Answer::judged(kept, leaves));
        assert_eq!(ffi::plain(&least, some, u64::MAX, 1 << 20).set, set);
        assert_eq!(ffi::plain(&greatest, 0, some, 1 << 20).set, kept);
    }
    // Four least levels have A and four greatest ones B: 60 lines are 240 operands, and 3 or 4 more are 12 or 16.
    let mixed = file(&random::alternating(8, true), 255);
    assert_eq!(ffi::lent(&mixed, full(3), full(60), &[], &[]), Answer::judged(full(3), 1));
    assert_eq!(ffi::lent(&mixed, full(4), full(60), &[], &[]), Answer::judged(full(60), 1));
}

/// Every kind that a line of so many operands may have.
fn kinds(operands: usize) -> Vec<Kind> {
    [Kind::Any, Kind::All].into_iter().chain((1..=operands).map(Kind::AtLeast)).collect()
}

/// Judges a model in every way between these bounds, and compares with the nested fixpoint by its definition.
fn judge_all(model: &Model, a: u64, b: u64) {
    let n = model.lines();
    let (lower, upper) = (set_of(a, n), set_of(b, n));
    let set = word_of(&nested(model, &lower, &upper));
    let (_, count) = rounds(model, &lower, &upper, u64::MAX).unwrap();
    let trees = [model.least_levels(), model.greatest_levels()].map(|h| Tree::built_in(n, h).gaps());
    let [u, v] = &trees;
    let leaves = (u.len() as u64 + 1) * (v.len() as u64 + 1);
    let file = model.file();
    assert_eq!(ffi::plain(&file, a, b, count), Answer::judged(set, count), "{a} {b} {model:?}");
    assert_eq!(ffi::built(&file, a, b, leaves), Answer::judged(set, leaves), "{a} {b} {model:?}");
    assert_eq!(ffi::lent(&file, a, b, u, v), Answer::judged(set, leaves), "{a} {b} {model:?}");
}

#[test]
fn every_model_of_one_line() {
    for d in 1..=5 {
        for (signs, selected) in (0_u32..1 << d).flat_map(|signs| (0_u32..1 << d).map(move |s| (signs, s))) {
            let greatest: Vec<bool> = (0..d).map(|level| signs >> level & 1 == 1).collect();
            let operands = of_line_0(selected, d);
            for kind in kinds(operands.len()) {
                let model =
                    Model { greatest: greatest.clone(), kinds: vec![kind], operands: vec![operands.clone()] };
                judge_all(&model, 0, 1);
            }
        }
    }
}

#[test]
fn every_model_of_two_lines_and_two_levels() {
    let places = [(0, 0), (0, 1), (1, 0), (1, 1)].map(|(level, line)| Operand { level, line });
    let selections: Vec<Vec<Operand>> = (0..16)
        .map(|word| (0..4).filter(|place| word >> place & 1 == 1).map(|place| places[place]).collect())
        .collect();
    for greatest in [[false, false], [false, true], [true, false], [true, true]] {
        for (first, second) in selections.iter().flat_map(|x| selections.iter().map(move |y| (x, y))) {
            for first_kind in kinds(first.len()) {
                for second_kind in kinds(second.len()) {
                    let model = Model {
                        greatest: greatest.to_vec(),
                        kinds: vec![first_kind, second_kind],
                        operands: vec![first.clone(), second.clone()],
                    };
                    judge_all(&model, 0, 3);
                }
            }
        }
    }
}

#[test]
fn a_vote_of_one_is_any_and_a_vote_of_all_is_all() {
    let mut random = Random::new(1205);
    let mut replaced = 0;
    for _ in 0..2000 {
        let (n, d) = (random.between(1, 64), random.between(1, 4));
        let Case { model, file, a, b } = random::case(&mut random, n, d);
        let mut voted = model.clone();
        for i in 0..n {
            let all = model.operands[i].len();
            match model.kinds[i] {
                Kind::Any if all > 0 => voted.kinds[i] = Kind::AtLeast(1),
                Kind::All if (1..=255).contains(&all) => voted.kinds[i] = Kind::AtLeast(all),
                _ => {}
            }
        }
        let other = voted.file();
        let xs: Vec<u64> = random.words(d).iter().map(|word| word & full(n)).collect();
        let u = random::tree(&mut random, model.least_levels(), 12);
        let v = random::tree(&mut random, model.greatest_levels(), 12);
        assert_eq!(ffi::query(&other, &xs), ffi::query(&file, &xs), "{xs:?} {model:?}");
        assert_eq!(ffi::plain(&other, a, b, 1000), ffi::plain(&file, a, b, 1000), "{a} {b} {model:?}");
        let built = [&other, &file].map(|file| ffi::built(file, a, b, u64::MAX));
        assert_eq!(built[0], built[1], "{a} {b} {model:?}");
        let lent = [&other, &file].map(|file| ffi::lent(file, a, b, &u, &v));
        assert_eq!(lent[0], lent[1], "{a} {b} {u:?} {v:?} {model:?}");
        replaced += (voted != model) as usize;
    }
    assert!(replaced > 1500, "only {replaced} models had lines to replace");
}

#[test]
fn a_dual_model_has_the_complement() {
    let mut random = Random::new(1206);
    let mut voted = 0;
    for _ in 0..2000 {
        // At most 255 operands, so that the dual's votes have files.
        let d = random.between(1, 8);
        let n = random.between(1, 255 / d).min(64);
        let Case { model, file, a, b } = random::case(&mut random, n, d);
        let (dual, outside) = (model.dual().file(), |set: u64| full(n) & !set);
        let u = random::tree(&mut random, model.least_levels(), 30);
        let v = random::tree(&mut random, model.greatest_levels(), 30);
        let (right, turned) =
            (ffi::lent(&file, a, b, &u, &v), ffi::lent(&dual, outside(b), outside(a), &v, &u));
        assert_eq!(turned, Answer { set: outside(right.set), ..right }, "{a} {b} {u:?} {v:?} {model:?}");
        let (right, turned) =
            (ffi::plain(&file, a, b, 1000), ffi::plain(&dual, outside(b), outside(a), 1000));
        if right.number == 0 {
            assert_eq!(turned, Answer { set: outside(right.set), ..right }, "{a} {b} {model:?}");
        } else {
            assert_eq!(turned, right, "{a} {b} {model:?}");
        }
        voted += model.has_votes() as usize;
    }
    assert!(voted > 1000, "only {voted} models with votes");
}

#[test]
fn a_misfit_is_looked_for_after_stray_lines_and_before_what_an_operation_adds() {
    let mut random = Random::new(1207);
    for _ in 0..500 {
        let (n, d) = (random.between(1, 63), random.between(1, 8));
        let file = random::damaged_file(&mut random, n, d, 14);
        let misfit = Answer::refused(14);
        let (a, b) = random::bad_bounds(&mut random, n);
        let lengths = [d - 1, n - 1, n - 1, n * d - 1];
        let (mut bytes, mut words) =
            ([vec![9; lengths[0]], vec![9; lengths[1]], vec![9; lengths[2]]], vec![9; lengths[3]]);
        let [signs, kinds, thresholds] = &mut bytes;
        assert_eq!(ffi::read(&file, signs, kinds, thresholds, &mut words), misfit);
        assert!(bytes.concat().iter().all(|&byte| byte == 9) && words.iter().all(|&word| word == 9));
        assert_eq!(ffi::query(&file, &vec![u64::MAX; d]), misfit);
        assert_eq!(ffi::query(&file, &[]), misfit);
        assert_eq!(ffi::plain(&file, a, b, 100), misfit);
        assert_eq!(ffi::plain(&file, 0, full(n), 0), misfit);
        assert_eq!(ffi::built(&file, a, b, u64::MAX), misfit);
        assert_eq!(ffi::built(&file, 0, full(n), 0), misfit);
        assert_eq!(ffi::lent(&file, a, b, &[0], &[0]), misfit);
        assert_eq!(ffi::lent(&file, 0, full(n), &[0], &[0]), misfit);
        assert_eq!(ffi::page(&file, &mut []), misfit);
        assert_eq!(ffi::join(&file, &file, &mut []), misfit);

        let mut stray = file.clone();
        random::damage_file(&mut random, &mut stray, n, d, 7);
        for answer in ffi::all_of_file(&stray, n, d) {
            assert_eq!(answer, Answer::refused(7));
        }

        // The later damage is looked for earlier.
        let mut written = Written { n, d, parts: random::any_model(&mut random, n, d).parts() };
        for number in [14, 7, 6, 13] {
            random::damage_written(&mut random, &mut written, number);
            assert_eq!(write(n, d, &written.parts, &mut []), Answer::refused(number), "{written:?}");
        }
    }
}
