//! Joining (request W6) against the reference, which appends lines and operands where the engine shifts words: answers, every byte of
//! the buffer, and that the joined set is the two sets side by side.

use harness::ffi::page_share;
use harness::lending::{file_length, made_both, Seen};
use harness::random::{self, full, Random, FILE_DAMAGES};
use harness::reference::nested::nested;
use harness::reference::{put, set_of, word_of, Kind, Model, Tree};
use harness::{ffi, reference, Answer};

/// Joins into a buffer of this length, by the engine and by the reference, and compares all they leave.
fn join_both(random: &mut Random, first: &[u8], second: &[u8], length: usize) -> Answer {
    join_beside(random, first, second, length, |buffer| reference::join(first, second, buffer))
}

/// The same where the reference's part is this.
fn join_beside(
    random: &mut Random,
    first: &[u8],
    second: &[u8],
    length: usize,
    make: impl FnOnce(&mut [u8]) -> Answer,
) -> Answer {
    made_both(random, (first, second), length, |buffer| ffi::join(first, second, buffer), make)
}

/// The length of the largest file.
const LARGEST: usize = 4248;

/// The joined file of two that are not refused, by the engine.
fn joined(first: &[u8], second: &[u8]) -> Vec<u8> {
    let mut file = vec![0xee; LARGEST];
    let answer = ffi::join(first, second, &mut file);
    assert_eq!(answer, Answer { length: answer.length, ..Answer::default() }, "{first:?} {second:?}");
    file.truncate(answer.length as usize);
    file
}

/// Two numbers of lines, at most so many together.
fn two_sizes(random: &mut Random, together: usize) -> [usize; 2] {
    let n = random.between(1, together - 1);
    [n, random.between(1, together - n)]
}

fn files<const COUNT: usize>(random: &mut Random, models: &[Model; COUNT]) -> [Vec<u8>; COUNT] {
    models.each_ref().map(|model| random::file(random, model))
}

#[test]
fn every_pair_of_sizes_is_joined() {
    let mut random = Random::new(1401);
    for n in 1..=63 {
        for m in 1..=64 - n {
            let d = random.between(1, 8);
            let models = random::models_alike(&mut random, [n, m], d);
            let [first, second] = files(&mut random, &models);
            let expected = models[0].joined(&models[1]).file();
            let length = file_length(n + m, d);
            for extra in [0, 1, random.between(2, 5000)] {
                let answer = join_beside(&mut random, &first, &second, length + extra, |buffer| {
                    put(&expected, buffer)
                });
                assert_eq!(answer, Answer { length: length as u64, ..Answer::default() });
            }
            for short in [length - 1, random.between(0, length - 1), 0] {
                let answer =
                    join_beside(&mut random, &first, &second, short, |buffer| put(&expected, buffer));
                assert_eq!(answer, Answer::refused(12));
            }
        }
    }
}

#[test]
fn old_and_new_files_are_mixed() {
    let mut random = Random::new(1402);
    // How often each file was a new one or an old one.
    let mut mixed = [[0; 2]; 2];
    for _ in 0..300 {
        let (sizes, d) = (two_sizes(&mut random, 64), random.between(1, 8));
        let mut models = random::models_alike(&mut random, sizes, d);
        // Votes on both sides, on one or on none; a side without has both layouts.
        for model in &mut models {
            if random.chance(60) {
                for kind in &mut model.kinds {
                    *kind = if matches!(kind, Kind::AtLeast(_)) { Kind::Any } else { *kind };
                }
            }
        }
        let layouts = models.each_ref().map(|model| {
            let old = (!model.has_votes()).then(|| model.old_file());
            [Some(model.file()), old].into_iter().flatten().collect::<Vec<_>>()
        });
        let expected = models[0].joined(&models[1]).file();
        for (i, first) in layouts[0].iter().enumerate() {
            for (j, second) in layouts[1].iter().enumerate() {
                assert_eq!(joined(first, second), expected, "{first:?} {second:?}");
                join_both(&mut random, first, second, LARGEST);
                mixed[i][j] += 1;
            }
        }
    }
    assert!(mixed.concat().iter().all(|&times| times > 100), "{mixed:?}");
}

#[test]
fn a_joined_file_is_read_as_the_parts_of_both() {
    let mut random = Random::new(1403);
    for _ in 0..500 {
        let (sizes, d) = (two_sizes(&mut random, 64), random.between(1, 8));
        let models = random::models_alike(&mut random, sizes, d);
        let [first, second] = files(&mut random, &models);
        let [n, m] = sizes;
        let parts = ffi::parts_read(&joined(&first, &second), n + m, d);
        let (first, mut second) = (ffi::parts_read(&first, n, d), ffi::parts_read(&second, m, d));
        for word in &mut second.words {
            *word <<= n;
        }
        assert_eq!((&parts.signs, &parts.signs), (&first.signs, &second.signs));
        assert_eq!(parts.kinds, [first.kinds, second.kinds].concat());
        assert_eq!(parts.thresholds, [first.thresholds, second.thresholds].concat());
        assert_eq!(parts.words, [first.words, second.words].concat());
    }
}

/// The good lines of a joined model by its game.
fn good_lines(models: &[Model; 2]) -> u64 {
    word_of(&reference::good_lines(&models[0].joined(&models[1])))
}

/// Whether both models have lines in this set of the joined one, and lines outside it.
fn is_mixed(models: &[Model; 2], set: u64) -> bool {
    let [n, m] = models.each_ref().map(Model::lines);
    let parts = [(set & full(n), full(n)), (set >> n, full(m))];
    parts.iter().all(|&(part, all)| part != 0 && part != all)
}

/// How many pairs of files were judged with the joined one, by route.
#[derive(Default)]
struct Judged {
    plainly: usize,
    by_built_in_trees: usize,
    by_lent_trees: usize,
    mixed: usize,
}

impl Judged {
    /// Judges two models' files and the joined one between empty and full, where all three are judged soon. The joined set must be the
    /// other two side by side, and this one.
    fn judge(&mut self, random: &mut Random, models: &[Model; 2], set: u64) {
        let [n, m] = models.each_ref().map(Model::lines);
        let [first, second] = files(random, models);
        let both = joined(&first, &second);
        let three = [(&first[..], full(n)), (&second[..], full(m)), (&both[..], full(n + m))];
        let compare = |answers: [Answer; 3]| {
            let accepted = answers.iter().all(|answer| answer.number == 0);
            if accepted {
                let sets = answers.map(|answer| answer.set);
                assert_eq!(sets[2], sets[0] | sets[1] << n, "{sets:?} {models:?}");
                assert_eq!(sets[2], set, "{models:?}");
            }
            accepted as usize
        };
        self.plainly += compare(three.map(|(file, all)| ffi::plain(file, 0, all, 20_000)));
        let heights = [models[0].least_levels(), models[0].greatest_levels()];
        let trees = heights.map(|h| Tree::built_in(n + m, h));
        let forecast = trees.iter().map(Tree::leaf_count).product();
        if forecast <= 200_000 {
            // The forecast of the joined file is the largest of the three.
            self.by_built_in_trees += compare(three.map(|(file, all)| ffi::built(file, 0, all, forecast)));
            // The trees for the lines of both are universal for the lines of either.
            let [u, v] = trees.map(|tree| tree.gaps());
            self.by_lent_trees += compare(three.map(|(file, all)| ffi::lent(file, 0, all, &u, &v)));
        }
        self.mixed += is_mixed(models, set) as usize;
    }

    fn assert_each(&self, least: [usize; 4]) {
        let counts = [self.plainly, self.by_built_in_trees, self.by_lent_trees, self.mixed];
        assert!(
            counts.iter().zip(least).all(|(&count, least)| count >= least),
            "{counts:?} plainly, by built-in trees, by lent ones, and with both sorts of lines on both sides"
        );
    }
}

#[test]
fn small_models_are_judged_side_by_side_as_the_definition_says() {
    let mut random = Random::new(1404);
    let mut judged = Judged::default();
    for _ in 0..800 {
        let d = random.between(1, 3);
        let n = random.between(1, 12 / d - 1);
        let sizes = [n, 12 / d - n];
        // Most small models have all lines in their set or none, so a few are drawn until both have others.
        let mut models = random::models_alike(&mut random, sizes, d);
        for _ in 0..9 {
            if is_mixed(&models, good_lines(&models)) {
                break;
            }
            models = random::models_alike(&mut random, sizes, d);
        }
        let n = sizes[0] + sizes[1];
        let set = nested(&models[0].joined(&models[1]), &set_of(0, n), &set_of(full(n), n));
        judged.judge(&mut random, &models, word_of(&set));
    }
    judged.assert_each([800, 800, 800, 150]);
}

#[test]
fn larger_models_are_judged_side_by_side_as_their_game_says() {
    let mut random = Random::new(1405);
    let mut judged = Judged::default();
    for _ in 0..200 {
        let (sizes, d) = (two_sizes(&mut random, 64), random.between(1, 5));
        let models = random::models_alike(&mut random, sizes, d);
        judged.judge(&mut random, &models, good_lines(&models));
    }
    judged.assert_each([150, 150, 120, 50]);
}

#[test]
fn sixty_four_lines_together_are_judged_side_by_side() {
    let mut random = Random::new(1406);
    let mut judged = Judged::default();
    for d in 1..=4 {
        for sizes in [[1, 63], [63, 1], [32, 32], [31, 33]] {
            let models = random::models_alike(&mut random, sizes, d);
            judged.judge(&mut random, &models, good_lines(&models));
        }
    }
    judged.assert_each([14, 14, 10, 3]);
}

#[test]
fn more_than_sixty_four_lines_together_are_refused() {
    let mut random = Random::new(1407);
    for d in 1..=8 {
        for sizes in [[1, 64], [64, 1], [33, 32], [32, 33], [2, 63], [64, 64]] {
            let models = random::models_alike(&mut random, sizes, d);
            let [first, second] = files(&mut random, &models);
            // Before 12, and also where so many lines would have room.
            for room in [0, file_length(1, d), LARGEST, 2 * LARGEST] {
                assert_eq!(join_both(&mut random, &first, &second, room), Answer::refused(2));
            }
        }
    }
}

#[test]
fn a_query_at_arguments_side_by_side_has_both_sets_side_by_side() {
    let mut random = Random::new(1408);
    for _ in 0..1000 {
        let (sizes, d) = (two_sizes(&mut random, 64), random.between(1, 8));
        let models = random::models_alike(&mut random, sizes, d);
        let [first, second] = files(&mut random, &models);
        let [xs, ys] =
            sizes.map(|n| random.words(d).into_iter().map(|word| word & full(n)).collect::<Vec<_>>());
        let n = sizes[0];
        let arguments: Vec<u64> = (0..d).map(|level| xs[level] | ys[level] << n).collect();
        let [left, right] = [ffi::query(&first, &xs), ffi::query(&second, &ys)];
        assert_eq!((left.number, right.number), (0, 0));
        let expected = Answer { set: left.set | right.set << n, ..Answer::default() };
        assert_eq!(ffi::query(&joined(&first, &second), &arguments), expected, "{arguments:?} {models:?}");
    }
}

#[test]
fn any_trees_and_bounds_give_sets_side_by_side() {
    let mut random = Random::new(1409);
    let mut judged_plainly = 0;
    for _ in 0..1000 {
        let (sizes, d) = (two_sizes(&mut random, 64), random.between(1, 8));
        let models = random::models_alike(&mut random, sizes, d);
        let [first, second] = files(&mut random, &models);
        let both = joined(&first, &second);
        let [n, m] = sizes;
        let beside = |x: u64, y: u64| x | y << n;

        // Judging by trees never asks whether a set is still the same, so any trees do.
        let ((a, b), (c, e)) = (random::bounds(&mut random, n), random::bounds(&mut random, m));
        let u = random::tree(&mut random, models[0].least_levels(), 20);
        let v = random::tree(&mut random, models[0].greatest_levels(), 20);
        let (left, right) = (ffi::lent(&first, a, b, &u, &v), ffi::lent(&second, c, e, &u, &v));
        let expected = Answer::judged(beside(left.set, right.set), left.count);
        let answer = ffi::lent(&both, beside(a, c), beside(b, e), &u, &v);
        assert_eq!(answer, expected, "{u:?} {v:?} {models:?}");

        let (left, right) = (ffi::plain(&first, a, b, 5000), ffi::plain(&second, c, e, 5000));
        let answer = ffi::plain(&both, beside(a, c), beside(b, e), 5000);
        if [left, right, answer].iter().all(|answer| answer.number == 0) {
            assert_eq!(answer.set, beside(left.set, right.set), "{models:?}");
            judged_plainly += 1;
        }
    }
    assert!(judged_plainly > 500, "only {judged_plainly} pairs were judged plainly");
}

/// Joins two models' files in either order and in every sort of buffer, which must be refused with 15.
fn refuse_to_join(random: &mut Random, models: &[Model; 2]) {
    let [first, second] = files(random, models);
    for (first, second) in [(&first, &second), (&second, &first)] {
        for room in [0, random.between(1, LARGEST), 2 * LARGEST] {
            assert_eq!(join_both(random, first, second, room), Answer::refused(15));
        }
    }
}

#[test]
fn other_levels_or_signs_are_refused_before_too_many_lines() {
    let mut random = Random::new(1410);
    for d in 1..=8 {
        for sizes in [[1, 1], [5, 7], [32, 32], [1, 64], [64, 64], two_sizes(&mut random, 64)] {
            let [first, second] = random::models_alike(&mut random, sizes, d);
            for level in 0..d {
                let mut other = second.clone();
                other.greatest[level] ^= true;
                refuse_to_join(&mut random, &[first.clone(), other]);
            }
            for levels in (1..=8).filter(|&levels| levels != d) {
                let mut other = random::any_model(&mut random, sizes[1], levels);
                // The levels that both have are of the same signs.
                let common = levels.min(d);
                other.greatest[..common].copy_from_slice(&first.greatest[..common]);
                refuse_to_join(&mut random, &[first.clone(), other]);
            }
        }
    }
}

#[test]
fn the_first_files_refusal_comes_first_and_then_the_seconds() {
    let mut random = Random::new(1411);
    for _ in 0..20 {
        for number in FILE_DAMAGES {
            let (n, d) = (random.between(1, 63), random.between(1, 8));
            let damaged = random::damaged_file(&mut random, n, d, number);
            // Of other signs, most of them, and now and then of other levels or too many lines; and every sort of buffer.
            let (n, d) = (random.between(1, 64), if random.chance(60) { d } else { random.between(1, 8) });
            let other = random::some_file(&mut random, n, d);
            for room in [0, random.between(1, LARGEST), LARGEST] {
                for (first, second) in [(&damaged, &other), (&other, &damaged), (&damaged, &damaged)] {
                    assert_eq!(join_both(&mut random, first, second, room), Answer::refused(number));
                }
            }
            for later in FILE_DAMAGES {
                let other = random::some_damaged_file(&mut random, later);
                let room = random.between(0, LARGEST);
                assert_eq!(join_both(&mut random, &damaged, &other, room), Answer::refused(number));
                assert_eq!(join_both(&mut random, &other, &damaged, room), Answer::refused(later));
            }
        }
    }
}

#[test]
fn files_cut_off_anywhere_are_refused() {
    let mut random = Random::new(1412);
    for _ in 0..10 {
        let (sizes, d) = (two_sizes(&mut random, 8), random.between(1, 3));
        let models = random::models_alike(&mut random, sizes, d);
        let [first, second] = files(&mut random, &models);
        for (cut, other) in [(&first, &second), (&second, &first)] {
            for length in 0..cut.len() {
                let expected = Answer::refused(if length < 16 { 1 } else { 5 });
                assert_eq!(join_both(&mut random, &cut[..length], other, LARGEST), expected);
                assert_eq!(join_both(&mut random, other, &cut[..length], LARGEST), expected);
            }
        }
    }
}

#[test]
fn the_first_of_several_refusals_answers() {
    let mut random = Random::new(1413);
    let mut seen = Seen::default();
    for _ in 0..10_000 {
        let (most, d) =
            if random.chance(80) { (6, random.between(1, 3)) } else { (64, random.between(1, 8)) };
        let [mut first, mut second] = random::troubled_pair(&mut random, most, d);
        if random.chance(20) {
            // Any byte, whatever it stands for.
            let file = if random.chance(50) { &mut first } else { &mut second };
            if !file.is_empty() {
                let at = random.between(0, file.len() - 1);
                file[at] ^= 1 << random.between(0, 7);
            }
        }
        let room = if random.chance(30) { random.between(0, file_length(most, d)) } else { LARGEST };
        seen.note(join_both(&mut random, &first, &second, room));
    }
    seen.assert_each(&[0, 1, 2, 3, 4, 5, 6, 7, 14, 15, 12], 150);
}

#[test]
fn a_file_is_joined_with_itself() {
    let mut random = Random::new(1414);
    for n in 1..=64 {
        let d = random.between(1, 8);
        let file = random::some_file(&mut random, n, d);
        let copy = file.clone();
        let answer = join_both(&mut random, &file, &file, LARGEST);
        assert_eq!(answer.number, if n <= 32 { 0 } else { 2 });
        assert_eq!(file, copy);
        if n <= 32 {
            let twice = joined(&file, &file);
            assert_eq!(twice, joined(&file, &copy));
            let plain = ffi::plain(&file, 0, full(n), 20_000);
            let both = ffi::plain(&twice, 0, full(2 * n), 20_000);
            // Both halves make their rounds together.
            let set = plain.set | plain.set << n;
            assert_eq!(both, Answer { set, ..plain }, "{file:?}");
        }
    }
}

#[test]
fn the_other_order_turns_the_set_round() {
    let mut random = Random::new(1415);
    let mut others = 0;
    for _ in 0..500 {
        let (sizes, d) = (two_sizes(&mut random, 64), random.between(1, 3));
        let models = random::models_alike(&mut random, sizes, d);
        let [first, second] = files(&mut random, &models);
        let [n, m] = sizes;
        let [one, other] = [joined(&first, &second), joined(&second, &first)];
        let [set, turned] = [&one, &other].map(|file| ffi::built(file, 0, full(n + m), u64::MAX).set);
        assert_eq!(turned, set >> n | (set & full(n)) << m, "{models:?}");
        others += (one != other && set != turned) as usize;
    }
    assert!(others > 200, "only {others} sets are others in the other order");
}

#[test]
fn the_share_is_the_firsts() {
    let mut random = Random::new(1418);
    let (mut others, mut of_all_lines) = (0, 0);
    for _ in 0..500 {
        let (sizes, d) = (two_sizes(&mut random, 64), random.between(1, 3));
        let models = random::models_alike(&mut random, sizes, d);
        let [first, second] = files(&mut random, &models);
        let both = joined(&first, &second);
        let share = page_share(&both);
        // No line of the second is met from line 0.
        assert_eq!(share, page_share(&first), "{models:?}");
        assert_eq!(share, reference::share_of(&models[0], &reference::good_lines(&models[0])), "{models:?}");
        assert_eq!(page_share(&joined(&second, &first)), page_share(&second), "{models:?}");
        others += (page_share(&second) != share) as usize;
        let good = good_lines(&models).count_ones() as usize;
        of_all_lines += (reference::share(good, sizes[0] + sizes[1]) != share) as usize;
    }
    assert!(others > 200, "only {others} seconds have another share");
    assert!(of_all_lines > 200, "only {of_all_lines} shares would be others if all lines counted");
}

#[test]
fn three_cabinets_are_joined_in_either_grouping() {
    let mut random = Random::new(1416);
    for _ in 0..300 {
        let (n, d) = (random.between(1, 21), random.between(1, 3));
        let (m, l) = (random.between(1, 21), random.between(1, 22));
        let models = random::models_alike(&mut random, [n, m, l], d);
        let [a, b, c] = files(&mut random, &models);
        let all = joined(&joined(&a, &b), &c);
        assert_eq!(all, joined(&a, &joined(&b, &c)), "{models:?}");
        assert_eq!(all, models[0].joined(&models[1].joined(&models[2])).file());
        let set = |file: &[u8], n: usize| ffi::built(file, 0, full(n), u64::MAX).set;
        let [x, y, z] = [(&a, n), (&b, m), (&c, l)].map(|(file, n)| set(file, n));
        assert_eq!(set(&all, n + m + l), x | y << n | z << (n + m), "{models:?}");
    }
}

#[test]
fn sixty_four_cabinets_of_one_line() {
    let mut random = Random::new(1417);
    for d in 1..=8 {
        let models = random::models_alike(&mut random, [1; 64], d);
        let cabinets = files(&mut random, &models);
        let behind = cabinets[1..].iter().fold(cabinets[0].clone(), |file, next| joined(&file, next));
        let before = cabinets[..63].iter().rev().fold(cabinets[63].clone(), |file, next| joined(next, &file));
        let expected = models[1..].iter().fold(models[0].clone(), |model, next| model.joined(next));
        assert_eq!((&behind, &before), (&expected.file(), &expected.file()));
        for (first, second) in [(&behind, &cabinets[0]), (&cabinets[0], &behind)] {
            assert_eq!(join_both(&mut random, first, second, LARGEST), Answer::refused(2));
        }
    }
}
