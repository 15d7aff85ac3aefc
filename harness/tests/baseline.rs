//! The benchmark's Rust implementations against the reference, so that the benchmark compares equal work.

use harness::baseline::join::join;
use harness::baseline::page::{met_lines, page};
use harness::baseline::{by_levels, whole};
use harness::lending::{file_length, Seen};
use harness::random::{self, full, Case, Random};
use harness::reference::forecast::forecasts;
use harness::reference::{self, forecast, word_of, Model};
use harness::Answer;

#[test]
fn the_baselines_judge_as_the_reference_does() {
    let mut random = Random::new(901);
    let (mut seen, mut seen_built) = (Seen::default(), Seen::default());
    for _ in 0..5000 {
        let (n, d) = (random.between(1, 64), random.between(1, 8));
        let (n, d) = if random.chance(80) { (n.min(8), d.min(3)) } else { (n, d) };
        let case = random::troubled_case(&mut random, n, d);
        let (file, a, b) = (&case.file, case.a, case.b);
        let heights = [case.model.least_levels(), case.model.greatest_levels()];
        let mut trees = heights.map(|h| random::tree(&mut random, h, 20));
        if random.chance(20) {
            let side = random.between(0, 1);
            trees[side] = random::bad_tree(&mut random, heights[side]);
        }
        let [u, v] = &trees;
        let lent = whole::lent(file, a, b, u, v);
        assert_eq!(lent, reference::lent(file, a, b, u, v), "{trees:?} {case:?}");
        assert_eq!(lent, by_levels::lent(file, a, b, u, v), "{trees:?} {case:?}");
        let plain = whole::plain(file, a, b, 100);
        assert_eq!(plain, reference::plain(file, a, b, 100), "{case:?}");
        assert_eq!(plain, by_levels::plain(file, a, b, 100), "{case:?}");
        let forecast = forecast(&case.model);
        for ceiling in [0, forecast - 1, forecast, u64::MAX] {
            // The reference is slow where a large model is judged.
            if n <= 8 || ceiling < forecast {
                let built = reference::built(file, a, b, ceiling);
                assert_eq!(whole::built(file, a, b, ceiling), built, "{ceiling} {case:?}");
                assert_eq!(by_levels::built(file, a, b, ceiling), built, "{ceiling} {case:?}");
                seen_built.note(built);
            }
        }
        seen.note(lent);
        seen.note(plain);
    }
    seen.assert_each(&[0, 1, 2, 3, 4, 5, 6, 7, 14, 9, 10, 11], 50);
    seen_built.assert_each(&[0, 1, 2, 3, 4, 5, 6, 7, 14, 9, 10], 100);
}

#[test]
fn the_baselines_forecast_every_size_as_the_reference_does() {
    let mut random = Random::new(906);
    for (size, forecast) in forecasts() {
        let Case { file, a, b, .. } = random::case_of_size(&mut random, size);
        for ceiling in [0, forecast - 1] {
            for built in [whole::built, by_levels::built] {
                assert_eq!(built(&file, a, b, ceiling), Answer::over(forecast), "{size:?}");
            }
        }
    }
}

#[test]
fn the_baseline_makes_pages_as_the_reference_does() {
    let mut random = Random::new(902);
    let mut seen = Seen::default();
    for _ in 0..2000 {
        let (n, d) = random::size_for_page(&mut random);
        let file = random::troubled_case(&mut random, n, d).file;
        let room = random.between(0, 100 * n);
        let mut made = random.bytes(room);
        let mut expected = made.clone();
        let answer = page(&file, &mut made);
        assert_eq!(answer, reference::page(&file, &mut expected), "{room} {file:?}");
        assert_eq!(made, expected, "{file:?}");
        seen.note(answer);
    }
    seen.assert_each(&[0, 1, 2, 3, 4, 5, 6, 7, 14, 10, 12], 20);
}

#[test]
fn the_baseline_meets_the_lines_that_the_reference_does() {
    let mut random = Random::new(905);
    let (mut all, mut spare, mut refused) = (0, 0, 0);
    for _ in 0..5000 {
        let (n, d) = (random.between(1, 64), random.between(1, 8));
        let model = random::sparse_model(&mut random, n, d);
        let mut file = random::file(&mut random, &model);
        if random.chance(20) {
            random::damage_file_often(&mut random, &mut file, n, d);
        }
        let expected = Model::from_file(&file).map(|model| word_of(&reference::met_lines(&model)));
        assert_eq!(met_lines(&file), expected, "{file:?}");
        *(match expected {
            Ok(met) if met == full(n) => &mut all,
            Ok(_) => &mut spare,
            Err(_) => &mut refused,
        }) += 1;
    }
    assert!(
        all > 200 && spare > 2000 && refused > 500,
        "{all} with all lines met, {spare} others, {refused} refused"
    );
}

#[test]
fn the_baseline_joins_as_the_reference_does() {
    let mut random = Random::new(904);
    let mut seen = Seen::default();
    for _ in 0..4000 {
        let (most, d) =
            if random.chance(80) { (8, random.between(1, 3)) } else { (64, random.between(1, 8)) };
        let [first, second] = random::troubled_pair(&mut random, most, d);
        let room = random.between(0, 3 * file_length(most, d));
        let mut made = random.bytes(room);
        let mut expected = made.clone();
        let answer = join(&first, &second, &mut made);
        assert_eq!(answer, reference::join(&first, &second, &mut expected), "{room} {first:?} {second:?}");
        assert_eq!(made, expected, "{first:?} {second:?}");
        seen.note(answer);
    }
    seen.assert_each(&[0, 1, 2, 3, 4, 5, 6, 7, 14, 15, 12], 50);
}

#[test]
fn the_baseline_rounds_every_share_as_the_reference_does() {
    let mut random = Random::new(903);
    for n in 1..=64 {
        for good in 0..=n {
            let model = random::model_with_good_lines(&mut random, n, good);
            for spares in [0, random.between(0, 64 - n)] {
                let file = random::with_spares(&mut random, &model, spares).file();
                let mut made = vec![0; 41 * (n + spares + 1)];
                let mut expected = made.clone();
                let answer = page(&file, &mut made);
                assert_eq!(answer, reference::page(&file, &mut expected), "{good} of {n}, {spares} spares");
                assert_eq!(made, expected, "{good} of {n}, {spares} spares");
                let share = String::from_utf8_lossy(&made[24..28]).into_owned();
                assert_eq!(share, format!("{:4}", reference::share(good, n)), "{spares} spares");
            }
        }
    }
}
