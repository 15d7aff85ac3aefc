//! The forecast (request W8): judging by built-in trees, and the bench page, are refused with 10 exactly where the leaves of both trees,
//! multiplied, are more than the ceiling, and that refusal has the product as its count. The products are those of the leaves of linked trees.

use std::time::{Duration, Instant};

use harness::lending::{page_both, page_length, Seen};
use harness::random::{self, full, Case, Random, FILE_DAMAGES};
use harness::reference::forecast::{forecasts, forecasts_around, Size};
use harness::reference::game::winning_lines;
use harness::reference::plain::rounds;
use harness::reference::{forecast, word_of, Kind, Model, Tree};
use harness::{ffi, reference, Answer, PROGRAM_CEILING};

/// The largest forecast of all, and its size.
const LARGEST: u64 = 6_996_025;
const LARGEST_SIZE: Size = Size { lines: 64, least: 4, greatest: 4 };

fn judge(case: &Case, ceiling: u64) -> Answer {
    ffi::built(&case.file, case.a, case.b, ceiling)
}

/// The set of a case by its game.
fn set_of(case: &Case) -> u64 {
    let (a, b) = case.bounds();
    word_of(&winning_lines(&case.model, &a, &b))
}

/// Judges a case under ceilings that its forecast is over.
fn assert_refused(random: &mut Random, case: &Case, forecast: u64) {
    let below = random.between(0, forecast as usize - 1) as u64;
    for ceiling in [forecast - 1, forecast / 2, below, 0] {
        assert_eq!(judge(case, ceiling), Answer::over(forecast), "ceiling {ceiling}, {case:?}");
    }
}

/// Judges a case under ceilings that its forecast is not over; the lower halves of some are below it.
fn assert_judged(case: &Case, forecast: u64) {
    let expected = Answer::judged(set_of(case), forecast);
    for ceiling in [forecast, forecast + 1, 1 << 32, (1 << 32) + forecast - 1, 1 << 63, u64::MAX] {
        assert_eq!(judge(case, ceiling), expected, "ceiling {ceiling}, {case:?}");
    }
}

/// In how many cases a wrong forecast would be another one than the product.
#[derive(Default)]
struct Told {
    least_twice: usize,
    greatest_twice: usize,
    sum: usize,
    all_levels: usize,
    plain: usize,
}

impl Told {
    fn note(&mut self, case: &Case, product: u64) {
        let (n, d) = (case.model.lines(), case.model.levels());
        let leaves = |h| Tree::built_in(n, h).leaf_count();
        let [least, greatest] = [case.model.least_levels(), case.model.greatest_levels()].map(leaves);
        self.least_twice += (least * least != product) as usize;
        self.greatest_twice += (greatest * greatest != product) as usize;
        self.sum += (least + greatest != product) as usize;
        self.all_levels += (leaves(d) != product) as usize;
        let (a, b) = case.bounds();
        self.plain += rounds(&case.model, &a, &b, 1000).is_some_and(|(_, count)| count != product) as usize;
    }
}

#[test]
fn ceilings_around_the_product_at_every_size() {
    let mut random = Random::new(1601);
    let mut told = Told::default();
    let (mut judged, mut old) = (0, 0);
    for (size, forecast) in forecasts() {
        let case = random::case_of_size(&mut random, size);
        assert_refused(&mut random, &case, forecast);
        // Judging more takes long, and other tests do it.
        let most = if [1, 2, 63, 64].contains(&size.lines) { 100_000 } else { 5_000 };
        if forecast <= most {
            assert_judged(&case, forecast);
            judged += 1;
        }
        told.note(&case, forecast);
        old += random::is_old(&case.file, size.lines, size.least + size.greatest) as usize;
    }
    assert!(judged > 1000 && old > 300, "{judged} judged, {old} old files");
    let Told { least_twice, greatest_twice, sum, all_levels, plain } = told;
    assert!(
        [least_twice, greatest_twice, sum, all_levels, plain].iter().all(|&cases| cases > 1500),
        "the product is another number than the least levels' leaves twice in {least_twice} cases, the greatest's in {greatest_twice}, \
         the sum in {sum}, the leaves for all levels in {all_levels} and the plain count in {plain}"
    );
}

#[test]
fn every_leaf_count_is_the_forecast_of_levels_of_one_sign() {
    for n in 1..=64 {
        for h in 1..=8 {
            // The other tree has height 0 and one leaf.
            let leaves = Tree::built_in(n, h).leaf_count();
            assert!(h > 1 || leaves == n as u64, "L({n}, 1)");
            for greatest in [false, true] {
                let file = Model::of(&vec![greatest; h], &vec![(Kind::Any, &[][..]); n]).file();
                let judge = |ceiling| ffi::built(&file, 0, full(n), ceiling);
                assert_eq!(judge(0), Answer::over(leaves), "L({n}, {h})");
                assert_eq!(judge(leaves - 1), Answer::over(leaves), "L({n}, {h})");
                assert_eq!(judge(leaves), Answer::judged(0, leaves), "L({n}, {h})");
            }
        }
    }
}

#[test]
fn large_forecasts_are_judged_at_the_product() {
    let mut random = Random::new(1602);
    let large: Vec<(Size, u64)> =
        forecasts().into_iter().filter(|&(_, forecast)| forecast > PROGRAM_CEILING).collect();
    for _ in 0..12 {
        let (size, forecast) = large[random.between(0, large.len() - 1)];
        let case = random::case_of_size(&mut random, size);
        assert_eq!(judge(&case, forecast), Answer::judged(set_of(&case), forecast), "{case:?}");
        assert_refused(&mut random, &case, forecast);
    }
}

#[test]
fn a_ceiling_of_the_largest_forecast_judges_every_model() {
    let all = forecasts();
    let largest = all.iter().map(|&(_, forecast)| forecast).max();
    assert_eq!(largest, Some(LARGEST));
    let sizes: Vec<Size> =
        all.iter().filter(|&&(_, forecast)| forecast == LARGEST).map(|&(size, _)| size).collect();
    assert_eq!(sizes, [LARGEST_SIZE]);
    let mut random = Random::new(1603);
    for _ in 0..3 {
        let case = random::case_of_size(&mut random, LARGEST_SIZE);
        assert_eq!(judge(&case, LARGEST), Answer::judged(set_of(&case), LARGEST), "{case:?}");
        assert_eq!(judge(&case, LARGEST - 1), Answer::over(LARGEST), "{case:?}");
    }
}

#[test]
fn the_ceiling_is_looked_at_last() {
    let mut random = Random::new(1604);
    let mut seen = Seen::default();
    for _ in 0..20_000 {
        let (n, d) = random::mostly_small_size(&mut random);
        let case = random::troubled_case(&mut random, n, d);
        let forecast = forecast(&case.model);
        let ceiling = match random.between(0, 4) {
            0 => 0,
            1 => random.between(0, 20) as u64,
            2 => forecast - 1,
            3 => forecast,
            _ => random.word(),
        };
        // The reference is slow where a large model is judged, which other tests do.
        if n > 6 && ceiling >= forecast && reference::judgeable(&case.file, case.a, case.b).is_ok() {
            continue;
        }
        let answer = judge(&case, ceiling);
        let expected = reference::built(&case.file, case.a, case.b, ceiling);
        assert_eq!(answer, expected, "ceiling {ceiling}, {case:?}");
        seen.note(answer);
    }
    seen.assert_each(&[0, 1, 2, 3, 4, 5, 6, 7, 14, 9, 10], 300);
}

#[test]
fn each_damage_of_a_file_and_bad_bounds_come_before_the_ceiling() {
    let mut random = Random::new(1605);
    for _ in 0..100 {
        for number in FILE_DAMAGES {
            let (n, d) = (random.between(1, 63), random.between(1, 8));
            let file = random::damaged_file(&mut random, n, d, number);
            for (a, b) in [random::bounds(&mut random, n), random::bad_bounds(&mut random, n)] {
                for ceiling in [0, random.between(1, 1000) as u64] {
                    let answer = ffi::built(&file, a, b, ceiling);
                    assert_eq!(answer, Answer::refused(number), "ceiling {ceiling}, {a} {b} {file:?}");
                }
            }
        }
        let (n, d) = (random.between(1, 64), random.between(1, 8));
        let mut case = random::case(&mut random, n, d);
        assert_eq!(judge(&case, 0), Answer::over(forecast(&case.model)), "{case:?}");
        (case.a, case.b) = random::bad_bounds(&mut random, n);
        for ceiling in [0, random.between(1, 1000) as u64] {
            assert_eq!(judge(&case, ceiling), Answer::refused(9), "ceiling {ceiling}, {case:?}");
        }
    }
}

#[test]
fn the_forecast_depends_on_the_size_alone() {
    let mut random = Random::new(1606);
    let all = forecasts();
    for _ in 0..300 {
        let (size, forecast) = all[random.between(0, all.len() - 1)];
        let ceiling = random.between(0, forecast as usize - 1) as u64;
        // Other orders of the signs, kinds, operands and bounds; some bounds are equal, so that a plain run makes one query.
        for _ in 0..10 {
            let case = random::case_of_size(&mut random, size);
            assert_eq!(judge(&case, ceiling), Answer::over(forecast), "ceiling {ceiling}, {case:?}");
        }
    }
}

/// Calls 2,000 times what is refused for the largest forecast. That takes 2 seconds at the most; to judge as often would take over 40.
fn assert_refused_at_once(mut refuse: impl FnMut() -> Answer) {
    let begin = Instant::now();
    for call in 1..=2000 {
        assert_eq!(refuse(), Answer::over(LARGEST));
        assert!(begin.elapsed() < Duration::from_secs(2), "2 seconds for {call} calls");
    }
}

#[test]
fn nothing_is_judged_where_the_forecast_is_over_the_ceiling() {
    let file = random::model_of_size(&mut Random::new(1607), LARGEST_SIZE).file();
    assert_refused_at_once(|| ffi::built(&file, 0, full(64), LARGEST - 1));
    let mut buffer = [0; 2665];
    assert_refused_at_once(|| ffi::page(&file, &mut buffer));
}

#[test]
fn the_page_is_refused_over_a_million_before_its_buffer_is_looked_at() {
    let mut random = Random::new(1608);
    let mut sizes = 0;
    for (size, forecast) in forecasts().into_iter().filter(|&(_, forecast)| forecast > PROGRAM_CEILING) {
        let model = random::model_of_size(&mut random, size);
        let file = random::file(&mut random, &model);
        let length = page_length(size.lines);
        for room in [0, random.between(1, length - 1), length, page_length(64)] {
            assert_eq!(page_both(&mut random, &file, room), Answer::over(forecast), "{size:?}, {room}");
        }
        sizes += 1;
    }
    assert!(sizes > 100, "only {sizes} sizes have a forecast over the page's ceiling");
}

#[test]
fn the_page_is_refused_for_its_file_before_its_forecast() {
    let mut random = Random::new(1609);
    for _ in 0..20 {
        for number in FILE_DAMAGES {
            // 63 lines, so that 7 can apply.
            let model = random::model_of_size(&mut random, Size { lines: 63, ..LARGEST_SIZE });
            let mut file = if number == 14 { model.file() } else { random::file(&mut random, &model) };
            assert_eq!(page_both(&mut random, &file, 0), Answer::over(forecast(&model)));
            random::damage_file(&mut random, &mut file, 63, 8, number);
            for room in [0, page_length(63)] {
                assert_eq!(page_both(&mut random, &file, room), Answer::refused(number), "{file:?}");
            }
        }
    }
}

#[test]
fn the_pages_nearest_to_the_ceiling() {
    let mut random = Random::new(1610);
    let [(within, judged), (over, refused)] = forecasts_around(PROGRAM_CEILING);
    assert!(within <= 1_000_000 && over > 1_000_000, "{within} {over}");
    for size in judged {
        let model = random::model_of_size(&mut random, size);
        let file = random::file(&mut random, &model);
        let length = page_length(size.lines);
        let made = page_both(&mut random, &file, length);
        assert_eq!(made, Answer { length: length as u64, ..Answer::default() }, "{size:?}");
        assert_eq!(page_both(&mut random, &file, length - 1), Answer::refused(12), "{size:?}");
    }
    for size in refused {
        let model = random::model_of_size(&mut random, size);
        let file = random::file(&mut random, &model);
        for room in [0, page_length(64)] {
            assert_eq!(page_both(&mut random, &file, room), Answer::over(over), "{size:?}");
        }
    }
}
