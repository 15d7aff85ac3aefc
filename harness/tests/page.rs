//! The bench page against the reference, which lays it out with Rust's own formatting: answers, and every byte of the buffer.

use harness::ffi::{page_of, page_share};
use harness::lending::{page_beside, page_both, page_length, Seen};
use harness::random::{self, full, Random, FILE_DAMAGES};
use harness::reference::forecast::forecasts;
use harness::reference::{forecast, page_text, put};
use harness::{ffi, reference, root, Answer, PROGRAM_CEILING};

fn model_file(name: &str) -> Vec<u8> {
    std::fs::read(root(&format!("models/{name}"))).expect("it is there")
}

#[test]
fn the_pages_of_p_and_q() {
    assert_eq!(
        page_of(&model_file("p.model")),
        "lines  2 levels 2 share 1000            \n \
         0 all +                                \n \
         1 any +                                \n"
    );
    assert_eq!(
        page_of(&model_file("q.model")),
        "lines  2 levels 2 share    0            \n \
         0 all -                                \n \
         1 any -                                \n"
    );
}

#[test]
fn every_size_has_its_page() {
    let mut random = Random::new(1001);
    let (mut made, mut refused) = (0, 0);
    for n in 1..=64 {
        for d in 1..=8 {
            let model = random::any_model(&mut random, n, d);
            let file = random::file(&mut random, &model);
            let text = page_text(&model).into_bytes();
            let forecast = forecast(&model);
            for extra in [0, random.between(1, 3000)] {
                let length = page_length(n) + extra;
                if forecast > PROGRAM_CEILING {
                    page_beside(&mut random, &file, length, |_| Answer::over(forecast));
                    refused += 1;
                    continue;
                }
                let answer = page_beside(&mut random, &file, length, |buffer| put(&text, buffer));
                assert_eq!(answer, Answer { length: page_length(n) as u64, ..Answer::default() });
                made += 1;
            }
        }
    }
    assert!(made > 800 && refused > 50, "{made} made, {refused} refused");
}

#[test]
fn every_buffer_length_around_the_page() {
    let mut random = Random::new(1002);
    for n in 1..=64 {
        let model = random::any_model(&mut random, n, 2);
        let file = random::file(&mut random, &model);
        let (length, text) = (page_length(n), page_text(&model).into_bytes());
        for room in length.saturating_sub(90)..length + 45 {
            let answer = page_beside(&mut random, &file, room, |buffer| put(&text, buffer));
            assert_eq!(answer.number, if room < length { 12 } else { 0 });
        }
    }
    for room in 0..=2 * page_length(2) {
        page_both(&mut random, &model_file("p.model"), room);
    }
}

#[test]
fn a_refused_file_has_its_number_in_every_buffer() {
    let mut random = Random::new(1003);
    for _ in 0..100 {
        for number in FILE_DAMAGES {
            let file = random::some_damaged_file(&mut random, number);
            for room in [0, random.between(1, page_length(64)), page_length(64)] {
                assert_eq!(page_both(&mut random, &file, room).number, number, "{file:?}");
            }
        }
    }
}

#[test]
fn the_first_of_several_refusals_answers() {
    let mut random = Random::new(1004);
    let mut seen = Seen::default();
    for _ in 0..5_000 {
        let (n, d) = random::size_for_page(&mut random);
        let file = random::troubled_case(&mut random, n, d).file;
        let room = random.between(0, 2 * page_length(n));
        seen.note(page_both(&mut random, &file, room));
    }
    seen.assert_each(&[0, 1, 2, 3, 4, 5, 6, 7, 14, 10, 12], 100);
}

#[test]
fn models_of_64_lines_have_their_page_up_to_the_ceiling() {
    let mut random = Random::new(1005);
    let (mut made, mut refused) = (0, 0);
    for (size, forecast) in forecasts().into_iter().filter(|(size, _)| size.lines == 64) {
        let model = random::model_of_size(&mut random, size);
        let file = random::file(&mut random, &model);
        if forecast > PROGRAM_CEILING {
            assert_eq!(page_both(&mut random, &file, 2665), Answer::over(forecast));
            refused += 1;
        } else {
            assert_eq!(page_both(&mut random, &file, 2665).length, 2665);
            assert_eq!(page_both(&mut random, &file, 2664), Answer::refused(12));
            made += 1;
        }
    }
    assert!(made > 25 && refused > 10, "{made} made, {refused} refused");
    for _ in 0..4 {
        let [hard, harder] = [2, 4].map(|h| random::hard_model(&mut random, 64, h, 20, 30).file());
        assert_eq!(page_both(&mut random, &hard, 2665).length, 2665);
        assert_eq!(page_both(&mut random, &harder, 2665), Answer::over(6_996_025));
    }
    let largest = model_file("largest.model");
    assert_eq!(page_both(&mut random, &largest, 2665), Answer::over(6_996_025));
}

#[test]
fn the_page_marks_the_lines_that_judging_finds() {
    let mut random = Random::new(1006);
    let mut mixed = 0;
    for _ in 0..300 {
        let (n, d) = (random.between(1, 64), random.between(1, 4));
        let model = random::any_model(&mut random, n, d);
        let file = random::file(&mut random, &model);
        let page = page_of(&file);
        let marks = page.lines().skip(1).map(|row| row.as_bytes()[7]);
        let set = marks.enumerate().filter(|&(_, mark)| mark == b'+').map(|(i, _)| 1 << i).sum::<u64>();
        assert_eq!(set, ffi::built(&file, 0, full(n), PROGRAM_CEILING).set, "{page}");
        mixed += (set != 0 && set != full(n)) as usize;
    }
    assert!(mixed > 100, "{mixed} pages have lines of both marks");
}

#[test]
fn every_share_is_the_nearest_number_or_the_even_one() {
    let mut random = Random::new(1007);
    let (mut down, mut up) = (0, 0);
    let (mut good_spares, mut other_spares) = (0, 0);
    for n in 1..=64 {
        for good in 0..=n {
            // All n lines are met.
            let model = random::model_with_good_lines(&mut random, n, good);
            let file = random::file(&mut random, &model);
            let page = page_of(&file);
            assert_eq!(page.matches('+').count(), good, "{page}");
            let share = page_share(&file);
            assert_eq!(share, reference::share(good, n), "{good} of {n}");
            let (rounded, exact) = (2 * n * share as usize, 2000 * good);
            down += (rounded + n == exact) as usize;
            up += (rounded == exact + n) as usize;
            // As many spare lines as there is room for, and fewer.
            for spares in [64 - n, random.between(0, 64 - n)] {
                let longer = random::with_spares(&mut random, &model, spares);
                let file = random::file(&mut random, &longer);
                let page = page_of(&file);
                assert_eq!(page_share(&file), share, "{good} of {n} and {spares} spares: {page}");
                let marked = page.matches('+').count();
                good_spares += marked - good;
                other_spares += spares - (marked - good);
            }
        }
    }
    // A half comes of an odd number of sixteenths: eight such numbers for each of 16, 32, 48 and 64 lines, every other one rounded up.
    assert_eq!((down, up), (16, 16));
    assert!(
        good_spares > 10_000 && other_spares > 10_000,
        "{good_spares} good spares, {other_spares} others"
    );
}
