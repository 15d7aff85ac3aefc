//! The tables of the run: judgements, refused forecasts, pages and joined files.

use std::cell::RefCell;
use std::hint::black_box;

use harness::baseline::by_levels;
use harness::baseline::join::join;
use harness::baseline::page::page;
use harness::lending::file_length;
use harness::random::full;
use harness::reference::Tree;
use harness::{ffi, Answer, PROGRAM_CEILING};

use super::bounds::{Bound, Largest};
use super::judges::{judges_of, Judge, Layout, Route};
use super::measure::{measure, time, Effort, Times};
use super::subjects::{Make, Subject, CEILING};

pub fn heading(title: &str, layout: Layout) {
    print!("\n{title}\n{:9} {:>5} {:>6} {:6} {:>9}", "route", "lines", "levels", "model", "queries");
    for judge in judges_of(layout) {
        print!(" {:>8}", judge.name());
    }
    print!(" {:>6}", "Mq/s");
    for judge in &judges_of(layout)[1..] {
        print!(" {:>7}", judge.name());
    }
    println!(" growth");
}

/// Measures one row and prints it, with the engine's time as a multiple of the row's before. Gives that time.
pub fn row(
    (effort, largest): (Effort, &mut Largest),
    (make, layout): (Make, Layout),
    (lines, levels): (usize, usize),
    route: Route,
    before: Option<f64>,
) -> Option<f64> {
    let first = make(layout, 1, lines, levels);
    let most = first.most_queries(route);
    if most > effort.most_queries {
        return None;
    }
    let count = if most > 1_000_000 { effort.large_models } else { effort.models };
    let models: Vec<Subject> = (1..=count).map(|seed| make(layout, seed, lines, levels)).collect();
    let judges = judges_of(layout);
    let mut total = 0;
    for model in &models {
        let answer = model.judged(Judge::Engine, route);
        for &judge in judges {
            assert_eq!(answer, model.judged(judge, route), "the engine and {judge:?} judge differently");
        }
        // A plain run that was cut off has made as many queries as it may.
        total += if answer.number == 10 { CEILING } else { answer.count };
    }
    let judges: Vec<_> =
        judges.iter().map(|&judge| move |model: &Subject| model.judged(judge, route)).collect();
    let judges: Vec<&dyn Fn(&Subject) -> Answer> = judges.iter().map(|judge| judge as _).collect();
    let Times { seconds, ratios } = measure(effort, &models, &judges);
    let queries = total as f64 / models.len() as f64;
    print!("{:9} {lines:5} {levels:6} {:6} {queries:9.0}", route.name(), first.name);
    for &seconds in &seconds {
        print!(" {:>8}", time(seconds));
    }
    print!(" {:6.1}", queries / seconds[0] / 1e6);
    for ratio in &ratios[1..] {
        print!(" {ratio:7.3}");
    }
    println!("{}", before.map_or(String::new(), |before| format!(" {:6.1}", seconds[0] / before)));
    for (judge, &ratio) in judges_of(layout).iter().zip(&ratios) {
        match judge {
            Judge::Levels if first.votes && route == Route::Plain => largest.note(Bound::VotesPlainly, ratio),
            Judge::Levels => largest.note(Bound::Levels, ratio),
            Judge::Whole if lines == 64 && matches!(route, Route::Built | Route::Lent) => {
                largest.note(Bound::Whole, ratio)
            }
            _ => (),
        }
    }
    Some(seconds[0])
}

// ---- the routes side by side ----

/// The engine's queries and times by the one-sided route, by built-in trees and by plain rounds, on the same models.
pub fn print_routes(effort: Effort, largest: &mut Largest) {
    println!("\nthe routes side by side: the engine's queries and times over the built-in tree of the greatest levels (whole) or the largest that may be lent (part), by built-in trees, plainly; root: of built; last: one-sided time / built");
    println!(
        "{:6} {:>5} {:>6} {:>5} {:>9} {:>9} {:>5} {:>9} {:>9} {:>9} {:>9} {:>6}",
        "model",
        "lines",
        "levels",
        "tree",
        "one-sided",
        "built",
        "root",
        "plain",
        "one-sided",
        "built",
        "plain",
        "built"
    );
    let makes: [Make; 3] = [Subject::sparse, Subject::hard, Subject::votes];
    let routes = [Route::OneSided, Route::Built, Route::Plain];
    for lines in [32, 64] {
        for make in makes {
            for levels in [2, 4, 6, 8] {
                let models: Vec<Subject> =
                    (1..=effort.large_models).map(|seed| make(Layout::New, seed, lines, levels)).collect();
                let Subject { name, v, built_queries, .. } = &models[0];
                if *built_queries > effort.most_queries {
                    continue;
                }
                let whole = Tree::built_in(lines, levels / 2).leaf_count() == v.len() as u64 + 1;
                let mean = |route: Route| {
                    let counts = models.iter().map(|model| model.judged(Judge::Engine, route));
                    let counts: Vec<Answer> = counts.collect();
                    let over = counts.iter().any(|answer| answer.number != 0);
                    (!over).then(|| {
                        counts.iter().map(|answer| answer.count as f64).sum::<f64>() / counts.len() as f64
                    })
                };
                let calls = routes.map(|route| move |model: &Subject| model.judged(Judge::Engine, route));
                let calls: Vec<&dyn Fn(&Subject) -> Answer> = calls.iter().map(|call| call as _).collect();
                let times = measure(effort, &models, &calls);
                let [one_sided, built, plain] = routes.map(mean);
                let told =
                    |count: Option<f64>| count.map_or("over".to_string(), |count| format!("{count:.0}"));
                println!(
                    "{name:6} {lines:5} {levels:6} {:>5} {:>9} {:>9} {:5.0} {:>9} {:>9} {:>9} {:>9} {:6.2}",
                    if whole { "whole" } else { "part" },
                    told(one_sided),
                    told(built),
                    (*built_queries as f64).sqrt(),
                    told(plain),
                    time(times.seconds[0]).replace(' ', ""),
                    time(times.seconds[1]).replace(' ', ""),
                    time(times.seconds[2]).replace(' ', ""),
                    times.ratios[1]
                );
                if (lines, levels) == (64, 8) {
                    largest.note(Bound::OneSided, times.ratios[1]);
                }
            }
        }
    }
}

// ---- a refused forecast ----

/// Judging by built-in trees under a ceiling that the forecast is over: the file is checked, and nothing is judged.
pub fn print_refusals(effort: Effort, largest: &mut Largest) {
    println!("\na refused forecast, ceiling 1,000,000: by the engine and by Rust (levels); the median of the engine's time / Rust's");
    println!(
        "{:>5} {:>6} {:6} {:>9} {:>8} {:>8} {:>7}",
        "lines", "levels", "model", "forecast", "engine", "levels", "levels"
    );
    let (lines, levels) = (64, 8);
    for make in [Subject::dense, Subject::sparse] {
        let models: Vec<Subject> =
            (1..=effort.models).map(|seed| make(Layout::Old, seed, lines, levels)).collect();
        let refused = |judge: fn(&[u8], u64, u64, u64) -> Answer, model: &Subject| {
            judge(black_box(&model.file), black_box(0), black_box(full(lines)), black_box(PROGRAM_CEILING))
        };
        for model in &models {
            for judge in [ffi::built, by_levels::built] {
                assert_eq!(refused(judge, model), Answer::over(model.built_queries));
            }
        }
        let times = measure(
            effort,
            &models,
            &[&|model| refused(ffi::built, model), &|model| refused(by_levels::built, model)],
        );
        let Subject { name, built_queries, .. } = &models[0];
        let [engine, rust] = [times.seconds[0], times.seconds[1]].map(time);
        println!(
            "{lines:5} {levels:6} {name:6} {built_queries:9} {engine:>8} {rust:>8} {:7.3}",
            times.ratios[1]
        );
        largest.note(Bound::Levels, times.ratios[1]);
    }
}

// ---- the page ----

/// The bench page by the engine and by Rust with the engine's own algorithm, beside the engine's judging of the same models.
pub fn print_pages(effort: Effort, largest: &mut Largest) {
    println!("\nthe bench page, sparse: by the engine, by Rust (levels), and the engine's judging alone; the medians of the page's time / each");
    println!(
        "{:>5} {:>6} {:>8} {:>8} {:>8} {:>7} {:>7}",
        "lines", "levels", "engine", "levels", "judging", "levels", "judging"
    );
    for (lines, levels) in [(16, 2), (64, 1), (64, 2), (64, 4)] {
        let models: Vec<Subject> =
            (1..=effort.models).map(|seed| Subject::sparse(Layout::Old, seed, lines, levels)).collect();
        let made = |make: fn(&[u8], &mut [u8]) -> Answer, model: &Subject| {
            let mut buffer = [0; 2665];
            let answer = make(black_box(&model.file), &mut buffer);
            black_box(buffer);
            answer
        };
        for model in &models {
            let [by_engine, by_rust] = [ffi::page, page].map(|make: fn(&[u8], &mut [u8]) -> Answer| {
                let mut buffer = [0; 2665];
                (make(&model.file, &mut buffer), buffer)
            });
            assert!(by_engine == by_rust, "the engine and Rust make other pages");
        }
        let times = measure(
            effort,
            &models,
            &[&|model| made(ffi::page, model), &|model| made(page, model), &|model| {
                model.judged(Judge::Engine, Route::Built)
            }],
        );
        print!("{lines:5} {levels:6}");
        for seconds in times.seconds {
            print!(" {:>8}", time(seconds));
        }
        println!(" {:7.3} {:7.3}", times.ratios[1], times.ratios[2]);
        largest.note(Bound::Levels, times.ratios[1]);
    }
}

// ---- joining ----

pub type Join = fn(&[u8], &[u8], &mut [u8]) -> Answer;

/// Joining by the engine and by Rust over words, as the engine does it.
pub fn print_joins(effort: Effort, largest: &mut Largest) {
    println!("\njoining two models, sparse, in new files: by the engine and by Rust; the median of the engine's time / Rust's");
    println!("{:>5} {:>6} {:>8} {:>8} {:>7}", "lines", "levels", "engine", "rust", "rust");
    for (lines, levels) in [(8, 2), (32, 2), (32, 8)] {
        let pairs: Vec<[Subject; 2]> = (1..=effort.models)
            .map(|seed| {
                [seed, effort.models + seed].map(|seed| Subject::sparse(Layout::New, seed, lines, levels))
            })
            .collect();
        let buffer = RefCell::new([0; 4248]);
        let joined = |join: Join, [first, second]: &[Subject; 2]| {
            let mut buffer = buffer.borrow_mut();
            let answer = join(black_box(&first.file), black_box(&second.file), &mut *buffer);
            black_box(&mut *buffer);
            answer
        };
        let expected = Answer { length: file_length(2 * lines, levels) as u64, ..Answer::default() };
        for pair in &pairs {
            assert_eq!(joined(ffi::join, pair), expected);
            assert_eq!(joined(join, pair), expected);
        }
        let times = measure(effort, &pairs, &[&|pair| joined(ffi::join, pair), &|pair| joined(join, pair)]);
        let [engine, rust] = [times.seconds[0], times.seconds[1]].map(time);
        println!("{lines:2}+{lines:2} {levels:6} {engine:>8} {rust:>8} {:7.3}", times.ratios[1]);
        largest.note(Bound::Levels, times.ratios[1]);
    }
}
