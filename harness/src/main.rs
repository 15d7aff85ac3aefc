//! Speed of the engine beside safe Rust, with a whole query at each leaf and with the engine's own algorithm, and beside an
//! earlier engine where one is linked (`earlier.sh`): all are called in turn in one run.
//!
//! `cargo run --release` takes some minutes, and fails where a bound is not held; `cargo run --release -- --quick` takes some
//! seconds. docs/benchmark/run.txt is a full run, from which `figures.py` draws.

mod benchmark;

use benchmark::bounds::Largest;
use benchmark::judges::{Layout, Route};
use benchmark::measure::{Effort, FULL, QUICK};
use benchmark::stack::{print_stacks, run_on};
use benchmark::subjects::{Make, Subject};
use benchmark::tables::{heading, print_joins, print_pages, print_refusals, print_routes, row};

/// The processor's name, where the machine tells it.
fn processor() -> String {
    let told = std::fs::read_to_string("/proc/cpuinfo").unwrap_or_default();
    let name = told.lines().find_map(|line| line.strip_prefix("model name")?.split_once(": "));
    name.map_or("unknown", |(_, name)| name).to_string()
}

/// Prints every table. Gives whether all bounds are held.
fn run(effort: Effort) -> bool {
    let Effort { models, large_models, .. } = effort;
    let mut largest = Largest::default();
    let processors = std::thread::available_parallelism().map_or(1, |number| number.get());
    println!("{}, {processors} processors; {}\n", processor(), env!("COMPILER"));
    println!("Time of one judgement between empty and full: by the engine; by Rust with a whole query at each leaf (whole), and with");
    println!("the engine's own algorithm (levels); by an earlier engine, where there is one (earlier). Each is the mean over {models} random");
    println!("models ({large_models} where one takes over a million queries), and of that the median of several times in turn. Then the millions");
    println!("of queries a second, and the medians of the engine's time / each other's; growth: its time / the row's before. Signs");
    println!("and kinds alternate, and the files are old ones, but where the title says otherwise.");

    let routes = [Route::Built, Route::Lent, Route::Plain, Route::OneSided];
    let old = |make: Make| (make, Layout::Old);
    for (route, title) in routes.into_iter().zip([
        "by built-in trees, 64 lines",
        "by lent trees, 64 lines (the largest built-in trees that may be lent)",
        "plainly, 64 lines, ceiling 200,000",
        "by the one-sided route, 64 lines (the largest built-in tree that may be lent)",
    ]) {
        heading(title, Layout::Old);
        for levels in [2, 4, 6, 8] {
            row((effort, &mut largest), old(Subject::dense), (64, levels), route, None);
            row((effort, &mut largest), old(Subject::sparse), (64, levels), route, None);
            if matches!(route, Route::Plain | Route::OneSided) {
                row((effort, &mut largest), old(Subject::hard), (64, levels), route, None);
            }
        }
    }

    heading("growth with the lines, 4 levels", Layout::Old);
    for route in routes {
        let mut before = None;
        for lines in [8, 16, 32, 64] {
            before = row((effort, &mut largest), old(Subject::sparse), (lines, 4), route, before);
        }
    }

    heading("growth with the levels, 16 lines", Layout::Old);
    for route in routes {
        let mut before = None;
        for levels in 1..=8 {
            before = row((effort, &mut largest), old(Subject::sparse), (16, levels), route, before);
        }
    }

    let new = |make: Make| (make, Layout::New);
    heading("the same models in new files", Layout::New);
    for route in routes {
        row((effort, &mut largest), new(Subject::sparse), (16, 1), route, None);
        row((effort, &mut largest), new(Subject::dense), (64, 2), route, None);
        row((effort, &mut largest), new(Subject::sparse), (64, 4), route, None);
    }

    heading("votes: a third of the lines each any, all and at least two of three, or more than half of many (dense)", Layout::New);
    for route in routes {
        for levels in [2, 4, 6] {
            row((effort, &mut largest), new(Subject::dense_votes), (64, levels), route, None);
            row((effort, &mut largest), new(Subject::votes), (64, levels), route, None);
        }
    }

    print_routes(effort, &mut largest);
    print_refusals(effort, &mut largest);
    print_pages(effort, &mut largest);
    print_joins(effort, &mut largest);
    print_stacks(&mut largest);
    largest.print()
}

fn main() {
    let arguments: Vec<String> = std::env::args().skip(1).collect();
    match arguments.iter().map(String::as_str).collect::<Vec<_>>()[..] {
        [] if run(FULL) => (),
        [] => std::process::exit(1),
        // Too short to hold anyone to it.
        ["--quick"] => _ = run(QUICK),
        ["--stack", trees, judge, kib] => run_on(trees, judge, kib),
        _ => {
            eprintln!("usage: harness [--quick]");
            std::process::exit(2);
        }
    }
}
