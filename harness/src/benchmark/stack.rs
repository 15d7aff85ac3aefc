//! The stack of the deepest runs.

use std::process::{Command, Stdio};

use harness::random::Density;
use harness::reference::Kind;

use super::bounds::{Bound, Largest};
use super::judges::{Judge, JUDGES};
use super::subjects::model_of;

/// The trees with the most calls within calls.
#[derive(Clone, Copy)]
pub enum Deepest {
    /// 1,023 gaps on both sides, all at the root, and 8 levels.
    Lent,
    /// 64 lines and 8 levels.
    Built,
    /// The one-sided route with 1,023 gaps, all at the root, and 8 levels.
    OneSided,
}

pub const DEEPEST: [(&str, Deepest); 3] =
    [("lent", Deepest::Lent), ("built", Deepest::Built), ("one-sided", Deepest::OneSided)];

impl Deepest {
    /// Whether the run ends as it must.
    pub fn run(self, judge: Judge) -> bool {
        let lines = match self {
            Deepest::Lent => 1,
            Deepest::Built | Deepest::OneSided => 64,
        };
        let file = model_of(7, lines, 8, &[Kind::Any], Density::Few).old_file();
        match self {
            Deepest::Lent => judge.lent(&file, 0, 1, &[4; 1023], &[4; 1023]).count == 1024 * 1024,
            Deepest::Built => judge.built(&file, 0, u64::MAX).count == 2645 * 2645,
            Deepest::OneSided => judge.one_sided(&file, &[4; 1023], &mut vec![0; 1025]).count >= 1024,
        }
    }
}

/// Whether a deepest run ends on a thread with so much stack. A run that does not ends its process, so it has one of its
/// own.
pub fn ends_on(trees: &str, judge: Judge, kib: usize) -> bool {
    let program = std::env::current_exe().expect("the path of this program");
    let mut child = Command::new(program);
    child
        .args(["--stack", trees, judge.name(), &kib.to_string()])
        .stdout(Stdio::null())
        .stderr(Stdio::null());
    child.status().expect("a process of this program").success()
}

/// The smallest stack, in steps of 16 KiB up to 8 MiB, on which a deepest run ends.
pub fn stack_needed(trees: &str, judge: Judge) -> Option<usize> {
    let step = 16;
    let (mut short, mut enough) = (0, 8192 / step);
    if !ends_on(trees, judge, enough * step) {
        return None;
    }
    while enough - short > 1 {
        let middle = (short + enough) / 2;
        if ends_on(trees, judge, middle * step) {
            enough = middle;
        } else {
            short = middle;
        }
    }
    Some(enough * step)
}

pub fn print_stacks(largest: &mut Largest) {
    println!("\nstack of the deepest runs at 8 levels, in KiB: lent trees with 1,023 gaps, on both sides and on one; built-in trees, 64 lines");
    print!("{:9}", "");
    for judge in JUDGES {
        print!(" {:>8}", judge.name());
    }
    println!();
    for (trees, _) in DEEPEST {
        print!("{trees:9}");
        for &judge in JUDGES {
            let needed = stack_needed(trees, judge);
            match needed {
                Some(kib) => print!(" {kib:8}"),
                None => print!(" {:>8}", "> 8192"),
            }
            if judge == Judge::Engine {
                largest.note(Bound::Stack, needed.map_or(f64::INFINITY, |kib| kib as f64));
            }
        }
        println!();
    }
}

/// Ends without an error if a deepest run does so on a thread with this stack.
pub fn run_on(trees: &str, judge: &str, kib: &str) {
    let &(_, deepest) = DEEPEST.iter().find(|(name, _)| *name == trees).expect("one of the names");
    let &judge = JUDGES.iter().find(|known| known.name() == judge).expect("a judge's name");
    let stack = 1024 * kib.parse::<usize>().expect("a number of KiB");
    let thread = std::thread::Builder::new().stack_size(stack).spawn(move || deepest.run(judge));
    assert!(thread.expect("a thread").join().expect("a run"), "another count");
}
