//! Refusals in words: the table of `include/refusals.txt`, and what the scripts and the join program say with it.

use crate::reference::Model;
use crate::root;

/// A row of the table: a number as some operations give it.
#[derive(Clone, Debug, PartialEq)]
pub struct Row {
    pub number: u64,
    pub operations: Vec<String>,
    pub why: String,
    pub what_to_do: String,
}

/// What a row for every operation on a file names.
pub const EVERY: &str = "whatever takes a file";

impl Row {
    /// A row of four cells.
    pub fn of(cells: &[&str]) -> Row {
        let [number, operations, why, what_to_do] = cells else { panic!("it has four cells: {cells:?}") };
        Row {
            number: number.parse().expect("it is a number"),
            operations: operations.split(", ").map(str::to_string).collect(),
            why: why.to_string(),
            what_to_do: what_to_do.to_string(),
        }
    }

    fn names(&self, operation: &str) -> bool {
        self.operations.iter().any(|name| name == operation)
    }
}

pub fn rows() -> Vec<Row> {
    let text = std::fs::read_to_string(root("include/refusals.txt")).expect("it is there");
    let rows = text.lines().filter(|line| !line.starts_with('#'));
    rows.map(|line| Row::of(&line.split('\t').collect::<Vec<_>>())).collect()
}

/// The row of a number in an operation: its own, or else that of every operation on a file.
pub fn row(number: u64, operation: &str) -> Row {
    let rows = || rows().into_iter().filter(|row| row.number == number);
    let own: Vec<Row> = rows().filter(|row| row.names(operation)).collect();
    let found = if own.is_empty() { rows().filter(|row| row.names(EVERY)).collect() } else { own };
    let [row] = &found[..] else { panic!("{number} has not one row in {operation}: {found:?}") };
    row.clone()
}

/// What a script says of a refusal, with a detail where there is one.
pub fn sentence(number: u64, operation: &str, detail: &str) -> String {
    let row = row(number, operation);
    let detail = if detail.is_empty() { String::new() } else { format!(" ({detail})") };
    format!("{}{detail}; {}", row.why, row.what_to_do)
}

/// What the refusal of two files to be joined is about.
#[derive(Debug, PartialEq)]
pub enum Where {
    First,
    Second,
    /// In what they do not go together.
    Both(String),
}

impl Where {
    pub fn of(first: &[u8], second: &[u8]) -> Where {
        let (first, second) = match (Model::from_file(first), Model::from_file(second)) {
            (Err(_), _) => return Where::First,
            (_, Err(_)) => return Where::Second,
            (Ok(first), Ok(second)) => (first, second),
        };
        let counts = |a: usize, what: &str, b: usize| format!("{a} {what} in the first, {b} in the second");
        if first.levels() != second.levels() {
            return Where::Both(counts(first.levels(), "levels", second.levels()));
        }
        let unlike = (0..first.levels()).find(|&k| first.greatest[k] != second.greatest[k]);
        Where::Both(match unlike {
            None => counts(first.lines(), "lines", second.lines()),
            Some(k) => {
                let sign = |greatest: bool| if greatest { "greatest" } else { "least" };
                let [a, b] = [first.greatest[k], second.greatest[k]].map(sign);
                format!("level {} is {a} in the first, {b} in the second", k + 1)
            }
        })
    }

    /// The line of the join program.
    pub fn line(&self) -> String {
        match self {
            Where::First => "the first file\n".to_string(),
            Where::Second => "the second file\n".to_string(),
            Where::Both(detail) => format!("both files: {detail}\n"),
        }
    }

    /// The line of the script, with the files' names.
    pub fn words(&self, number: u64, first: &str, second: &str) -> String {
        let (files, operation, detail) = match self {
            Where::First => (first.to_string(), EVERY, ""),
            Where::Second => (second.to_string(), EVERY, ""),
            Where::Both(detail) => (format!("{first} and {second}"), "joining", &detail[..]),
        };
        format!("join.sh: {files}: {}\n", sentence(number, operation, detail))
    }
}
