//! What callers in other languages rest on: the header in C and in C++, and that its numbers are the engine's; the shared library, as the
//! manual's command makes it; the Python module over that; and that each operation has enough of the stack that the header says.

use std::collections::{BTreeMap, BTreeSet};
use std::fmt::Debug;
use std::fs;
use std::path::{Path, PathBuf};
use std::process::Command;
use std::sync::OnceLock;

use harness::lending::file_length;
use harness::random::{self, full, Density, Random};
use harness::reference::model::Parts;
use harness::reference::{forecast, Kind, Model};
use harness::scripts::Ended;
use harness::words::{self, EVERY};
use harness::{ffi, on_a_small_stack, root, CALL_STACK, PROGRAM_CEILING};

fn text(path: &str) -> String {
    fs::read_to_string(root(path)).expect("it is there")
}

/// A place for what a test makes.
fn temporary(name: &str) -> PathBuf {
    fs::canonicalize(env!("CARGO_TARGET_TMPDIR")).expect("it is there").join(name)
}

/// What a command prints, which ends well.
fn printed_by(command: &mut Command) -> String {
    let ended = Ended::of(command);
    assert_eq!(ended.status, Some(0), "{command:?} said {}", ended.said);
    ended.printed
}

/// What a command of the shell prints, in the repository's folder.
fn printed_in_root(command: &str) -> String {
    printed_by(Command::new("bash").args(["-c", command]).current_dir(root("")))
}

// ---- the header ----

const STRICT: [&str; 4] = ["-pedantic", "-Wall", "-Wextra", "-Werror"];

/// What a C++ program prints, compiled from this file.
fn printed_by_cpp(source: &Path) -> String {
    let program = source.with_extension("program");
    let program = temporary(&program.file_name().expect("it has one").to_string_lossy());
    let mut compiler = Command::new("c++");
    compiler.args(["-x", "c++", "-std=c++11"]).args(STRICT).args(["-I", &root("include")]).arg(source);
    compiler.args(["-x", "none", &root("target/staticlib/libsolver_c.a"), "-o"]).arg(&program);
    printed_by(&mut compiler);
    let printed = printed_by(&mut Command::new(&program));
    fs::remove_file(program).expect("it was made");
    printed
}

#[test]
fn the_example_is_a_program_in_cpp_too() {
    assert_eq!(printed_by_cpp(Path::new(&root("examples/judge_p.c"))), text("examples/judge_p.stdout"));
}

#[test]
fn the_commands_in_the_example_are_right() {
    let example = text("examples/judge_p.c");
    let commands = example.lines().filter_map(|line| line.strip_prefix(" *   "));
    let commands: Vec<&str> = commands.skip_while(|&command| command != "tools/build.py solver_c").collect();
    let [_, in_c, in_cpp] = commands[..] else { panic!("there are three: {commands:?}") };
    assert!(in_c.starts_with("cc -std=c99 ") && in_cpp.starts_with("c++ -std=c++11 "), "{commands:?}");
    for (command, program) in [(in_c, "judge_p_in_c"), (in_cpp, "judge_p_in_cpp")] {
        let program = temporary(program);
        let command = command.replace("target/judge_p", &program.to_string_lossy());
        assert_eq!(printed_in_root(&command), text("examples/judge_p.stdout"), "{command}");
        fs::remove_file(program).expect("it was made");
    }
}

#[test]
fn cpp_links_a_function_by_its_name_in_c() {
    let source = temporary("twice.cc");
    let program = r#"
#include "solver.h"
#include "solver.h"
#include <cstdio>

int main() {
    const uint8_t file[1] = {0};
    const uint64_t arguments[1] = {0};
    uint64_t answer[SOLVER_WORDS];
    solver_query(file, 1, arguments, 1, answer);
    std::puts(answer[SOLVER_NUMBER] == SOLVER_HEADER_SHORT ? "short" : "not short");
}
"#;
    fs::write(&source, program).expect("it is written");
    assert_eq!(printed_by_cpp(&source), "short\n");
    fs::remove_file(source).expect("it was written");
}

#[test]
fn the_header_compiles_alone() {
    let standards = ["c99", "c11", "c++98", "c++11", "c++17"];
    for standard in standards {
        let language = standard.trim_end_matches(|c: char| c.is_ascii_digit());
        let compiler = if language == "c" { "cc" } else { "c++" };
        let mut command = Command::new(compiler);
        command.args(["-x", language, &format!("-std={standard}"), "-fsyntax-only"]).args(STRICT);
        printed_by(command.arg(root("include/solver.h")));
    }
}

/// What stands between two texts.
fn between<'a>(text: &'a str, begin: &str, end: &str) -> &'a str {
    let rest = text.split_once(begin).unwrap_or_else(|| panic!("{begin} is not there")).1;
    rest.split_once(end).unwrap_or_else(|| panic!("{end} is not there")).0
}

/// The macros of the header that are numbers, without `SOLVER_`.
fn macros() -> BTreeMap<String, usize> {
    let number = |line: &str| {
        let (name, rest) = line.strip_prefix("#define SOLVER_")?.split_once(' ')?;
        let number = rest.split_whitespace().next()?.parse();
        Some((name.to_string(), number.expect("it is a number")))
    };
    text("include/solver.h").lines().filter_map(number).collect()
}

/// An enum of the header: a row for each name, without `SOLVER_`, and what is said of its value.
fn enumerators(name: &str) -> Vec<(String, String)> {
    let header = text("include/solver.h");
    let rows = between(&header, &format!("enum {name} {{\n"), "};").lines();
    rows.map(|row| {
        let row = row.split("/*").next().expect("there is a first part").trim().trim_end_matches(',');
        let (name, value) = row.split_once(" = ").unwrap_or((row, ""));
        (name.strip_prefix("SOLVER_").expect("all names begin so").to_string(), value.to_string())
    })
    .collect()
}

#[test]
fn the_refusals_of_the_header_are_the_engines() {
    let engine = text("crates/answers/src/lib.rt");
    let cases = between(&engine, "pub enum Refusal {\n", "\n}").lines().map(str::trim);
    let cases: Vec<&str> =
        cases.filter(|line| !line.starts_with("//")).map(|line| line.trim_end_matches(',')).collect();
    let numbers = between(&engine, "impl From<Refusal> for u64 {", "\n}\n").lines();
    let numbers: Vec<(&str, &str)> = numbers
        .filter_map(|line| line.trim().strip_prefix("Refusal::")?.trim_end_matches(',').split_once(" => "))
        .collect();
    assert_eq!(numbers.iter().map(|&(case, _)| case).collect::<Vec<_>>(), cases);

    // `Lines` and `Levels` alone are words of the answer; the others are in C as they are here: `HeaderShort` is `HEADER_SHORT`.
    let in_c = |case: &str| match case {
        "Lines" | "Levels" => format!("BAD_{}", case.to_uppercase()),
        _ => {
            let apart = case.chars().flat_map(|c| c.is_uppercase().then_some('_').into_iter().chain([c]));
            apart.collect::<String>().trim_start_matches('_').to_uppercase()
        }
    };
    let expected = numbers.iter().map(|&(case, number)| (in_c(case), number.to_string()));
    let expected: Vec<_> = [("ACCEPTED".to_string(), "0".to_string())].into_iter().chain(expected).collect();
    assert_eq!(enumerators("solver_refusal"), expected);

    // Each has its words, and no other number has.
    let numbers: BTreeSet<u64> =
        numbers.iter().map(|(_, number)| number.parse().expect("it is one")).collect();
    assert_eq!(words::rows().iter().map(|row| row.number).collect::<BTreeSet<u64>>(), numbers);
}

#[test]
fn the_words_of_an_answer_stand_in_its_order() {
    let engine = text("crates/answer_c/specs/Words.antt");
    let words = between(&engine, "six_words r = ", "[]").split(" ∷ ").filter(|word| !word.is_empty());
    let mut words: Vec<String> = words.map(|word| word.trim_start_matches("r.").to_uppercase()).collect();
    assert_eq!(words.len(), 6);
    words.push("WORDS".to_string());
    let of_header = enumerators("solver_word");
    assert!(of_header.iter().all(|(_, value)| value.is_empty()));
    assert_eq!(of_header.into_iter().map(|(name, _)| name).collect::<Vec<_>>(), words);
}

#[test]
fn the_sizes_of_the_header_are_the_engines() {
    let constant = |path: &str, name: &str| -> usize {
        between(&text(path), &format!("const {name}: usize = "), ";").parse().expect("it is a number")
    };
    let of_model = |name| constant("crates/model/src/layout.rt", name);
    let [lines, levels, gaps] = ["MAX_LINES", "MAX_LEVELS", "MAX_GAPS"].map(of_model);
    let (file, row) = (of_model("MAX_FILE"), constant("crates/bench_page/src/lib.rt", "ROW_LENGTH"));
    assert_eq!(file, file_length(lines, levels));
    let mut macros = macros();
    let others = [macros.remove("VERSION"), macros.remove("STACK")];
    assert!(others.iter().all(Option::is_some));
    let expected = [
        ("MAX_FILE", file),
        ("MAX_GAPS", gaps),
        ("MAX_LEVELS", levels),
        ("MAX_LINES", lines),
        ("MAX_PAGE", row * (lines + 1)),
        ("MAX_READ_WORDS", lines * levels),
        ("MAX_ROOM", gaps + 2),
    ];
    assert_eq!(macros, expected.map(|(name, number)| (name.to_string(), number)).into());
}

#[test]
fn the_version_is_the_last_section_of_the_changes() {
    let changes = text("docs/CHANGES.md");
    let headings: Vec<&str> = changes.lines().filter_map(|line| line.strip_prefix("## ")).collect();
    let numbers: Vec<Option<usize>> =
        headings.iter().map(|heading| heading.split_once(". ")?.0.parse().ok()).collect();
    assert_eq!(numbers, (1..=headings.len()).map(Some).collect::<Vec<_>>(), "{headings:?}");
    assert_eq!(macros()["VERSION"], headings.len());
}

// ---- the shared library ----

/// The manual's command for the shared library.
fn library_command() -> String {
    let manual = text("docs/MANUAL.md");
    let mut commands = manual
        .lines()
        .filter_map(|line| line.strip_prefix("    "))
        .filter(|line| line.starts_with("cc -shared "));
    let command = commands.next().expect("the manual has it");
    assert_eq!(commands.next(), None, "it has one alone");
    command.to_string()
}

/// The shared library, made once.
fn library() -> String {
    static MADE: OnceLock<()> = OnceLock::new();
    MADE.get_or_init(|| assert_eq!(printed_in_root(&library_command()), ""));
    root("target/libsolver.so")
}

/// The symbols of a table of the library that `nm` shows with this flag, each with its letter.
fn dynamic_symbols(flag: &str) -> Vec<(String, String)> {
    let symbols = printed_by(Command::new("nm").args(["-D", flag, &library()]));
    let row = |line: &str| {
        let mut words = line.split_whitespace().rev().map(str::to_string);
        let name = words.next().expect("there is a name");
        (name, words.next().expect("there is a letter"))
    };
    symbols.lines().map(row).collect()
}

#[test]
fn the_shared_library_has_the_functions_of_the_header_and_no_other() {
    let header = text("include/solver.h");
    let functions =
        header.split("\nvoid ").skip(1).map(|rest| rest.split('(').next().expect("there is a name"));
    let expected: BTreeSet<(String, String)> =
        functions.map(|name| (name.to_string(), "T".to_string())).collect();
    assert_eq!(expected.len(), 9);
    assert_eq!(dynamic_symbols("--defined-only").into_iter().collect::<BTreeSet<_>>(), expected);
}

#[test]
fn the_shared_library_asks_for_little() {
    // Weak names are those of the start of every C library. A version may stand behind a name.
    for (name, letter) in dynamic_symbols("--undefined-only") {
        let plain_name = name.split('@').next().expect("there is a first part");
        let on_bytes = ["memcpy", "memset", "memmove", "memcmp", "bcmp"].contains(&plain_name);
        assert!(on_bytes || letter == "w", "{letter} {name}");
    }
    let entries = printed_by(Command::new("readelf").args(["-dW", &library()]));
    assert!(entries.contains("(SYMTAB)") && !entries.contains("TEXTREL"), "{entries}");
    let segments = printed_by(Command::new("readelf").args(["-lW", &library()]));
    let stack = segments.lines().find(|line| line.contains("GNU_STACK")).expect("there is one");
    assert!(stack.contains(" RW ") && !stack.contains("RWE"), "its stack may be executed: {stack}");
}

// ---- the Python module ----

/// Python in the repository's folder, with the module on its path, which it writes no compiled file beside.
fn python() -> Command {
    let mut python = Command::new("python3");
    python.current_dir(root("")).env("PYTHONPATH", root("examples")).env("PYTHONDONTWRITEBYTECODE", "1");
    python.env_remove("SOLVER_LIBRARY");
    python
}

/// Shows the value of each argument, or what it raises. `p` is the new file of model P, as the manual has it, and `damaged` that with another
/// byte at some place.
const SHOW: &str = r#"
import pickle
import sys
from array import array
from pathlib import Path
from solver import *

p = bytes.fromhex("""02000200 10000000 12000000 16000000 0001 0100 0000
                     0200000000000000 0000000000000000 0000000000000000 0100000000000000""")

def model(name):
    return Path("models", name + ".model").read_bytes()

def damaged(at, byte):
    return p[:at] + bytes([byte]) + p[at + 1:]

def raised(function, *arguments):
    try:
        return function(*arguments)
    except Exception as error:
        return error

for text in sys.argv[1:]:
    try:
        value = eval(text)
        shown = value if isinstance(value, str) else repr(value)
    except Refused as error:
        shown = f"Refused|{error.number}|{error.operation}|{error.count}|{error}"
    except Exception as error:
        shown = type(error).__name__
    print(shown, end="\0")
"#;

/// What Python shows for each of these, with this library.
fn shown_with<S: AsRef<str>>(library: &Path, expressions: &[S]) -> Vec<String> {
    let expressions = expressions.iter().map(AsRef::as_ref);
    let mut python = python();
    python.args(["-W", "error", "-c", SHOW]).args(expressions.clone()).env("SOLVER_LIBRARY", library);
    let shown: Vec<String> = printed_by(&mut python).split_terminator('\0').map(str::to_string).collect();
    assert_eq!(shown.len(), expressions.len());
    shown
}

/// Compares what Python shows for each of these with what stands beside it.
fn shows<S: AsRef<str> + Debug>(expected: &[(S, S)]) {
    let expressions: Vec<&str> = expected.iter().map(|(expression, _)| expression.as_ref()).collect();
    let shown = shown_with(Path::new(&library()), &expressions);
    for (row, (expression, expected)) in shown.iter().zip(expected) {
        assert_eq!(row, expected.as_ref(), "{}", expression.as_ref());
    }
}

/// What is shown for a refusal in an operation, with its words.
fn refused(number: u64, operation: &str, forecast: u64) -> String {
    let detail = if forecast == 0 { String::new() } else { format!("{forecast} are forecast") };
    let words = words::sentence(number, operation, &detail);
    format!("Refused|{number}|{operation}|{forecast}|refused {number}: {words}")
}

#[test]
fn the_module_is_short_and_its_example_right() {
    let module = text("examples/solver.py");
    assert!(module.lines().count() < 125, "{} lines", module.lines().count());
    let longest = module.lines().map(|line| line.chars().count()).max();
    assert!(longest <= Some(120), "{longest:?} characters");
    let example = between(&module, "\n>>> ", "\n\"\"\"\n").lines().count();
    assert_eq!(example, 5);
    library();
    let ended = Ended::of(python().args(["-W", "error", "-m", "doctest", "-v", "examples/solver.py"]));
    assert_eq!((ended.status, &ended.said[..]), (Some(0), ""));
    assert!(ended.printed.contains("4 passed and 0 failed") || ended.printed.contains("4 passed."));
}

#[test]
fn the_module_has_the_numbers_of_the_header() {
    let of_module = ["MAX_LINES", "MAX_LEVELS", "MAX_READ_WORDS", "MAX_FILE", "MAX_PAGE"];
    shows(&of_module.map(|name| (name.to_string(), macros()[name].to_string())));
    shows(&[("LEAST, GREATEST", "(0, 1)"), ("ANY, ALL, VOTE", "(0, 1, 2)")]);
    let header = text("include/solver.h");
    assert_eq!(between(&header, "enum solver_sign { ", " };"), "SOLVER_LEAST, SOLVER_GREATEST");
    assert_eq!(between(&header, "enum solver_kind { ", " };"), "SOLVER_ANY, SOLVER_ALL, SOLVER_VOTE");
}

#[test]
fn python_reads_and_writes() {
    let p = "Model(signs=[0, 1], kinds=[1, 0], thresholds=[0, 0], words=[2, 0, 0, 1])";
    let pyrometers =
        "Model(signs=[0, 1], kinds=[2, 1, 0, 0], thresholds=[2, 0, 0, 0], words=[14, 0, 0, 0, 0, 4, 8, 0])";
    shows(&[
        (r#"read(model("p"))"#, p),
        ("read(p)", p),
        ("read(p).n, read(p).d", "(2, 2)"),
        (r#"read(model("pyrometers"))"#, pyrometers),
        (r#"write(read(model("pyrometers"))) == model("pyrometers")"#, "True"),
        (r#"read(model("largest")).n, read(model("largest")).d"#, "(64, 8)"),
        (r#"write(read(model("largest"))) == model("largest")"#, "True"),
        (r#"write(read(model("p"))) == p"#, "True"),
        ("write(read(p)) == p", "True"),
        // Any sequence of bytes, or of numbers, will do.
        (
            "[read(like(p)) == read(p) for like in (bytearray, memoryview, list, tuple)]",
            "[True, True, True, True]",
        ),
        (r#"write(Model(b"\0\1", (1, 0), bytearray(2), (word for word in [2, 0, 0, 1]))) == p"#, "True"),
    ]);
}

#[test]
fn python_judges() {
    shows(&[
        // What the manual works out of P, and samples of document 01.
        ("query(p, [0, 3])", "2"),
        ("query(p, (2, 0))", "1"),
        ("plain(p)", "Judged(set=3, count=3)"),
        ("plain(p, 0, 3, 3)", "Judged(set=3, count=3)"),
        ("built(p)", "Judged(set=3, count=4)"),
        ("built(p, ceiling=4)", "Judged(set=3, count=4)"),
        ("lent(p, 0, 3, [], [])", "Judged(set=2, count=1)"),
        ("lent(p, 0, None, [1], [])", "Judged(set=3, count=2)"),
        (r#"lent(p, 0, None, b"\1", b"")"#, "Judged(set=3, count=2)"),
        ("lent(p, 0, 3, [1] * 1023, [1]).count", "2048"),
        (r#"plain(model("q")), built(model("q"))"#, "(Judged(set=0, count=3), Judged(set=0, count=4))"),
        (r#"lent(model("q"), 0, 3, [], [])"#, "Judged(set=1, count=1)"),
        ("one_sided(p, [1]), one_sided(p, bytes([1]))", "(Judged(set=3, count=8), Judged(set=3, count=8))"),
        (
            r#"one_sided(model("q"), [1]), one_sided(model("q"), [])"#,
            "(Judged(set=0, count=3), Judged(set=3, count=3))",
        ),
        ("one_sided(p, [1] * 1023).set", "3"),
        // Between equal bounds nothing is left to judge.
        ("plain(p, 1, 1).set, built(p, 2, 2).set, lent(p, 1, 1, [], []).set", "(1, 2, 1)"),
        // Twice: the two sound pyrometers, the vote, and nothing new.
        (
            r#"plain(model("pyrometers")), built(model("pyrometers"))"#,
            "(Judged(set=7, count=6), Judged(set=7, count=16))",
        ),
        (r#"hex(built(model("chains")).set), built(model("chains")).count"#, "('0x3fe00ffc01ff', 731025)"),
        // All 64 lines are a bound too, and the highest ceiling one.
        (r#"built(model("largest"), 2**64 - 1, None, 2**64 - 1) == (2**64 - 1, 6996025)"#, "True"),
        ("lines(0), lines(3), lines(1 << 63 | 32)", "([], [0, 1], [5, 63])"),
    ]);
}

#[test]
fn python_makes_pages_and_joins() {
    let row = |text: &str| format!("{text:40}\n");
    let page = ["lines  2 levels 2 share 1000", " 0 all +", " 1 any +"].map(row).concat();
    shows(&[
        ("page(p)".to_string(), page),
        ("len(page(write(Model([0], [0] * 64, [0] * 64, [0] * 64))))".to_string(), "2665".to_string()),
    ]);
    shows(&[
        ("built(join(p, p))", "Judged(set=15, count=16)"),
        ("read(join(p, p)).words", "[2, 0, 0, 1, 8, 0, 0, 4]"),
        (r#"join(p, model("pyrometers")) == model("p-and-pyrometers")"#, "True"),
        (r#"join(model("p"), model("pyrometers")) == model("p-and-pyrometers")"#, "True"),
        ("len(join(*2 * [write(Model([0] * 8, [0] * 32, [0] * 32, [0] * 256))]))", "4248"),
    ]);
}

/// The operations that take a file, called with `file`; the last two take two. Of two, one that is refused by itself is so by reading.
const OF_A_FILE: [(&str, &str); 9] = [
    ("reading", "read(file)"),
    ("one query", "query(file, [0, 0])"),
    ("judging plainly", "plain(file)"),
    ("judging by built-in trees", "built(file)"),
    ("judging by lent trees", "lent(file, 0, None, [], [])"),
    ("judging one-sidedly", "one_sided(file, [])"),
    ("making the page", "page(file)"),
    ("reading", "join(file, p)"),
    ("reading", "join(p, file)"),
];

#[test]
fn python_raises_what_refuses_a_file() {
    let damages = [
        (1, "p[:15]"),
        (1, r#"b"""#),
        (2, "damaged(0, 0)"),
        (2, "damaged(0, 65)"),
        (2, "damaged(1, 255)"),
        (3, "damaged(2, 0)"),
        (3, "damaged(2, 9)"),
        (4, "damaged(4, 17)"),
        (4, "damaged(12, 21)"),
        (5, "p[:-1]"),
        (5, r#"p + b"\0""#),
        (6, "damaged(16, 2)"),
        (6, "damaged(20, 3)"),
        (7, "damaged(22, 4)"),
        (14, "damaged(19, 1)"),
    ];
    let mut expected = Vec::new();
    for (number, file) in damages {
        for (operation, call) in OF_A_FILE {
            let words = words::sentence(number, EVERY, "");
            let shown = format!("Refused|{number}|{operation}|0|refused {number}: {words}");
            expected.push((call.replace("file", file), shown));
        }
    }
    shows(&expected);
}

#[test]
fn python_raises_every_other_refusal() {
    let [plainly, by_built_in, by_lent] =
        ["judging plainly", "judging by built-in trees", "judging by lent trees"];
    let expected = [
        ("write(Model([0], [], [], []))", refused(2, "writing", 0)),
        ("write(Model([0], [0] * 65, [0] * 65, [0] * 65))", refused(2, "writing", 0)),
        ("write(Model([], [0], [0], []))", refused(3, "writing", 0)),
        ("write(Model([0] * 9, [0], [0], [0] * 9))", refused(3, "writing", 0)),
        ("write(Model([2], [0], [0], [0]))", refused(6, "writing", 0)),
        ("write(Model([0], [3], [0], [0]))", refused(6, "writing", 0)),
        ("write(Model([0], [0], [0], [2]))", refused(7, "writing", 0)),
        ("write(Model([0], [0], [0], [2**64 - 1]))", refused(7, "writing", 0)),
        ("write(Model([0], [0], [], [0]))", refused(13, "writing", 0)),
        ("write(Model([0], [0], [0], [0, 0]))", refused(13, "writing", 0)),
        ("write(Model([0], [0], [1], [1]))", refused(14, "writing", 0)),
        ("write(Model([0], [VOTE], [2], [1]))", refused(14, "writing", 0)),
        ("query(p, [4, 0])", refused(9, "one query", 0)),
        ("query(p, [0, 2**64 - 1])", refused(9, "one query", 0)),
        ("query(p, [0])", refused(13, "one query", 0)),
        ("query(p, [])", refused(13, "one query", 0)),
        ("plain(p, 1, 2)", refused(9, plainly, 0)),
        ("plain(p, 0, 2**64 - 1)", refused(9, plainly, 0)),
        ("plain(p, 0, 3, 2)", refused(10, plainly, 0)),
        ("plain(p, ceiling=0)", refused(10, plainly, 0)),
        (r#"plain(model("chains"))"#, refused(10, plainly, 0)),
        ("built(p, 1, 2)", refused(9, by_built_in, 0)),
        ("built(p, 4)", refused(9, by_built_in, 0)),
        ("built(p, ceiling=3)", refused(10, by_built_in, 4)),
        (r#"built(model("largest"))"#, refused(10, by_built_in, 6_996_025)),
        ("lent(p, 1, 2, [], [])", refused(9, by_lent, 0)),
        ("lent(p, 0, None, [1] * 1024, [])", refused(11, by_lent, 0)),
        ("lent(p, 0, None, [], [2])", refused(11, by_lent, 0)),
        ("lent(p, 0, None, [0], [])", refused(11, by_lent, 0)),
        ("one_sided(p, [2])", refused(11, "judging one-sidedly", 0)),
        ("one_sided(p, [1] * 1024)", refused(11, "judging one-sidedly", 0)),
        (r#"page(model("largest"))"#, refused(10, "making the page", 6_996_025)),
        (r#"join(p, model("q"))"#, refused(15, "joining", 0)),
        (r#"join(p, model("one-line"))"#, refused(15, "joining", 0)),
        ("join(*2 * [write(Model([0], [0] * 33, [0] * 33, [0] * 33))])", refused(2, "joining", 0)),
    ];
    shows(&expected.map(|(expression, shown)| (expression.to_string(), shown)));
}

#[test]
fn a_refusal_has_the_words_of_its_row() {
    let mut expected = Vec::new();
    for row in words::rows() {
        for operation in row.operations {
            let shown = format!("refused {}: {}; {}", row.number, row.why, row.what_to_do);
            expected.push((format!("str(Refused({}, '{operation}'))", row.number), shown));
        }
    }
    assert!(expected.len() > 20);
    shows(&expected);
    shows(&[
        ("str(Refused(5, 'joining')) == str(Refused(5, 'whatever takes a file'))", "True"),
        ("isinstance(raised(built, p, 0, 3, 3), Exception)", "True"),
        // One process may hand it to another.
        (
            "vars(pickle.loads(pickle.dumps(raised(built, p, 0, 3, 3))))",
            "{'number': 10, 'operation': 'judging by built-in trees', 'count': 4}",
        ),
    ]);
}

#[test]
fn python_cuts_no_number() {
    let too_large = [
        "plain(p, -1)",
        "plain(p, 2**64)",
        "plain(p, 0, -1)",
        "plain(p, 0, 2**64)",
        "plain(p, 0, 2**64 + 3)",
        "plain(p, 0, 3, -1)",
        "plain(p, 0, 3, 2**64)",
        "built(p, -1)",
        "built(p, 2**64)",
        "built(p, 0, 2**64 + 3)",
        "built(p, 0, 3, 2**64 + 4)",
        "lent(p, 2**64, 3, [], [])",
        "lent(p, 0, -1, [], [])",
        "lent(p, 0, 3, [256 + 1], [])",
        "lent(p, 0, 3, [], [-255])",
        "one_sided(p, [256 + 1])",
        "query(p, [2**64, 0])",
        "query(p, [0, -1])",
        "write(Model([0, 257], [1, 0], [0, 0], [2, 0, 0, 1]))",
        "write(Model([-256, 1], [1, 0], [0, 0], [2, 0, 0, 1]))",
        "write(Model([0, 1], [257, 0], [0, 0], [2, 0, 0, 1]))",
        "write(Model([0, 1], [1, 0], [256, 0], [2, 0, 0, 1]))",
        "write(Model([0, 1], [1, 0], [0, 0], [2**64 + 2, 0, 0, 1]))",
        "write(Model([0, 1], [1, 0], [0, 0], [2, 0, 0, 1 - 2**64]))",
        "read([256 + 2] + list(p)[1:])",
        "page([256 + 2] + list(p)[1:])",
        "join(p, [2 - 256] + list(p)[1:])",
    ];
    shows(&too_large.map(|expression| (expression, "OverflowError")));
    let no_number = [
        "plain(p, 0.0)",
        "plain(p, None)",
        "plain(p, array('Q', [0]))",
        "plain(p, 0, 3.0)",
        "plain(p, 0, 3, None)",
        "built(p, None)",
        "built(p, 0, 3, '4')",
        "lent(p, None, 3, [], [])",
        "lent(p, 0, 3, 1, 1)",
        "query(p, [0.5, 0])",
        "query(p, [None, 0])",
        "read(54)",
        "read('model')",
        "read(None)",
        "page(['p'])",
    ];
    shows(&no_number.map(|expression| (expression, "TypeError")));
}

/// A library that accepts a call exactly if all it is lent is empty, no pointer is null, and what is to be filled is as long as the header says.
const FOR_EMPTY_SLICES: &str = r#"
#include "solver.h"

static void answered(int right, uint64_t *answer) { answer[SOLVER_NUMBER] = right ? SOLVER_ACCEPTED : SOLVER_OFFSET; }

#define EMPTY(slice) (slice && !slice##_len)
#define FILLED(slice, length) (slice && slice##_len == length)

void solver_read(const uint8_t *file, size_t file_len, uint8_t *signs, size_t signs_len, uint8_t *kinds, size_t kinds_len,
                 uint8_t *thresholds, size_t thresholds_len, uint64_t *words, size_t words_len, uint64_t answer[SOLVER_WORDS]) {
    answered(EMPTY(file) && FILLED(signs, SOLVER_MAX_LEVELS) && FILLED(kinds, SOLVER_MAX_LINES) &&
             FILLED(thresholds, SOLVER_MAX_LINES) && FILLED(words, SOLVER_MAX_READ_WORDS), answer);
}

void solver_write(size_t n, size_t d, const uint8_t *signs, size_t signs_len, const uint8_t *kinds, size_t kinds_len,
                  const uint8_t *thresholds, size_t thresholds_len, const uint64_t *words, size_t words_len, uint8_t *buffer,
                  size_t buffer_len, uint64_t answer[SOLVER_WORDS]) {
    answered(!n && !d && EMPTY(signs) && EMPTY(kinds) && EMPTY(thresholds) && EMPTY(words) &&
             FILLED(buffer, SOLVER_MAX_FILE), answer);
}

void solver_query(const uint8_t *file, size_t file_len, const uint64_t *arguments, size_t arguments_len,
                  uint64_t answer[SOLVER_WORDS]) {
    answered(EMPTY(file) && EMPTY(arguments), answer);
}

void solver_lent(const uint8_t *file, size_t file_len, uint64_t a, uint64_t b, const uint8_t *u, size_t u_len, const uint8_t *v,
                 size_t v_len, uint64_t answer[SOLVER_WORDS]) {
    answered(EMPTY(file) && a == 1 && b == 2 && EMPTY(u) && EMPTY(v), answer);
}

void solver_one_sided(const uint8_t *file, size_t file_len, const uint8_t *v, size_t v_len, uint64_t *words, size_t words_len,
                      uint64_t answer[SOLVER_WORDS]) {
    answered(EMPTY(file) && EMPTY(v) && FILLED(words, 2), answer);
}

void solver_page(const uint8_t *file, size_t file_len, uint8_t *buffer, size_t buffer_len, uint64_t answer[SOLVER_WORDS]) {
    answered(EMPTY(file) && FILLED(buffer, SOLVER_MAX_PAGE), answer);
}

void solver_join(const uint8_t *first, size_t first_len, const uint8_t *second, size_t second_len, uint8_t *buffer, size_t buffer_len,
                 uint64_t answer[SOLVER_WORDS]) {
    answered(EMPTY(first) && EMPTY(second) && FILLED(buffer, SOLVER_MAX_FILE), answer);
}
"#;

#[test]
fn python_lends_no_null_pointer() {
    let [source, library] = ["empty.c", "libempty.so"].map(temporary);
    fs::write(&source, FOR_EMPTY_SLICES).expect("it is written");
    let mut compiler = Command::new("cc");
    compiler.args(["-std=c99", "-shared", "-fPIC"]).args(STRICT).args(["-I", &root("include"), "-o"]);
    printed_by(compiler.arg(&library).arg(&source));
    let expected = [
        (r#"read(b"")"#, "Model(signs=[], kinds=[], thresholds=[], words=[])"),
        ("write(Model([], [], [], []))", "b''"),
        (r#"query(b"", [])"#, "0"),
        (r#"lent(b"", 1, 2, [], [])"#, "Judged(set=0, count=0)"),
        (r#"one_sided(b"", [])"#, "Judged(set=0, count=0)"),
        (r#"page(b"")"#, ""),
        (r#"join(b"", b"")"#, "b''"),
    ];
    assert_eq!(shown_with(&library, &expected.map(|(call, _)| call)), expected.map(|(_, shown)| shown));
    // It does tell what is not so.
    let unlike = [
        r#"read(b"\0")"#,
        "write(Model([], [], [0], []))",
        r#"query(b"", [0])"#,
        r#"lent(b"", 1, 3, [], [])"#,
        r#"one_sided(b"", [1])"#,
    ];
    for shown in shown_with(&library, &unlike) {
        assert!(shown.starts_with("Refused|4|"), "{shown}");
    }
    for path in [source, library] {
        fs::remove_file(path).expect("it was made");
    }
}

// ---- the Python module as a script ----

/// Runs the script on these files.
fn script<S: AsRef<std::ffi::OsStr>>(files: &[S]) -> Ended {
    library();
    Ended::of(python().args(["-W", "error", "examples/solver.py"]).args(files))
}

/// The row of a file: its good lines and the count by built-in trees, or why it is refused.
fn row_of(name: &str, file: &[u8]) -> String {
    let answer = ffi::built(file, 0, full(file[0] as usize), PROGRAM_CEILING);
    let lines: Vec<u32> = (0..64).filter(|line| answer.set >> line & 1 == 1).collect();
    match answer.number {
        0 => format!("{name}: good lines {lines:?}, count {}\n", answer.count),
        number => {
            let detail =
                if answer.count == 0 { String::new() } else { format!("{} are forecast", answer.count) };
            let words = words::sentence(number, "judging by built-in trees", &detail);
            format!("{name}: refused {number}: {words}\n")
        }
    }
}

#[test]
fn the_script_shows_a_row_for_each_sample_model() {
    let folder = fs::read_dir(root("models")).expect("it is there");
    let names =
        folder.map(|entry| entry.expect("it is there").file_name().into_string().expect("it is text"));
    let mut names: Vec<String> =
        names.filter(|name| name.ends_with(".model")).map(|name| format!("models/{name}")).collect();
    names.sort();
    let row = |name: &String| row_of(name, &fs::read(root(name)).expect("it is there"));
    let rows: String = names.iter().map(row).collect();
    assert_eq!(script(&names), Ended::new(1, &rows, ""));
    for row in [
        "models/p.model: good lines [0, 1], count 4\n",
        "models/q.model: good lines [], count 4\n",
        "models/tripped.model: good lines [0, 1, 2], count 16\n",
        "models/pyrometers.model: good lines [0, 1, 2], count 16\n",
        "models/largest.model: refused 10: the trees are forecast more queries than the ceiling allows (6996025 are forecast); ",
    ] {
        assert!(rows.contains(row), "{row}");
    }
}

#[test]
fn the_script_ends_with_a_status_that_says_what_is_wrong() {
    let p = fs::read(root("models/p.model")).expect("it is there");
    let [cut, missing] = ["cut.model", "missing.model"].map(temporary);
    fs::write(&cut, &p[..p.len() - 1]).expect("it is written");
    let [cut_name, missing_name] = [&cut, &missing].map(|path| path.to_string_lossy().into_owned());
    let p_row = row_of("models/p.model", &p);
    let cut_row = row_of(&cut_name, &p[..p.len() - 1]);
    assert!(cut_row.contains(": refused 5: the file's length is not what the counts"), "{cut_row}");
    let missing_row = format!("{missing_name}: [Errno 2] No such file or directory: '{missing_name}'\n");
    let [p_name, cut_name, missing_name] = ["models/p.model", &cut_name, &missing_name];

    let rows = |rows: &[&str]| rows.concat();
    assert_eq!(script(&[p_name, p_name]), Ended::new(0, &rows(&[&p_row, &p_row]), ""));
    assert_eq!(script(&[cut_name, p_name]), Ended::new(1, &rows(&[&cut_row, &p_row]), ""));
    assert_eq!(script(&[missing_name, p_name]), Ended::new(2, &rows(&[&missing_row, &p_row]), ""));
    let all = rows(&[&missing_row, &cut_row, &p_row, &cut_row]);
    assert_eq!(script(&[missing_name, cut_name, p_name, cut_name]), Ended::new(2, &all, ""));
    assert_eq!(script::<&str>(&[]), Ended::new(2, "", "usage: python3 examples/solver.py FILE..\n"));
    let folder = script(&["models"]);
    assert_eq!(folder.status, Some(2));
    assert!(folder.printed.starts_with("models: [Errno 21]"), "{}", folder.printed);
    fs::remove_file(cut).expect("it was written");
}

#[test]
fn the_library_is_taken_from_where_it_is_said_to_be() {
    let name = temporary("elsewhere.so");
    fs::copy(library(), &name).expect("it was made");
    // A name without a folder is one of the folder that the script runs in; no name is the library beside the module.
    for library in [&name, Path::new("elsewhere.so"), Path::new("")] {
        let mut script = python();
        script.arg(root("examples/solver.py")).arg(root("models/p.model")).env("SOLVER_LIBRARY", library);
        let ended = Ended::of(script.current_dir(temporary("")));
        let row = format!("{}: good lines [0, 1], count 4\n", root("models/p.model"));
        assert_eq!(ended, Ended::new(0, &row, ""));
    }
    fs::remove_file(name).expect("it was made");
}

/// The other example in Python: the manual shows it, and it writes the manual's worked cabinet.
#[test]
fn the_burner_is_written_by_the_module() {
    let module = text("examples/burner.py");
    assert!(text("docs/MANUAL.md").contains(&format!("```python\n{module}```\n")));
    let written = temporary("burner.model");
    library();
    assert_eq!(printed_by(python().args(["-W", "error", "examples/burner.py"]).arg(&written)), "");
    let model = fs::read(root("models/burner.model")).expect("it is there");
    assert_eq!(fs::read(&written).expect("it was made"), model);
    fs::remove_file(written).expect("it was made");
}

#[test]
fn where_the_library_is_missing_its_commands_are_said() {
    let missing = temporary("nowhere.so");
    let said = format!(
        "{} is missing; make it by: tools/build.py solver_c && {}",
        missing.display(),
        library_command()
    );
    let mut script = python();
    script.args(["examples/solver.py", "models/p.model"]).env("SOLVER_LIBRARY", &missing);
    assert_eq!(Ended::of(&mut script), Ended::new(2, &format!("models/p.model: {said}\n"), ""));
    let expressions = ["str(raised(built, p))", "type(raised(built, p)).__name__", "VOTE, lines(6)"];
    assert_eq!(shown_with(&missing, &expressions), [&said[..], "FileNotFoundError", "(2, [1, 2])"]);
}

// ---- the stack ----

/// A call gives on a thread with the stack that the header says is enough what it gives elsewhere. The deepest runs of the tree routes are in depth.rs.
fn fits_the_stack<T: Debug + PartialEq + Send + 'static>(call: impl FnOnce() -> T + Clone + Send + 'static) {
    assert_eq!(on_a_small_stack(call.clone()), call());
}

#[test]
fn the_stack_of_the_header_is_the_one_that_is_tried() {
    assert_eq!(macros()["STACK"], CALL_STACK);
}

/// A model of so many lines and eight levels of alternating signs.
fn deep_model(lines: usize) -> Model {
    random::model(&mut Random::new(1001), lines, &random::alternating(8, true), Density::Several)
}

/// The largest files: a new one and an old one.
fn largest_files() -> [Vec<u8>; 2] {
    let signs = random::alternating(8, false);
    let old =
        random::model_of_kinds(&mut Random::new(1002), &[Kind::All; 64], &signs, Density::Share(50), 10);
    let files = [deep_model(64).file(), old.old_file()];
    assert_eq!(files.each_ref().map(Vec::len), [4248, 4184]);
    files
}

#[test]
fn reading_and_writing_fit_the_stack() {
    for file in largest_files() {
        fits_the_stack(move || ffi::parts_read(&file, 64, 8));
    }
    let Parts { signs, kinds, thresholds, words } = deep_model(64).parts();
    fits_the_stack(move || {
        let mut buffer = vec![0; 4248];
        let answer = ffi::write(64, 8, &signs, &kinds, &thresholds, &words, &mut buffer);
        assert_eq!((answer.number, answer.length), (0, 4248));
        buffer
    });
}

#[test]
fn one_query_and_plain_rounds_fit_the_stack() {
    for file in largest_files() {
        let arguments = Random::new(1003).words(8);
        let again = file.clone();
        fits_the_stack(move || ffi::query(&again, &arguments));
        fits_the_stack(move || {
            let answer = ffi::plain(&file, 0, full(64), 10_000_000);
            assert_eq!(answer.number, 0);
            answer
        });
    }
}

#[test]
fn making_the_page_and_joining_fit_the_stack() {
    // The most lines that eight levels may have on a page, and the most levels that 64 lines may have.
    let deepest = (1..=64).rev().map(deep_model).find(|model| forecast(model) <= PROGRAM_CEILING);
    let long_model =
        |d| random::model(&mut Random::new(1004), 64, &random::alternating(d, true), Density::Several);
    let longest = (1..=8).rev().map(long_model).find(|model| forecast(model) <= PROGRAM_CEILING);
    for model in [deepest, longest] {
        let file = model.expect("there is one").file();
        fits_the_stack(move || ffi::page_of(&file));
    }
    // A page that is refused for its forecast.
    let file = deep_model(64).file();
    fits_the_stack(move || ffi::page(&file, &mut []));
    let file = deep_model(32).file();
    fits_the_stack(move || {
        let mut buffer = vec![0; 4248];
        let answer = ffi::join(&file, &file, &mut buffer);
        assert_eq!((answer.number, answer.length), (0, 4248));
        buffer
    });
}
