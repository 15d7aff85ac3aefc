//! What the manual shows: the example in C, compiled against the static library and run, prints what stands beside it, and the manual has both
//! as they are; its rows of model P's bytes are the new file of the sample model, and its page is the one that the page program prints; its worked
//! cabinet is the sample model, judged as it is worked out by hand; the library takes no more memory than it says.

use std::fs;
use std::path::Path;
use std::process::Command;

use harness::random::full;
use harness::reference::{good_lines, word_of, Kind, Model, Operand};
use harness::scripts::{run, Ended};
use harness::{ffi, root};

fn text(path: &str) -> String {
    fs::read_to_string(root(path)).expect("it is there")
}

#[test]
fn the_example_in_c_prints_what_stands_beside_it() {
    let program = Path::new(env!("CARGO_TARGET_TMPDIR")).join("judge_p");
    let compiled = Command::new("cc")
        .args([
            "-std=c99",
            "-pedantic",
            "-Wall",
            "-Wextra",
            "-Werror",
            "-I",
            &root("include"),
            &root("examples/judge_p.c"),
        ])
        .arg(root("target/staticlib/libsolver_c.a"))
        .arg("-o")
        .arg(&program)
        .output()
        .expect("cc is there");
    assert!(compiled.status.success(), "{}", String::from_utf8_lossy(&compiled.stderr));
    let run = Command::new(&program).output().expect("it ran");
    fs::remove_file(&program).expect("it was made");
    assert!(run.status.success());
    assert_eq!(String::from_utf8_lossy(&run.stdout), text("examples/judge_p.stdout"));
}

#[test]
fn the_manual_shows_the_example_as_it_is() {
    let manual = text("docs/MANUAL.md");
    assert!(manual.contains(&format!("```c\n{}```\n", text("examples/judge_p.c"))));
    assert!(manual.contains(&format!("```\n{}```\n", text("examples/judge_p.stdout"))));
}

#[test]
fn the_manual_shows_the_bytes_of_model_p() {
    let manual = text("docs/MANUAL.md");
    let rows = manual
        .split("Here they are in hexadecimal; the place in front of each row is decimal.")
        .nth(1)
        .and_then(|rest| rest.split("## Trees").next());
    let mut bytes = Vec::new();
    for row in rows.expect("the rows are there").lines().filter(|row| row.starts_with("    ")) {
        let mut words = row.split_whitespace();
        assert_eq!(words.next().and_then(|place| place.parse().ok()), Some(bytes.len()), "{row}");
        let is_byte = |word: &&str| word.len() == 2 && word.bytes().all(|c| c.is_ascii_hexdigit());
        bytes.extend(
            words.take_while(is_byte).map(|word| u8::from_str_radix(word, 16).expect("it is hexadecimal")),
        );
    }
    let old = fs::read(root("models/p.model")).expect("it is there");
    assert_eq!(old.len(), 52);
    assert_eq!(bytes, Model::from_file(&old).expect("it is a model").file());
}

#[test]
fn the_manual_shows_the_page_of_model_p() {
    let page = Command::new("bash").args([root("page.sh"), root("models/p.model")]).output().expect("it ran");
    assert!(page.status.success());
    let page = String::from_utf8(page.stdout).expect("it is ASCII");
    assert_eq!(page.lines().map(str::len).collect::<Vec<_>>(), [40; 3]);
    assert!(text("docs/MANUAL.md").contains(&format!("```\n{page}```\n")));
}

#[test]
fn the_library_takes_no_more_memory_than_the_manual_says() {
    let manual = text("docs/MANUAL.md");
    let most = manual.split("under ").find_map(|rest| rest.split_once(" bytes of read-only memory"));
    let most: u64 = most.expect("it says so").0.replace(',', "").parse().expect("it is a number");
    let size =
        Command::new("size").arg(root("target/staticlib/libsolver_c.a")).output().expect("size is there");
    assert!(size.status.success());
    // A row for each object: its code with its constants, its data, and its data that is 0 at first.
    let rows = String::from_utf8(size.stdout).expect("it is ASCII");
    let sum = |column: usize| -> u64 {
        rows.lines()
            .skip(1)
            .map(|row| row.split_whitespace().nth(column).unwrap().parse::<u64>().unwrap())
            .sum()
    };
    assert!((1..most).contains(&sum(0)), "{} bytes", sum(0));
    assert_eq!((sum(1), sum(2)), (0, 0));
}

// ---- the worked cabinet ----

fn burner() -> Model {
    Model::from_file(&fs::read(root("models/burner.model")).expect("it is there")).expect("it is a model")
}

/// The manual's table of the cabinet's lines: each has its number, a kind, and operands as pairs of level and line.
#[test]
fn the_manual_shows_the_lines_of_the_worked_cabinet() {
    let manual = text("docs/MANUAL.md");
    let table = manual.split("| line | situation | kind | operands, as level and line |\n").nth(1);
    let rows = table.expect("it has the table").lines().skip(1).take_while(|row| row.starts_with('|'));
    let model = burner();
    let mut seen = 0;
    for (line, row) in rows.enumerate() {
        let cells: Vec<&str> = row.trim_matches('|').split('|').map(str::trim).collect();
        assert_eq!(cells[0], line.to_string());
        let kind = match cells[2] {
            "any" => Kind::Any,
            "all" => Kind::All,
            vote => Kind::AtLeast(vote.strip_prefix("vote, threshold ").unwrap().parse().unwrap()),
        };
        let mut operands: Vec<Operand> = cells[3]
            .split('(')
            .skip(1)
            .map(|rest| {
                let (level, line) = rest.split(')').next().unwrap().split_once(", ").expect("a pair");
                let level: usize = level.parse().expect("a number");
                Operand { level: level - 1, line: line.parse().expect("a number") }
            })
            .collect();
        let key = |operand: &Operand| (operand.level, operand.line);
        operands.sort_by_key(key);
        let mut expected = model.operands[line].clone();
        expected.sort_by_key(key);
        assert_eq!((kind, operands), (model.kinds[line], expected), "{row}");
        seen += 1;
    }
    assert_eq!((seen, model.lines()), (13, 13));
    assert_eq!(model.greatest, [false, true]);
    assert_eq!(model.file(), fs::read(root("models/burner.model")).expect("it is there"));
}

/// What the manual works out by hand: all lines but 6, 9 and 11, in 16 plain queries; ten of thirteen.
#[test]
fn the_worked_cabinet_is_judged_as_the_manual_says() {
    let (manual, path) = (text("docs/MANUAL.md"), root("models/burner.model"));
    let good = full(13) & !(1 << 6 | 1 << 9 | 1 << 11);
    assert_eq!((good, 1000 * 10 / 13), (0x15bf, 769));
    let judged = "plain 00000000000015bf 16\ntree 00000000000015bf 169\nshare 769\n";
    assert_eq!(run("judge.sh", &[&path]), Ended::new(0, judged, ""));
    assert!(manual.contains(&format!("    ./judge.sh models/burner.model\n\n```\n{judged}```\n")));
    let page = run("page.sh", &[&path]);
    assert_eq!((page.status, &page.said[..]), (Some(0), ""));
    assert!(manual.contains(&format!("    ./page.sh models/burner.model\n\n```\n{}```\n", page.printed)));
    let signs: Vec<char> = page.printed.lines().skip(1).map(|row| row.chars().nth(7).unwrap()).collect();
    let expected = (0..13).map(|line| if good >> line & 1 == 1 { '+' } else { '-' });
    assert_eq!(signs, expected.collect::<Vec<_>>());
}

/// The rounds as the manual has them: what each adds at level 1, with all lines at level 2 and then with those that were found.
#[test]
fn the_rounds_of_the_worked_cabinet_are_as_the_manual_says() {
    let file = fs::read(root("models/burner.model")).expect("it is there");
    let adds: [&[u32]; 8] = [&[0, 12], &[3, 10], &[8], &[5, 7], &[4], &[2], &[1], &[]];
    for outer in [full(13), 0x15bf] {
        let mut inner = 0;
        for lines in adds {
            let next = ffi::query(&file, &[inner, outer]).set;
            assert_eq!(next, lines.iter().fold(inner, |set, line| set | 1 << line));
            inner = next;
        }
        assert_eq!(inner, 0x15bf);
    }
}

#[test]
fn wrong_levels_in_the_worked_cabinet_do_what_the_manual_says() {
    let judged = |change: fn(&mut Model)| {
        let mut model = burner();
        change(&mut model);
        let found = ffi::built(&model.file(), 0, full(13), 1_000_000).set;
        assert_eq!(found, word_of(&good_lines(&model)));
        found
    };
    fn read_at(model: &mut Model, line: usize, other: usize, level: usize) {
        let operand = model.operands[line].iter_mut().find(|operand| operand.line == other);
        operand.expect("it is one").level = level - 1;
    }
    assert_eq!(judged(|_| ()), 0x15bf);
    assert_eq!(judged(|model| read_at(model, 2, 2, 1)), 1 << 12);
    assert_eq!(judged(|model| read_at(model, 6, 6, 2)), 0x15bf | 1 << 6);
    assert_eq!(judged(|model| model.kinds[4] = Kind::AtLeast(3)), 1 << 12);
}
