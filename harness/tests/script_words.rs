//! `judge.sh`, `page.sh` and `join.sh` over the programs: what they print, say and end with. Refusals in words, by the table that the manual shows
//! too; wrong usage, files that cannot be read, pipes and links taken as files; full disks, closed pipes, and what is then left of the third file.

use std::fs::{self, Permissions};
use std::os::unix::fs::{symlink, PermissionsExt};
use std::path::{Path, PathBuf};
use std::process::{Command, Stdio};

use harness::random::{self, Random};
use harness::reference::{self, Model};
use harness::root;
use harness::scripts::{closed_pipe, full_disk, run, run_by_shell, Ended};
use harness::words::{rows, sentence, Row, Where, EVERY};

fn bytes_of(path: &str) -> Vec<u8> {
    fs::read(root(path)).expect("it is there")
}

/// A folder of a test's own, empty, with a blank in its name.
struct Folder(PathBuf);

impl Folder {
    fn new(test: &str) -> Folder {
        let path = Path::new(env!("CARGO_TARGET_TMPDIR")).join(format!("{test} words"));
        let _ = fs::remove_dir_all(&path);
        fs::create_dir_all(&path).expect("it is made");
        Folder(path)
    }

    fn path(&self, name: &str) -> String {
        self.0.join(name).to_str().expect("it is text").to_string()
    }

    /// The path of a file of these bytes, which it writes.
    fn file(&self, name: &str, bytes: &[u8]) -> String {
        let path = self.path(name);
        fs::write(&path, bytes).expect("it is written");
        path
    }

    fn names(&self) -> Vec<String> {
        let entries = fs::read_dir(&self.0).expect("it is there");
        let mut names: Vec<_> = entries
            .map(|entry| entry.expect("it is read").file_name().into_string().expect("text"))
            .collect();
        names.sort();
        names
    }
}

impl Drop for Folder {
    fn drop(&mut self) {
        let _ = fs::remove_dir_all(&self.0);
    }
}

/// The scripts that print, with what they print of model P.
fn printing_scripts() -> [(&'static str, String); 2] {
    let judged = "plain 0000000000000003 3\ntree 0000000000000003 4\nshare 1000\n";
    let page = reference::page_of(&bytes_of("models/p.model")).expect("it has a page");
    [("judge.sh", judged.to_string()), ("page.sh", page)]
}

// ---- one text ----

/// The rows of the manual's table of refusals.
fn rows_of_the_manual() -> Vec<Row> {
    let manual = fs::read_to_string(root("docs/MANUAL.md")).expect("it is there");
    let table =
        manual.split("| number | by | refused because | what to do |\n").nth(1).expect("it has the table");
    let rows = table.lines().skip(1).take_while(|line| line.starts_with('|'));
    rows.map(|line| Row::of(&line.trim_matches('|').split('|').map(str::trim).collect::<Vec<_>>())).collect()
}

#[test]
fn the_manual_and_the_scripts_have_one_table_of_refusals() {
    let rows = rows();
    assert_eq!(rows, rows_of_the_manual());
    assert!(rows.windows(2).all(|pair| pair[0].number <= pair[1].number));
    // Each is whole, and short enough for a line.
    for row in &rows {
        assert!(row.why.len() > 10 && row.what_to_do.len() > 10, "{row:?}");
        assert!(row.why.len() + row.what_to_do.len() < 160, "{row:?}");
    }
}

/// Each operation's paragraph in the manual names the refusals for which the table has a row of that operation, and no others.
#[test]
fn the_manual_names_the_refusals_of_each_operation() {
    let manual = fs::read_to_string(root("docs/MANUAL.md")).expect("it is there");
    let part = manual.split("## Operations\n").nth(1).and_then(|rest| rest.split("\n## ").next());
    let mut seen = 0;
    for paragraph in part.expect("it is there").trim().split("\n\n").filter(|text| text.starts_with("**")) {
        let name = paragraph.split("**").nth(1).expect("it has a name").to_lowercase();
        let name = name.replace("making the bench page", "making the page");
        let said = paragraph.split("Refusals: ").nth(1).expect("it says them").split('.').next().unwrap();
        let mut named: Vec<u64> = Vec::new();
        let words = said.replace([',', '\n'], " ").replace("1 to 7", "1 2 3 4 5 6 7");
        named.extend(words.split_whitespace().filter_map(|word| word.parse::<u64>().ok()));
        named.sort();
        named.dedup();
        let of_files = name != "writing";
        let rows = rows();
        let mut expected: Vec<u64> = rows
            .iter()
            .filter(|row| row.operations.iter().any(|of| *of == name || (of_files && of == EVERY)))
            .map(|row| row.number)
            .collect();
        expected.dedup();
        assert_eq!(named, expected, "{name}");
        seen += 1;
    }
    assert_eq!(seen, 9);
}

// ---- refusals ----

/// Files that are refused, one for each number that checking answers.
fn refused_files(random: &mut Random) -> Vec<(u64, Vec<u8>)> {
    let numbers = [1, 2, 3, 4, 5, 6, 7, 14];
    let damaged = |number| loop {
        let (n, d) = (random.between(2, 20), random.between(1, 4));
        let mut file = random::some_file(random, n, d);
        random::damage_file(random, &mut file, n, d, number);
        if Model::from_file(&file).err() == Some(number) {
            return (number, file);
        }
    };
    numbers.into_iter().map(damaged).collect()
}

#[test]
fn a_refused_file_is_said_in_words_with_status_1() {
    let folder = Folder::new("refused");
    for (number, file) in refused_files(&mut Random::new(901)) {
        let path = folder.file(&format!("{number}.model"), &file);
        for script in ["judge.sh", "page.sh"] {
            let words = format!("{script}: {path}: {}\n", sentence(number, EVERY, ""));
            assert_eq!(run(script, &[&path]), Ended::new(1, &format!("refused {number}\n"), &words));
        }
        // Beside a right file, which of the two it is about is said; of two wrong ones the first.
        let (right, out) = (root("models/p.model"), folder.path("out"));
        for (first, second) in [(&path, &right), (&right, &path), (&path, &path)] {
            let words = format!("refused {number}\njoin.sh: {path}: {}\n", sentence(number, EVERY, ""));
            assert_eq!(run("join.sh", &[first, second, &out]), Ended::new(1, "", &words));
        }
        let other = folder.file("other.model", &bytes_of("models/p.model")[..15]);
        let words = format!("refused {number}\njoin.sh: {path}: {}\n", sentence(number, EVERY, ""));
        assert_eq!(run("join.sh", &[&path, &other, &out]), Ended::new(1, "", &words));
    }
    assert!(!folder.names().contains(&"out".to_string()));
}

#[test]
fn two_files_that_do_not_go_together_are_said_in_words() {
    let folder = Folder::new("together");
    let mut random = Random::new(902);
    let mut seen = [0; 3];
    for turn in 0..60 {
        let d = random.between(1, 8);
        let lines = if turn % 3 == 0 { [40, 25] } else { [3, 9] };
        let mut models = random::models_alike(&mut random, lines, d);
        let changed = random.between(0, 1);
        match turn % 3 {
            0 => {}
            // One or more signs: the first of them is told.
            1 => (0..random.between(1, 3)).for_each(|_| {
                let level = random.between(0, d - 1);
                models[changed].greatest[level] = !models[1 - changed].greatest[level];
            }),
            _ => {
                let (n, other) = (models[changed].lines(), d % 8 + 1);
                models[changed] = random::any_model(&mut random, n, other);
            }
        }
        let files = models.map(|model| random::file(&mut random, &model));
        let [first, second] = [0, 1].map(|i| folder.file(&format!("{i}.model"), &files[i]));
        let (number, at) = (if turn % 3 == 0 { 2 } else { 15 }, Where::of(&files[0], &files[1]));
        assert!(matches!(at, Where::Both(_)));
        let words = format!("refused {number}\n{}", at.words(number, &first, &second));
        let ended = run("join.sh", &[&first, &second, &folder.path("out")]);
        assert_eq!(ended, Ended::new(1, "", &words));
        seen[turn % 3] += 1;
    }
    assert_eq!(seen, [20; 3]);
}

/// The same in words written out here, so that the forms above show.
#[test]
fn some_refusals_to_the_letter() {
    let folder = Folder::new("letter");
    let out = folder.path("out");
    let said =
        |command: &str| run_by_shell(&command.replace("OUT", &format!("'{out}'")), Stdio::piped()).said;
    assert_eq!(
        said("./join.sh models/p.model models/q.model OUT"),
        "refused 15\njoin.sh: models/p.model and models/q.model: the levels of the two models differ, in number or in a sign (level 1 is least in the \
         first, greatest in the second); give both the same levels\n"
    );
    assert_eq!(
        said("./join.sh models/p.model models/one-line.model OUT"),
        "refused 15\njoin.sh: models/p.model and models/one-line.model: the levels of the two models differ, in number or in a sign (2 levels in the \
         first, 1 in the second); give both the same levels\n"
    );
    assert_eq!(
        said("head -c 51 models/p.model | ./judge.sh /dev/stdin"),
        "judge.sh: /dev/stdin: the file's length is not what the counts and the third offset say; see that it was copied whole and that nothing \
         stands behind it\n"
    );
}

/// A judgement that is refused in one way is there in the other; where both refuse, there is none.
#[test]
fn refused_judgements_are_said_in_words() {
    let plain =
        |path: &str| format!("judge.sh: {path}: plain: {}\n", sentence(10, "judging plainly", "1,000,000"));
    let path = root("models/chains.model");
    let text = "plain refused 10\ntree 00003fe00ffc01ff 731025\nshare 1000\n";
    assert_eq!(run("judge.sh", &[&path]), Ended::new(0, text, &plain(&path)));
    let path = root("models/largest.model");
    let tree = sentence(10, "judging by built-in trees", "6996025, where 1,000,000 are allowed");
    let words = format!("{}judge.sh: {path}: tree: {tree}\n", plain(&path));
    let text = "plain refused 10\ntree refused 10 6996025\nshare none\n";
    assert_eq!(run("judge.sh", &[&path]), Ended::new(1, text, &words));
    let page = sentence(10, "making the page", "6996025 are forecast");
    let words = format!("page.sh: {path}: {page}\n");
    assert_eq!(run("page.sh", &[&path]), Ended::new(1, "refused 10 6996025\n", &words));
    // One whose plain run ends, with a forecast over the ceiling: it is judged.
    let mut model = Model::from_file(&bytes_of("models/largest.model")).expect("it is a model");
    model.operands.iter_mut().for_each(Vec::clear);
    let folder = Folder::new("plainly");
    let path = folder.file("plainly.model", &model.file());
    let ended = run("judge.sh", &[&path]);
    assert!(
        ended.printed.starts_with("plain ")
            && ended.printed.ends_with("tree refused 10 6996025\nshare none\n")
    );
    assert_eq!((ended.status, ended.said), (Some(0), format!("judge.sh: {path}: tree: {tree}\n")));
}

// ---- files ----

#[test]
fn usage_is_said_with_status_2() {
    let p = root("models/p.model");
    let usage = [("judge.sh", "FILE", 1), ("page.sh", "FILE", 1), ("join.sh", "FIRST SECOND OUT", 3)];
    for (script, arguments, count) in usage {
        let line = format!("usage: ./{script} {arguments}\n");
        for given in (0..5).filter(|&given| given != count) {
            assert_eq!(run(script, &vec![&p; given]), Ended::new(2, "", &line), "{given}");
        }
        assert_eq!(run(script, &["--help"]), Ended::new(0, &line, ""));
    }
}

#[test]
fn what_cannot_be_read_is_named_with_status_2() {
    let folder = Folder::new("unreadable");
    let (p, out) = (root("models/p.model"), folder.file("out", b"as it was"));
    let (none, link, below) =
        (folder.path("none"), folder.path("link"), folder.0.to_str().unwrap().to_string());
    symlink(&none, &link).expect("it is made");
    for (path, reason) in [
        (&none, "no such file"),
        (&link, "no such file"),
        (&String::new(), "no such file"),
        (&below, "this is a folder; give a model's file"),
    ] {
        let named = |script: &str| Ended::new(2, "", &format!("{script}: {path}: {reason}\n"));
        assert_eq!(run("judge.sh", &[path]), named("judge.sh"));
        assert_eq!(run("page.sh", &[path]), named("page.sh"));
        assert_eq!(run("join.sh", &[path, &p, &out]), named("join.sh"));
        assert_eq!(run("join.sh", &[&p, path, &out]), named("join.sh"));
    }
    assert_eq!(fs::read(&out).expect("it is there"), b"as it was");
    for script in ["judge.sh", "page.sh"] {
        let ended = run_by_shell(&format!("./{script} /dev/stdin <&-"), Stdio::piped());
        assert_eq!(ended, Ended::new(2, "", &format!("{script}: /dev/stdin: it is closed\n")));
    }
    // A read that fails, of a file that can be opened.
    let ended = run("join.sh", &[&p, "/proc/self/mem", &out]);
    assert_eq!(ended, Ended::new(2, "", "join.sh: /proc/self/mem: Input/output error\n"));
}

#[test]
fn files_that_may_not_be_read_or_written_are_named() {
    let folder = Folder::new("private");
    let (p, path) = (root("models/p.model"), folder.file("private.model", &bytes_of("models/p.model")));
    let set_mode = |mode| fs::set_permissions(&path, Permissions::from_mode(mode)).expect("it is ours");
    set_mode(0o000);
    // Root may read it all the same, unless it gives up that right.
    let is_root = fs::read(&path).is_ok();
    let run = |script: &str, arguments: &[&String]| {
        let mut command = Command::new(if is_root { "setpriv" } else { "env" });
        if is_root {
            command.args(["--bounding-set=-all", "--inh-caps=-all"]);
        }
        Ended::of(command.arg(root(script)).args(arguments))
    };
    let unreadable = format!("judge.sh: {path}: the file may not be read by you\n");
    assert_eq!(run("judge.sh", &[&path]), Ended::new(2, "", &unreadable));
    set_mode(0o444);
    let unwritable = format!("join.sh: {path}: the file may not be written by you\n");
    assert_eq!(run("join.sh", &[&p, &p, &path]), Ended::new(3, "", &unwritable));
    assert_eq!(fs::read(&path).expect("it is there"), bytes_of("models/p.model"));
}

#[test]
fn pipes_are_taken_as_files() {
    for (script, text) in printing_scripts() {
        for command in [
            format!("cat models/p.model | ./{script} /dev/stdin"),
            format!("./{script} /dev/stdin <models/p.model"),
            format!("./{script} <(cat models/p.model)"),
            format!(
                "(head -c 7 models/p.model; sleep 0.1; tail -c +8 models/p.model) | ./{script} /dev/fd/0"
            ),
        ] {
            assert_eq!(run_by_shell(&command, Stdio::piped()), Ended::new(0, &text, ""), "{command}");
        }
    }
    let folder = Folder::new("pipes");
    let out = folder.path("out");
    for command in [
        format!("./join.sh <(cat models/p.model) /dev/stdin '{out}' <models/pyrometers.model"),
        format!("cat models/pyrometers.model | ./join.sh models/p.model /dev/stdin '{out}'"),
        format!("./join.sh models/p.model models/pyrometers.model /dev/stdout | cat >'{out}'"),
        format!("./join.sh models/p.model models/pyrometers.model >(cat >'{out}'; kill $$); sleep 5"),
    ] {
        let _ = fs::remove_file(&out);
        run_by_shell(&command, Stdio::piped());
        assert_eq!(
            fs::read(&out).expect("it is there"),
            bytes_of("models/p-and-pyrometers.model"),
            "{command}"
        );
    }
}

#[test]
fn a_script_works_through_symbolic_links() {
    let folder = Folder::new("links");
    let p = root("models/p.model");
    for (script, text) in printing_scripts() {
        let (link, further) = (folder.path(&format!("to {script}")), folder.path(&format!("on {script}")));
        symlink(fs::canonicalize(root(script)).expect("it is there"), &link).expect("it is made");
        symlink(format!("to {script}"), &further).expect("it is made");
        for path in [&link, &further] {
            assert_eq!(Ended::of(Command::new(path).arg(&p).current_dir("/")), Ended::new(0, &text, ""));
        }
    }
    let (link, out) = (folder.path("join"), folder.path("out"));
    symlink(fs::canonicalize(root("join.sh")).expect("it is there"), &link).expect("it is made");
    let joined = Command::new(&link).args([&p, &p, &out]).current_dir("/").status().expect("it ran");
    assert!(joined.success() && fs::read(&out).expect("it is there").len() == 90);
}

// ---- output that cannot be written ----

#[test]
fn output_that_is_not_whole_is_said_with_status_3() {
    for script in ["judge.sh", "page.sh"] {
        let not_written = |reason: &str| {
            Ended::new(3, "", &format!("{script}: the output could not be written: {reason}\n"))
        };
        let command = format!("./{script} models/p.model");
        assert_eq!(run_by_shell(&command, full_disk()), not_written("No space left on device"));
        assert_eq!(run_by_shell(&command, closed_pipe()), not_written("Broken pipe"));
        let closed = run_by_shell(&format!("{command} >&-"), Stdio::piped());
        assert_eq!(closed, not_written("standard output is closed"));
        // Where standard error is full or closed too, the status is what is left.
        for lost in ["2>/dev/full", "2>&-"] {
            assert_eq!(run_by_shell(&format!("{command} {lost}"), full_disk()).status, Some(3), "{lost}");
            let none = run_by_shell(&format!("./{script} models/none {lost}"), Stdio::piped());
            assert_eq!(none.status, Some(2), "{lost}");
            let refused = run_by_shell(
                &format!("head -c 9 models/p.model | ./{script} /dev/stdin {lost}"),
                Stdio::piped(),
            );
            assert_eq!((refused.status, &refused.printed[..]), (Some(1), "refused 1\n"), "{lost}");
        }
    }
}

#[test]
fn a_joined_file_that_is_not_whole_leaves_what_was_there() {
    let folder = Folder::new("whole");
    let (p, out, new) = (root("models/p.model"), folder.file("out", b"as it was"), folder.path("new"));
    let not_written = |path: &str, reason: &str| Ended::new(3, "", &format!("join.sh: {path}: {reason}\n"));
    // No byte more fits on the disk.
    for path in [&out, &new] {
        let command = format!("ulimit -f 0; ./join.sh models/p.model models/p.model '{path}'");
        let reason = "the joined file could not be written: File too large";
        assert_eq!(run_by_shell(&command, Stdio::piped()), not_written(path, reason));
    }
    let nowhere = folder.path("none/out");
    assert_eq!(run("join.sh", &[&p, &p, &nowhere]), not_written(&nowhere, "no file can be made there"));
    let below = folder.0.to_str().unwrap();
    let reason = "this is a folder; give a file to write";
    assert_eq!(run("join.sh", &[&p, &p, below]), not_written(below, reason));
    // Nothing is left beside it.
    assert_eq!(folder.names(), ["out"]);
    assert_eq!(fs::read(&out).expect("it is there"), b"as it was");
}

/// A joined file by the reference.
fn joined(first: &[u8], second: &[u8]) -> Vec<u8> {
    let mut file = vec![0; 4248];
    let length = reference::join(first, second, &mut file).length;
    file.truncate(length as usize);
    file
}

#[test]
fn join_sh_writes_the_joined_file() {
    let folder = Folder::new("join");
    let mut random = Random::new(806);
    let models = random::models_alike(&mut random, [5, 9], 3);
    let [first, second] = models.map(|model| random::file(&mut random, &model));
    let save = || [folder.file("a", &first), folder.file("b", &second)];
    let [a, b] = &save();
    let out = folder.path("out");
    let assert_joins = |paths: [&str; 3], file: Vec<u8>| {
        assert_eq!(run("join.sh", &paths), Ended::new(0, "", ""));
        assert_eq!(fs::read(paths[2]).expect("it is there"), file);
    };
    // To a file that is not there and to one that is, in the other order; to a longer one; and over either of the two, or both.
    assert_joins([a, b, &out], joined(&first, &second));
    assert_joins([b, a, &out], joined(&second, &first));
    fs::write(&out, [0xee; 5000]).expect("it is written");
    assert_joins([a, b, &out], joined(&first, &second));
    assert_joins([a, b, a], joined(&first, &second));
    save();
    assert_joins([a, b, b], joined(&first, &second));
    assert_joins([a, a, a], joined(&first, &first));
    // A link stays, and leads to the new file, which need not be there before.
    save();
    for name in ["out", "beyond"] {
        let link = folder.path("link");
        let _ = fs::remove_file(&link);
        symlink(name, &link).expect("it is made");
        assert_joins([a, b, &link], joined(&first, &second));
        assert_eq!(fs::read_link(&link).expect("it is a link"), Path::new(name));
        assert_eq!(fs::read(folder.path(name)).expect("it is there"), joined(&first, &second));
    }
    assert_eq!(folder.names(), ["a", "b", "beyond", "link", "out"]);
}

#[test]
fn a_joined_file_has_the_mode_of_the_one_that_it_replaces() {
    let folder = Folder::new("mode");
    let out = folder.file("out", b"");
    let mode = |path: &str| fs::metadata(path).expect("it is there").permissions().mode() & 0o777;
    for set in [0o600, 0o644, 0o755] {
        fs::set_permissions(&out, Permissions::from_mode(set)).expect("it is ours");
        assert_eq!(
            run("join.sh", &[&root("models/p.model"), &root("models/p.model"), &out]),
            Ended::new(0, "", "")
        );
        assert_eq!(mode(&out), set);
    }
    for (umask, expected) in [("022", 0o644), ("027", 0o640), ("077", 0o600)] {
        fs::remove_file(&out).expect("it is there");
        let command = format!("umask {umask}; ./join.sh models/p.model models/p.model '{out}'");
        assert_eq!(run_by_shell(&command, Stdio::piped()), Ended::new(0, "", ""));
        assert_eq!(mode(&out), expected);
    }
}

#[test]
fn join_sh_leaves_its_third_file_where_the_two_are_refused() {
    let folder = Folder::new("left");
    let p = bytes_of("models/p.model");
    let out = folder.path("out");
    for (second, number) in [(&p[..p.len() - 1], 5), (&bytes_of("models/q.model"), 15), (&[], 1)] {
        let (a, b) = (folder.file("a", &p), folder.file("b", second));
        let said = format!("refused {number}\n{}", Where::of(&p, second).words(number, &a, &b));
        let _ = fs::remove_file(&out);
        assert_eq!(run("join.sh", &[&a, &b, &out]), Ended::new(1, "", &said));
        assert_eq!(folder.names(), ["a", "b"]);
        fs::write(&out, "as it was").expect("it is written");
        assert_eq!(run("join.sh", &[&a, &b, &out]), Ended::new(1, "", &said));
        assert_eq!(fs::read(&out).expect("it is there"), b"as it was");
        assert_eq!(run("join.sh", &[&a, &b, &a]), Ended::new(1, "", &said));
        assert_eq!(fs::read(&a).expect("it is there"), p);
        assert_eq!(folder.names(), ["a", "b", "out"]);
    }
}
