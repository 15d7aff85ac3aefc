//! `judge.sh`, `page.sh` and `join.sh` run no program that is older than its sources, and show that proving goes on. Each is copied to a folder of its
//! own, where a script stands for tools/build.py: what it builds prints "new", and the program that is there beforehand prints "old".

use std::fs::{self, File, Permissions};
use std::io::Read;
use std::os::unix::fs::{OpenOptionsExt, PermissionsExt};
use std::path::{Path, PathBuf};
use std::process::{Command, Output, Stdio};

use harness::root;
use std::time::{Duration, SystemTime};

/// The programs, each of which has a script of its name.
const PROGRAMS: [&str; 3] = ["judge", "page", "join"];

/// A crates.txt in which a program stands on three crates, one of them by two ways, and another program on one more.
fn crates(program: &str) -> String {
    format!("# a comment: b\na:\nb: a  # and a\nc: a b io\nother: a d\nd:\n{program}: c b libc\n")
}

struct Copy {
    folder: PathBuf,
    program: &'static str,
}

fn write_script(path: &Path, text: &str) {
    fs::write(path, text).expect("it is written");
    fs::set_permissions(path, Permissions::from_mode(0o755)).expect("it is ours");
}

/// Sets when a file or a folder was last changed: some seconds after (or before) the program was built.
fn set_age(path: &Path, seconds: i64) {
    let built = SystemTime::now() - Duration::from_secs(1000);
    let shift = Duration::from_secs(seconds.unsigned_abs());
    let time = if seconds < 0 { built - shift } else { built + shift };
    File::open(path).and_then(|file| file.set_modified(time)).expect("it is there");
}

impl Copy {
    /// A program newer than all of its sources, and a build.py that builds another one; an `rt` is on the PATH.
    fn new(program: &'static str, name: &str) -> Copy {
        let folder = Path::new(env!("CARGO_TARGET_TMPDIR")).join(format!("{program}_{name}"));
        let _ = fs::remove_dir_all(&folder);
        for part in ["crates/a/src", "crates/a/must-fail", "target/bin", "bin", "tools", "include"] {
            fs::create_dir_all(folder.join(part)).expect("it is made");
        }
        for script in
            [&format!("{program}.sh"), "tools/run-program.sh", "tools/program.sh", "include/refusals.txt"]
        {
            fs::copy(root(script), folder.join(script)).expect("it is there");
        }
        fs::write(folder.join("crates.txt"), crates(program)).expect("it is written");
        fs::write(folder.join("crates/a/src/main.rt"), "fn main() {}\n").expect("it is written");
        fs::write(folder.join("a.model"), "").expect("it is written");
        let built = format!("target/bin/{program}");
        write_script(&folder.join(&built), "#!/bin/sh\necho old\n");
        write_script(&folder.join("bin/rt"), "#!/bin/sh\nexit 9\n");
        write_script(
            &folder.join("tools/build.py"),
            &format!(
                "#!/bin/sh\n[ \"$*\" = '{program}' ] || exit 9\nprintf '#!/bin/sh\\necho new\\n' >{built}\nchmod +x {built}\n"
            ),
        );
        let copy = Copy { folder, program };
        for path in
            ["crates.txt", "crates", "crates/a", "crates/a/src", "crates/a/src/main.rt", "crates/a/must-fail"]
        {
            copy.age(path, -10);
        }
        copy.age(&built, 0);
        copy
    }

    /// A program older than crates.txt, and a build.py that runs these commands.
    fn stale(program: &'static str, name: &str, build: &str) -> Copy {
        let copy = Copy::new(program, name);
        write_script(&copy.folder.join("tools/build.py"), &format!("#!/bin/sh\n{build}\n"));
        copy.age("crates.txt", 10);
        copy
    }

    fn age(&self, path: &str, seconds: i64) {
        set_age(&self.folder.join(path), seconds);
    }

    fn path(&self, name: &str) -> PathBuf {
        self.folder.join(name)
    }

    /// The script over a model, with `rt` standing in the copy's folder.
    fn script_over(&self, model: &str) -> Command {
        let path = format!("{}:{}", self.path("bin").display(), std::env::var("PATH").expect("there is one"));
        let mut script = Command::new(self.path(&format!("{}.sh", self.program)));
        script.arg(self.path(model)).env("PATH", path);
        if self.program == "join" {
            script.args([self.path(model), self.path("joined.model")]);
        }
        script
    }

    fn script(&self) -> Command {
        self.script_over("a.model")
    }

    /// Runs the script. What `join.sh` writes to its third file, and to no other place, stands in the output as if it were printed.
    fn run(&self) -> Output {
        self.ended(self.script().output().expect("it ran"))
    }

    fn ended(&self, output: Output) -> Output {
        if self.program != "join" {
            return output;
        }
        assert!(output.stdout.is_empty());
        Output { stdout: fs::read(self.path("joined.model")).unwrap_or_default(), ..output }
    }

    fn prints(&self, program: &str, says: &str) {
        let output = self.run();
        assert!(output.status.success());
        assert_eq!(String::from_utf8_lossy(&output.stdout), format!("{program}\n"));
        let said = String::from_utf8_lossy(&output.stderr).into_owned();
        assert!(if says.is_empty() { said.is_empty() } else { said.contains(says) }, "it said: {said}");
    }
}

impl Drop for Copy {
    fn drop(&mut self) {
        let _ = fs::remove_dir_all(&self.folder);
    }
}

#[test]
fn a_program_newer_than_its_sources_is_run_as_it_is() {
    for program in PROGRAMS {
        Copy::new(program, "newer").prints("old", "");
    }
}

#[test]
fn a_missing_program_is_built() {
    for program in PROGRAMS {
        let copy = Copy::new(program, "missing");
        fs::remove_file(copy.folder.join(format!("target/bin/{program}"))).expect("it was there");
        copy.prints("new", "since it is missing");
    }
}

#[test]
fn a_newer_source_has_it_built_again_once() {
    for program in PROGRAMS {
        for source in ["crates.txt", "crates/a/src/main.rt", "crates/a/src"] {
            let copy = Copy::new(program, &source.replace('/', "_"));
            copy.age(source, 10);
            copy.prints(
                "new",
                &format!("{program}.sh: proving and building the program, since {source} is newer"),
            );
            copy.prints("new", "");
        }
    }
}

/// A program may be left as it is where the newer file is none of its own; that, too, is asked once.
#[test]
fn a_program_that_is_left_is_as_new_as_the_check() {
    for program in PROGRAMS {
        let copy = Copy::stale(program, "left", "exit 0");
        copy.prints("old", "since crates.txt is newer");
        copy.prints("old", "");
    }
}

/// A source that changes while the program is built is newer than the program.
#[test]
fn a_source_changed_meanwhile_has_it_built_again() {
    for program in PROGRAMS {
        let build = format!("sleep 0.05; touch crates.txt; sleep 0.05; touch target/bin/{program}");
        let copy = Copy::stale(program, "meanwhile", &build);
        copy.prints("old", "since crates.txt is newer");
        copy.prints("old", "since crates.txt is newer");
    }
}

#[test]
fn a_program_that_is_not_proved_is_not_run() {
    for program in PROGRAMS {
        let build = "echo 'rt: a proved (1 s)'; echo 'a hole' >&2; echo 'rt: b NOT PROVED (exit 1, 0 s)'; echo 'rt: FAILED: b'; exit 1";
        let copy = Copy::stale(program, "not_proved", build);
        let output = copy.run();
        assert_eq!(output.status.code(), Some(3));
        assert!(output.stdout.is_empty());
        // What the prover said last, and where all of it is.
        let said = String::from_utf8_lossy(&output.stderr).into_owned();
        let end = format!(
            "proving 1 of 4: a\n{program}.sh: rt: FAILED: b\n{program}.sh: the program could not be proved and built, so it is not run: \
             target/log/{program}.sh has what the prover said\n"
        );
        assert!(said.ends_with(&end), "{said}");
        let log = fs::read_to_string(copy.path(&format!("target/log/{program}.sh"))).expect("it is there");
        assert_eq!(log, "rt: a proved (1 s)\na hole\nrt: b NOT PROVED (exit 1, 0 s)\nrt: FAILED: b\n");
    }
}

/// A program that was removed is built again.
#[test]
fn a_removed_program_is_built_again() {
    for program in PROGRAMS {
        let copy = Copy::stale(program, "removed", &proving(program));
        copy.prints("new", "since crates.txt is newer");
        fs::remove_file(copy.path(&format!("target/bin/{program}"))).expect("it is there");
        copy.prints("new", "since it is missing");
    }
}

#[test]
fn a_program_that_is_not_built_is_not_made_up() {
    for program in PROGRAMS {
        let copy = Copy::stale(program, "not_built", "exit 0");
        let built = copy.path(&format!("target/bin/{program}"));
        fs::remove_file(&built).expect("it is there");
        let output = copy.run();
        assert_eq!((output.status.code(), &output.stdout[..], built.exists()), (Some(3), &[][..], false));
        let said = format!("{program}.sh: target/bin/{program} is not there, though it is proved: remove target/ and call {program}.sh again\n");
        assert!(String::from_utf8_lossy(&output.stderr).ends_with(&said));
    }
}

/// An edit that must fail is no source.
#[test]
fn a_newer_edit_that_must_fail_has_nothing_built() {
    for program in PROGRAMS {
        let copy = Copy::new(program, "edit");
        fs::write(copy.path("crates/a/must-fail/new.edit"), "").expect("it is written");
        copy.age("crates/a", -10);
        copy.prints("old", "");
    }
}

/// What the prover keeps is no source, and makes its crate's own folder newer.
#[test]
fn what_the_prover_keeps_has_nothing_built() {
    for program in PROGRAMS {
        let copy = Copy::new(program, "kept");
        fs::create_dir(copy.path("crates/a/out")).expect("it is made");
        fs::write(copy.path("crates/a/out/kept.antt"), "").expect("it is written");
        copy.age("crates/a", 10);
        copy.prints("old", "");
    }
}

// ---- the first run ----

/// What build.py prints while it proves the four crates of a program, and builds it.
fn proving(program: &str) -> String {
    let crates: String = ["a", "b", "c", program]
        .map(|name| {
            format!("echo 'fn {name}::f: proved'; echo 'logic=proved'; echo 'rt: {name} proved (2 s)'\n")
        })
        .concat();
    format!("{crates}printf '#!/bin/sh\\necho new\\n' >target/bin/{program}\nchmod +x target/bin/{program}\necho 'rt: ok'")
}

/// A line for each crate that the program stands on, as it is proved, and nothing of what the prover says.
#[test]
fn the_first_run_counts_the_crates() {
    for program in PROGRAMS {
        let copy = Copy::stale(program, "first", &proving(program));
        let output = copy.run();
        assert_eq!((output.status.code(), &output.stdout[..]), (Some(0), &b"new\n"[..]));
        let said = format!(
            "{program}.sh: proving and building the program, since crates.txt is newer; from nothing this takes some minutes\n\
             proving 1 of 4: a\nproving 2 of 4: b\nproving 3 of 4: c\nproving 4 of 4: {program}\n"
        );
        assert_eq!(String::from_utf8_lossy(&output.stderr), said);
        let log = fs::read_to_string(copy.path(&format!("target/log/{program}.sh"))).expect("it is there");
        assert_eq!(log.lines().count(), 13);
        copy.prints("new", "");
    }
}

/// On a terminal it is one line that is written anew. `script` runs a command on a terminal of its own.
#[test]
fn on_a_terminal_the_count_is_one_line() {
    for program in ["judge", "page"] {
        let copy = Copy::stale(program, "terminal", &proving(program));
        let script = copy.script();
        let command = format!(
            "{} {} 2>&1",
            copy.path(&format!("{program}.sh")).display(),
            copy.path("a.model").display()
        );
        let mut terminal = Command::new("script");
        terminal.args(["-qec", &command, "/dev/null"]).stdin(Stdio::null());
        terminal.envs(script.get_envs().filter_map(|(name, value)| Some((name, value?))));
        let shown = terminal.output().expect("script is there");
        let shown = String::from_utf8(shown.stdout).expect("it is ASCII");
        let first = "\r\x1b[Kproving 1 of 4: a";
        let last = format!("\r\x1b[Kproving 4 of 4: {program}\r\nnew\r\n");
        assert!(shown.contains(first) && shown.ends_with(&last), "{shown:?}");
        assert_eq!((shown.matches("proving ").count(), shown.matches('\n').count()), (5, 3), "{shown:?}");
    }
}

/// What a run reads from standard input is not taken from it by the prover.
#[test]
fn the_prover_reads_nothing_of_standard_input() {
    let copy = Copy::stale("judge", "stdin", "cat >taken; touch target/bin/judge");
    write_script(&copy.path("target/bin/judge"), "#!/bin/sh\nexec cat\n");
    copy.age("target/bin/judge", 0);
    copy.age("crates.txt", 10);
    fs::write(copy.path("input"), "a model\n").expect("it is written");
    let input = File::open(copy.path("input")).expect("it is there");
    // A path from the root on is taken as it is.
    let output = copy.script_over("/dev/stdin").stdin(input).output().expect("it ran");
    assert_eq!(output.stdout, b"a model\n");
    assert_eq!(fs::read(copy.path("taken")).expect("rt ran"), b"");
}

/// Runs at one time prove once: `rt` goes on when the two others say that they wait, and these then find the program proved.
#[test]
fn runs_at_one_time_prove_once() {
    for program in PROGRAMS {
        // For ten seconds at the most.
        let wait = "n=0; until [ \"$(cat said.* | grep -c waiting)\" = 2 ] || [ $((n += 1)) = 500 ]; do sleep 0.02; done";
        let build = format!("echo >>runs\n{wait}\n{}", proving(program));
        let copy = Copy::stale(program, "at_one_time", &build);
        let runs = [0, 1, 2].map(|run| {
            let said = File::create(copy.path(&format!("said.{run}"))).expect("it is made");
            copy.script().stdout(Stdio::piped()).stderr(said).spawn().expect("it runs")
        });
        for run in runs {
            let output = copy.ended(run.wait_with_output().expect("it ran"));
            assert_eq!((output.status.code(), &output.stdout[..]), (Some(0), &b"new\n"[..]));
        }
        assert_eq!(fs::read(copy.path("runs")).expect("it is there"), b"\n");
    }
}

/// The folders of the PATH that have no `rt`.
fn path_without_rt() -> String {
    let path = std::env::var("PATH").expect("there is one");
    let without = path.split(':').filter(|folder| !Path::new(folder).join("rt").exists());
    without.collect::<Vec<_>>().join(":")
}

#[test]
fn without_rt_a_program_runs_where_it_is_new_and_is_asked_for_where_it_is_not() {
    for program in PROGRAMS {
        let copy = Copy::new(program, "without_rt");
        let run = || copy.ended(copy.script().env("PATH", path_without_rt()).output().expect("it ran"));
        let output = run();
        assert_eq!(
            (output.status.code(), &output.stdout[..], &output.stderr[..]),
            (Some(0), &b"old\n"[..], &[][..])
        );
        copy.age("crates.txt", 10);
        let _ = fs::remove_file(copy.path("joined.model"));
        let output = run();
        assert_eq!((output.status.code(), &output.stdout[..]), (Some(3), &[][..]));
        let said = format!(
            "{program}.sh: the program is to be built, since crates.txt is newer, and rt is not on the PATH: install the Rattle kit (/opt/rattle)\n"
        );
        assert_eq!(String::from_utf8_lossy(&output.stderr), said);
    }
}

/// A program that is ended before its text is whole: by a signal, or in the middle of a line.
#[test]
fn a_text_that_is_not_whole_is_not_printed() {
    for (program, what) in [("judge", "its text"), ("page", "its text"), ("join", "the joined file")] {
        let copy = Copy::new(program, "not_whole");
        for body in ["echo plain; kill -9 $$", "printf 'plain 0'"] {
            if (program, body) == ("join", "printf 'plain 0'") {
                continue; // A joined file has no lines: the program says where it could not write it.
            }
            write_script(&copy.path(&format!("target/bin/{program}")), &format!("#!/bin/sh\n{body}\n"));
            let _ = fs::remove_file(copy.path("joined.model"));
            let output = copy.run();
            assert_eq!((output.status.code(), &output.stdout[..]), (Some(3), &[][..]), "{body}");
            let said = format!("{program}.sh: the program was ended before it had written {what}\n");
            assert!(String::from_utf8_lossy(&output.stderr).ends_with(&said));
        }
    }
}

/// A pipe that is closed before all of the joined file is read. More is written than a pipe holds.
#[test]
fn a_third_file_that_is_a_closed_pipe_is_noticed() {
    let copy = Copy::new("join", "closed_pipe");
    write_script(&copy.path("target/bin/join"), "#!/bin/sh\nhead -c 1000000 /dev/zero\n");
    let pipe = copy.path("joined.model");
    assert!(Command::new("mkfifo").arg(&pipe).status().expect("mkfifo is there").success());
    // Opened without waiting for a writer, and closed at the first byte.
    const O_NONBLOCK: i32 = 0o4000;
    let reader = File::options().read(true).custom_flags(O_NONBLOCK).open(&pipe);
    let mut reader = reader.expect("it is there");
    let mut run = copy.script().stdout(Stdio::piped()).stderr(Stdio::piped()).spawn().expect("it runs");
    while !matches!(reader.read(&mut [0]), Ok(1)) && run.try_wait().expect("it runs").is_none() {
        std::thread::sleep(Duration::from_millis(5));
    }
    drop(reader);
    let output = run.wait_with_output().expect("it ran");
    let said = format!("join.sh: {}: the joined file could not be written\n", pipe.display());
    assert_eq!((output.status.code(), String::from_utf8_lossy(&output.stderr).into_owned()), (Some(3), said));
}
