//! The docs are as the repository is (`tools/check-docs.py`): what they name is there, no line is too long, the lines that a reader is asked for are
//! counted, and the figures are those of the stored run. And the script notices each of these where it is not so.

use std::fs;
use std::path::{Path, PathBuf};
use std::process::Command;

use harness::root;

/// The script over a copy of the repository, or over the repository itself: whether it is content, and what it says.
fn checked(repository: &Path) -> (bool, String) {
    let script = root("tools/check-docs.py");
    let ended = Command::new("python3").arg(script).arg(repository).output().expect("python3 is there");
    let said = String::from_utf8(ended.stdout).expect("text");
    assert!(ended.stderr.is_empty(), "{}", String::from_utf8_lossy(&ended.stderr));
    (ended.status.success(), said)
}

/// What the repository has besides what is proved and built and what git keeps.
fn copy(from: &Path, to: &Path) {
    fs::create_dir_all(to).expect("a folder");
    for entry in fs::read_dir(from).expect("a folder").map(|entry| entry.expect("an entry")) {
        let (name, path) = (entry.file_name(), entry.path());
        if path.is_dir() && name != "target" && name != "out" && name != ".git" {
            copy(&path, &to.join(name));
        } else if path.is_file() {
            fs::copy(&path, to.join(name)).expect("a copy");
        }
    }
}

#[test]
fn the_docs_are_as_the_repository_is() {
    let (content, said) = checked(Path::new(&root("")));
    assert!(content, "{said}");
}

/// A change of a file, and what the script then says. An empty text to be replaced stands for the file's end.
struct Damage {
    file: &'static str,
    replaced: &'static str,
    by: &'static str,
    says: &'static str,
}

fn damage(file: &'static str, replaced: &'static str, by: &'static str, says: &'static str) -> Damage {
    Damage { file, replaced, by, says }
}

fn damages() -> Vec<Damage> {
    let long: &str = Box::leak(format!("{}\n", "é".repeat(201)).into_boxed_str());
    vec![
        damage("docs/MANUAL.md", "", long, "has 201 characters, over 200"),
        // A theorem that is gone, and one that stands elsewhere.
        damage(
            "crates/routes/proofs/Promises.antt",
            "plain_is_nested",
            "plain_nests",
            "nothing declares `plain_is_nested`",
        ),
        damage(
            "docs/PROVED.md",
            "`nested_set` in `routes/specs/Routes`",
            "`nested_set` in `system/specs/System`",
            "`nested_set` is not declared in `system/specs/System`",
        ),
        // A function, a file and a word that are not there.
        damage("docs/DEMANDS.md", "`checker::check`", "`checker::look`", "`checker` declares no `look`"),
        damage("docs/DEMANDS.md", "`interlocks.model`", "`doors.model`", "there is no file `doors.model`"),
        damage("README.md", "`include/`", "`headers/`", "there is no file or folder `headers/`"),
        // In two parts, since these are the sources too.
        damage(
            "README.md",
            "`main`",
            concat!("`ma", "im`"),
            concat!("`ma", "im` stands nowhere in the sources"),
        ),
        // An edit, a public function and a proof file.
        damage(
            "docs/DEMANDS.md",
            "`solver/must-fail`: `empty_set_always`",
            "`solver/must-fail`: `refusing_everything`",
            "`solver/must-fail` has no edit `refusing_everything`",
        ),
        damage(
            "crates/solver/src/lib.rt",
            "",
            "pub fn solve_otherwise() {}\n",
            "the public function `solve_otherwise` of crates/solver/src/lib.rt is not named",
        ),
        damage(
            "crates/solver/proofs/Anew.antt",
            "",
            "-- Anew.\n",
            "the table of files lacks crates/solver/proofs/Anew",
        ),
        damage("docs/ARCHITECTURE.md", "`Masks`", "`Sieves`", "`system` has no file `Sieves` in proofs/"),
        // The lines that a reader is asked for.
        damage(
            "crates/trees/specs/Fit.antt",
            "",
            "-- one line more\n",
            "`trees/specs/Fit` asks for 15 lines, and not for 14",
        ),
        damage("docs/PROVED.md", " lines in all", "0 lines in all", "lines in all, and not for"),
        // The stored run, a figure, and what the doc quotes.
        damage(
            "docs/benchmark/run.txt",
            "built         8      4 sparse",
            "built         9      4 sparse",
            "docs/benchmark/time-by-lines.svg:0: is not what harness/figures.py draws",
        ),
        damage(
            "docs/benchmark/beside-rust.svg",
            "1.0",
            "1.1",
            "docs/benchmark/beside-rust.svg:0: is not what",
        ),
        damage(
            "docs/BENCHMARK.md",
            "its stack in KiB",
            "its stack in KB",
            "quotes what the stored run does not have",
        ),
        damage(
            "docs/BENCHMARK.md",
            "(benchmark/beside-rust.svg)",
            "(benchmark/run.txt)",
            "does not show beside-rust.svg",
        ),
        // Links.
        damage("README.md", "(docs/MANUAL.md)", "(docs/BOOK.md)", "the link leads nowhere: docs/BOOK.md"),
    ]
}

/// Changes that are none to the script: an import and a blank line are not asked of a reader, and 200 characters are few enough.
fn harmless() -> [(&'static str, String); 2] {
    [
        ("crates/trees/specs/Fit.antt", "use Rattle.std.specs.Prelude.{eqb}\n\n".to_string()),
        ("docs/MANUAL.md", format!("{}\n", "é".repeat(200))),
    ]
}

#[test]
fn each_damage_is_noticed() {
    let folder = PathBuf::from(env!("CARGO_TARGET_TMPDIR")).join("docs");
    let _ = fs::remove_dir_all(&folder);
    copy(Path::new(&root("")), &folder);
    for (file, more) in harmless() {
        let path = folder.join(file);
        let whole = fs::read_to_string(&path).expect("it is there");
        fs::write(&path, whole.clone() + &more).expect("it is written");
        let (content, said) = checked(&folder);
        assert!(content, "{said}");
        fs::write(&path, whole).expect("it is put back");
    }
    for Damage { file, replaced, by, says } in damages() {
        let path = folder.join(file);
        let whole = fs::read_to_string(&path).ok();
        let text = whole.clone().unwrap_or_default();
        let changed = if replaced.is_empty() { text + by } else { text.replacen(replaced, by, 1) };
        assert_ne!(whole.as_ref(), Some(&changed), "{file} does not have '{replaced}'");
        fs::write(&path, changed).expect("it is written");
        let (content, said) = checked(&folder);
        assert!(!content && said.contains(says), "{file}, '{by}': expected '{says}', and was told\n{said}");
        match whole {
            Some(whole) => fs::write(&path, whole).expect("it is put back"),
            None => fs::remove_file(&path).expect("it was made"),
        }
    }
    fs::remove_dir_all(&folder).expect("it was made");
}
