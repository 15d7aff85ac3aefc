//! Running the programs' scripts.

use crate::root;
use std::ffi::OsStr;
use std::process::{Command, Output, Stdio};

/// How a script ended: its status, what it printed and what it said on standard error.
#[derive(Debug, PartialEq)]
pub struct Ended {
    pub status: Option<i32>,
    pub printed: String,
    pub said: String,
}

impl Ended {
    pub fn new(status: i32, printed: &str, said: &str) -> Ended {
        Ended { status: Some(status), printed: printed.to_string(), said: said.to_string() }
    }

    /// Runs a command to its end.
    pub fn of(command: &mut Command) -> Ended {
        Ended::with(command.output().expect("it is there"))
    }

    fn with(output: Output) -> Ended {
        let text = |bytes| String::from_utf8(bytes).expect("it is text");
        Ended { status: output.status.code(), printed: text(output.stdout), said: text(output.stderr) }
    }
}

/// Runs a script of the repository.
pub fn run<S: AsRef<OsStr>>(script: &str, arguments: &[S]) -> Ended {
    Ended::of(Command::new(root(script)).args(arguments))
}

/// Runs a command of the shell in the repository's folder, with its output to this place.
pub fn run_by_shell(command: &str, output: Stdio) -> Ended {
    let run = Command::new("bash")
        .args(["-c", command])
        .current_dir(root(""))
        .stdout(output)
        .stderr(Stdio::piped())
        .spawn();
    Ended::with(run.and_then(|run| run.wait_with_output()).expect("bash is there"))
}

/// A place without room.
pub fn full_disk() -> Stdio {
    Stdio::from(std::fs::OpenOptions::new().write(true).open("/dev/full").expect("it is there"))
}

/// A pipe that nobody reads.
pub fn closed_pipe() -> Stdio {
    let (reader, writer) = std::io::pipe().expect("a pipe");
    drop(reader);
    Stdio::from(writer)
}
