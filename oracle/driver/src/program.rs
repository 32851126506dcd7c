//! The programs, run as their users run them.

use crate::places::in_repository;
use std::io::{self, Write};
use std::path::PathBuf;
use std::process::{Command, Output, Stdio};
use std::thread;

pub struct Program {
    path: PathBuf,
}

impl Program {
    /// Where the prover puts it; none, said so, where it is not there.
    pub fn find(name: &str) -> Option<Self> {
        let path = in_repository("target/bin").join(name);
        let is_there = path.is_file();
        if !is_there {
            println!("the program {name} is NOT at {}: tools/build {name} makes it", path.display());
        }
        is_there.then_some(Self { path })
    }

    /// What it prints on standard output for a text on standard input; Err says what went wrong.
    pub fn printed(&self, text: &[u8]) -> Result<Vec<u8>, String> {
        printed(&mut Command::new(&self.path), text)
    }

    /// What a shell prints that pipes its output into another program.
    pub fn piped(&self, into: &Self, text: &[u8]) -> Result<Vec<u8>, String> {
        let mut shell = Command::new("sh");
        printed(shell.args(["-c", r#""$0" | "$1""#]).args([&self.path, &into.path]), text)
    }
}

fn printed(command: &mut Command, text: &[u8]) -> Result<Vec<u8>, String> {
    match run(command, text) {
        Ok(Output { status, stdout, .. }) if status.success() => Ok(stdout),
        Ok(Output { status, stdout, .. }) => Err(format!("{}\n{status}", stdout.escape_ascii())),
        Err(error) => Err(error.to_string()),
    }
}

fn run(command: &mut Command, text: &[u8]) -> io::Result<Output> {
    let mut child = command.stdin(Stdio::piped()).stdout(Stdio::piped()).spawn()?;
    let mut input = child.stdin.take().expect("it is piped");
    thread::scope(|scope| {
        // What comes after the most bytes need not be read, so writing may fail.
        scope.spawn(move || input.write_all(text).ok());
        child.wait_with_output()
    })
}
