//! `plain`: a program of the homeostasis protocol in plain Rust, beside which homeo is measured. It reads the texts of homeo's version 1
//! and writes what homeo writes.

mod code;
mod commands;
mod execution;
mod forms;
mod hash;
mod lowering;
mod names;
mod parser;
mod plan;
mod program;
mod rounds;
mod scope;
mod site;
mod steps;
mod syntax;
mod template;
mod text;
mod threads;
mod tokens;
mod treaty;
mod walk;

use std::env;
use std::fs::File;
use std::io::{self, Read, Write};
use std::process::ExitCode;

use parser::Refusal;
use program::Program;

const USAGE: &str = "usage: plain steps or run or treaty, and a FILE, or - or nothing for standard input";

/// How the program fails: with a status, and a line that says why.
struct Failure(u8, String);

fn main() -> ExitCode {
    let words: Vec<String> = env::args_os().skip(1).map(|word| word.to_string_lossy().into_owned()).collect();
    let words: Vec<&str> = words.iter().map(String::as_str).collect();
    match obey(&words) {
        Ok(()) => ExitCode::SUCCESS,
        Err(Failure(status, line)) => {
            eprintln!("{line}");
            ExitCode::from(status)
        }
    }
}

fn obey(words: &[&str]) -> Result<(), Failure> {
    let (command, file): (fn(&Program) -> Vec<u8>, &str) = match *words {
        [command] => (work_of(command)?, "-"),
        [command, file] => (work_of(command)?, file),
        _ => return Err(usage()),
    };
    let text = contents(file).map_err(|_| Failure(4, String::from("read fault")))?;
    let workload = parser::read(&text, words[0] == "steps").map_err(refused)?;
    let program = Program::new(workload).map_err(refused)?;
    let report = command(&program);
    let mut out = io::stdout().lock();
    out.write_all(&report).and_then(|()| out.flush()).map_err(|_| Failure(5, String::from("write fault")))
}

fn work_of(command: &str) -> Result<fn(&Program) -> Vec<u8>, Failure> {
    match command {
        "steps" => Ok(steps::steps),
        "run" => Ok(threads::run),
        "treaty" => Ok(treaty::treaty),
        _ => Err(usage()),
    }
}

fn usage() -> Failure {
    Failure(1, String::from(USAGE))
}

fn refused(refusal: Refusal) -> Failure {
    Failure(2, format!("refused E{} at {}", refusal.code, refusal.offset))
}

/// The bytes of a file, or of standard input.
fn contents(file: &str) -> io::Result<Vec<u8>> {
    let mut bytes = Vec::new();
    if file == "-" {
        io::stdin().lock().read_to_end(&mut bytes)?;
    } else {
        File::open(file)?.read_to_end(&mut bytes)?;
    }
    Ok(bytes)
}
