//! `second [--wrong NAME] [FILE]`: the line protocol over a file or standard input.

use second::{faults, protocol};
use std::fs::File;
use std::io::{self, BufReader, BufWriter, IsTerminal};
use std::process::ExitCode;

const USAGE: &str = "\
usage: second [--wrong NAME | --wrong list] [FILE]

Runs the rack program FILE, or standard input, on the second make of the Am9517A and writes one
answer for each command. --wrong NAME makes it wrong in one way, --wrong list tells the names.
It needs and writes nothing else.";

fn main() -> ExitCode {
    let arguments: Vec<String> = std::env::args().skip(1).collect();
    let words: Vec<&str> = arguments.iter().map(String::as_str).collect();
    let file = match words.as_slice() {
        ["-h" | "--help", ..] => return help(),
        ["--wrong", "list"] => return list(),
        ["--wrong", name, rest @ ..] => match faults::by_name(name) {
            None => return complain(&format!("no fault is named {name}")),
            fault => {
                faults::choose(fault);
                rest
            }
        },
        rest => rest,
    };
    let done = match file {
        [] => converse_with_standard_input(),
        [path] if !path.starts_with("--") => converse_with_file(path),
        [word] => return complain(&format!("what is {word}?\n{USAGE}")),
        _ => return complain(&format!("one file at most\n{USAGE}")),
    };
    match done {
        Ok(()) => ExitCode::SUCCESS,
        Err(problem) => complain(&problem.to_string()),
    }
}

fn help() -> ExitCode {
    println!("{USAGE}");
    ExitCode::SUCCESS
}

fn list() -> ExitCode {
    for (_, name, text) in faults::ALL {
        println!("{name:24} {text}");
    }
    ExitCode::SUCCESS
}

fn complain(text: &str) -> ExitCode {
    eprintln!("second: {text}");
    ExitCode::from(2)
}

fn converse_with_standard_input() -> io::Result<()> {
    let prompt = io::stdin().is_terminal();
    let mut input = BufReader::with_capacity(1 << 16, io::stdin().lock());
    let mut output = BufWriter::with_capacity(1 << 16, io::stdout().lock());
    protocol::converse(&mut input, &mut output, prompt)
}

fn converse_with_file(path: &str) -> io::Result<()> {
    let mut input = BufReader::new(File::open(path)?);
    let mut output = BufWriter::new(io::stdout().lock());
    protocol::converse(&mut input, &mut output, false)
}
