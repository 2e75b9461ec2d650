//! Another program that speaks the protocol over its standard input and output.

use std::io::{Read, Write};
use std::os::unix::process::CommandExt;
use std::path::Path;
use std::process::{Child, ChildStdout, Command, ExitStatus, Stdio};
use std::sync::mpsc::{channel, Receiver, RecvTimeoutError};
use std::thread;
use std::time::{Duration, Instant};

/// What came of playing a script.
#[derive(Default)]
pub struct Played {
    pub answers: Vec<Vec<u8>>,
    /// Why there are no more answers, when the program did not simply come to its end.
    pub trouble: Option<String>,
}

#[derive(Clone)]
pub struct Program {
    arguments: Vec<String>,
    /// Longest time with no byte of output.
    pub patience: Duration,
}

impl Program {
    /// A path, or a command line in words (blanks apart, quotes hold a word together).
    pub fn new(command: &str, patience: Duration) -> Result<Program, String> {
        let arguments = match Path::new(command).is_file() {
            true => vec![command.to_string()],
            false => split_words(command),
        };
        if arguments.is_empty() {
            return Err("an empty command".to_string());
        }
        Ok(Program { arguments, patience })
    }

    /// Can it be started at all?
    pub fn try_start(&self) -> Result<(), String> {
        let mut child = self.start().map_err(|problem| self.no_start(&problem))?;
        end_group(&mut child);
        Ok(())
    }

    fn no_start(&self, problem: &std::io::Error) -> String {
        format!("cannot start {}: {problem}", self.arguments[0])
    }

    /// The same program, with less patience.
    pub fn hurried(&self) -> Program {
        let patience = (self.patience / 6).max(Duration::from_secs(2)).min(self.patience);
        Program { arguments: self.arguments.clone(), patience }
    }

    fn start(&self) -> std::io::Result<Child> {
        Command::new(&self.arguments[0])
            .args(&self.arguments[1..])
            .stdin(Stdio::piped())
            .stdout(Stdio::piped())
            .stderr(Stdio::null())
            .process_group(0)
            .spawn()
    }

    /// Play a whole input. More than `most` bytes of output are too many.
    pub fn play(&self, input: Vec<u8>, most: usize) -> Played {
        let mut child = match self.start() {
            Ok(child) => child,
            Err(problem) => {
                return Played { answers: Vec::new(), trouble: Some(self.no_start(&problem)) };
            }
        };
        write_in_a_thread(&mut child, input);
        let output = child.stdout.take().map(read_in_a_thread);
        let (bytes, mut trouble) = match output {
            Some(receiver) => self.collect(&receiver, most),
            None => (Vec::new(), Some("no output".to_string())),
        };
        if trouble.is_none() {
            trouble = self.wait(&mut child);
        }
        if trouble.is_some() {
            end_group(&mut child);
        }
        let (answers, left_over) = lines_of(&bytes);
        if left_over {
            trouble.get_or_insert("the last answer has no newline".to_string());
        }
        Played { answers, trouble }
    }

    fn collect(&self, receiver: &Receiver<Vec<u8>>, most: usize) -> (Vec<u8>, Option<String>) {
        let mut bytes = Vec::new();
        loop {
            match receiver.recv_timeout(self.patience) {
                Ok(part) => bytes.extend(part),
                Err(RecvTimeoutError::Disconnected) => return (bytes, None),
                Err(RecvTimeoutError::Timeout) => {
                    let seconds = self.patience.as_secs();
                    return (bytes, Some(format!("hangs: no output for {seconds} seconds")));
                }
            }
            if bytes.len() > most {
                return (bytes, Some("answers too much".to_string()));
            }
        }
    }

    /// Wait for the end; death by a signal is trouble, an exit status is the program's own affair.
    fn wait(&self, child: &mut Child) -> Option<String> {
        let start = Instant::now();
        loop {
            match child.try_wait() {
                Ok(Some(status)) => return died(status),
                Err(problem) => return Some(problem.to_string()),
                Ok(None) if start.elapsed() > self.patience => {
                    return Some("hangs: output closed, but no end".to_string());
                }
                Ok(None) => thread::sleep(Duration::from_micros(200)),
            }
        }
    }
}

fn died(status: ExitStatus) -> Option<String> {
    match status.code() {
        Some(_) => None,
        None => Some(format!("died: {status}")),
    }
}

fn write_in_a_thread(child: &mut Child, input: Vec<u8>) {
    if let Some(mut pipe) = child.stdin.take() {
        thread::spawn(move || {
            // A program that ends early leaves a broken pipe; its answers tell.
            let _ = pipe.write_all(&input);
        });
    }
}

fn read_in_a_thread(mut pipe: ChildStdout) -> Receiver<Vec<u8>> {
    let (sender, receiver) = channel();
    thread::spawn(move || {
        let mut part = vec![0; 1 << 16];
        while let Ok(length) = pipe.read(&mut part) {
            if length == 0 || sender.send(part[..length].to_vec()).is_err() {
                return;
            }
        }
    });
    receiver
}

/// End the child and what it started: the child leads a process group of its own.
fn end_group(child: &mut Child) {
    let group = format!("kill -9 -{}", child.id());
    let _ = Command::new("sh").args(["-c", &group]).stderr(Stdio::null()).status();
    let _ = child.kill();
    let _ = child.wait();
}

/// The whole lines of an output, and whether a part of a line is left over.
fn lines_of(bytes: &[u8]) -> (Vec<Vec<u8>>, bool) {
    let mut lines: Vec<Vec<u8>> = bytes.split(|&c| c == b'\n').map(<[u8]>::to_vec).collect();
    let left_over = lines.pop().is_some_and(|last| !last.is_empty());
    (lines, left_over)
}

fn split_words(command: &str) -> Vec<String> {
    let mut words = Vec::new();
    let mut word: Option<String> = None;
    let mut quote = None;
    for character in command.chars() {
        match (quote, character) {
            (Some(mark), c) if c == mark => quote = None,
            (None, '\'' | '"') => {
                quote = Some(character);
                word.get_or_insert_with(String::new);
            }
            (None, ' ' | '\t') => words.extend(word.take()),
            (_, c) => word.get_or_insert_with(String::new).push(c),
        }
    }
    words.extend(word);
    words
}

#[cfg(test)]
mod tests {
    use super::*;

    fn program(command: &str, seconds: u64) -> Program {
        Program::new(command, Duration::from_secs(seconds)).unwrap()
    }

    #[test]
    fn words_and_quotes() {
        assert_eq!(split_words("a  'b c'\t\"d 'e\" f''"), ["a", "b c", "d 'e", "f"]);
    }

    #[test]
    fn a_megabyte_goes_through_without_a_deadlock() {
        let input: Vec<u8> = b"0123456789abcde\n".repeat(70_000);
        let played = program("cat", 20).play(input, 2_000_000);
        assert_eq!((played.answers.len(), played.trouble), (70_000, None));
    }

    #[test]
    fn one_that_hangs_is_ended() {
        let played = program("sh -c 'echo ok; sleep 60; :'", 1).play(Vec::new(), 100);
        assert_eq!(played.answers, [b"ok"]);
        assert!(played.trouble.unwrap().contains("hangs"));
    }

    #[test]
    fn one_that_dies_or_talks_on_is_told() {
        let played = program("sh -c 'kill -9 $$'", 20).play(vec![b'\n'; 1_000_000], 100);
        assert!(played.trouble.unwrap().contains("died"));
        let played = program("yes", 20).play(Vec::new(), 100);
        assert_eq!(played.trouble.unwrap(), "answers too much");
        assert!(program("no-such-program-here", 20).try_start().is_err());
    }
}
