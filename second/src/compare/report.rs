//! What the comparer shows: progress, differing scripts, and the counts.

use super::sides::{Difference, Text};
use std::io::{IsTerminal, Write};
use std::path::PathBuf;
use std::time::{Duration, Instant};

/// Longer lines are shown in part.
const SHOWN: usize = 300;
/// So many lines of a script are shown, the last ones.
const SHOWN_LINES: usize = 60;

pub struct Report {
    pub agree: u64,
    pub differ: u64,
    total: u64,
    start: Instant,
    last_shown: Instant,
    terminal: bool,
    names: [String; 2],
    save_in: Option<PathBuf>,
}

impl Report {
    pub fn new(total: u64, names: [String; 2], save_in: Option<PathBuf>) -> Report {
        let now = Instant::now();
        let terminal = std::io::stderr().is_terminal();
        Report { agree: 0, differ: 0, total, start: now, last_shown: now, terminal, names, save_in }
    }

    pub fn agree(&mut self, scripts: u64) {
        self.agree += scripts;
        if self.terminal && self.last_shown.elapsed() > Duration::from_millis(300) {
            self.last_shown = Instant::now();
            self.show_progress();
        }
    }

    /// The number of differing scripts so far, this one included.
    pub fn count_difference(&mut self) -> u64 {
        self.differ += 1;
        self.differ
    }

    pub fn scripts_a_minute(&self) -> u64 {
        let seconds = self.start.elapsed().as_secs_f64().max(0.001);
        ((self.agree + self.differ) as f64 * 60.0 / seconds) as u64
    }

    fn show_progress(&self) {
        let done = self.agree + self.differ;
        let speed = self.scripts_a_minute();
        let (total, differ) = (self.total, self.differ);
        eprint!("\r{done} of {total} scripts, {differ} differ, {speed} a minute   ");
        let _ = std::io::stderr().flush();
    }

    pub fn end_progress(&self) {
        if self.terminal {
            self.show_progress();
            eprintln!();
        }
    }

    pub fn tell_briefly(&self, seed: u64, number: u64, seen: &Difference) {
        println!("script {number} of seed {seed} differs");
        self.tell_answers(seen);
    }

    pub fn tell_company(&self, seed: u64, first: u64, last: u64) {
        println!(
            "scripts {first} to {last} of seed {seed}: no answer when played one behind the other, \
             though each agrees alone"
        );
    }

    pub fn tell(
        &self,
        seed: u64,
        number: u64,
        texts: &[Text],
        last_newline: bool,
        seen: &Difference,
    ) {
        println!("script {number} of seed {seed} differs; the shortest script found:");
        let hidden = texts.len().saturating_sub(SHOWN_LINES);
        if hidden > 0 {
            println!("    ({hidden} lines more; --save keeps them)");
        }
        for (index, text) in texts.iter().enumerate().skip(hidden) {
            let mark = if index == seen.line { '>' } else { ' ' };
            println!("  {mark} {}", visible(text));
        }
        if !last_newline {
            println!("    (the last line has no newline)");
        }
        self.tell_answers(seen);
        self.save(seed, number, texts, last_newline);
    }

    fn tell_answers(&self, seen: &Difference) {
        let place = first_unequal(&seen.first, &seen.second);
        let width = self.names.iter().map(String::len).max().unwrap_or(0);
        for (name, answer) in self.names.iter().zip([&seen.first, &seen.second]) {
            println!("  {name:width$}  {}", part(answer, place));
        }
    }

    fn save(&self, seed: u64, number: u64, texts: &[Text], last_newline: bool) {
        let Some(folder) = &self.save_in else {
            return;
        };
        let path = folder.join(format!("seed-{seed}-script-{number}.txt"));
        let mut input = texts.join(&b'\n');
        if last_newline {
            input.push(b'\n');
        }
        match std::fs::write(&path, input) {
            Ok(()) => println!("  saved as {}", path.display()),
            Err(problem) => println!("  not saved: {problem}"),
        }
    }
}

fn first_unequal(one: &[u8], other: &[u8]) -> usize {
    one.iter().zip(other).take_while(|(a, b)| a == b).count()
}

/// A long answer only around the place where it differs.
fn part(answer: &[u8], place: usize) -> String {
    if answer.len() <= SHOWN {
        return visible(answer);
    }
    let start = place.saturating_sub(SHOWN / 4).min(answer.len());
    let end = (start + SHOWN / 2).min(answer.len());
    let shown = visible(&answer[start..end]);
    format!("...{shown}... (from character {start} of {})", answer.len())
}

fn visible(text: &[u8]) -> String {
    let end = text.len().min(SHOWN);
    let mut shown = String::new();
    for character in String::from_utf8_lossy(&text[..end]).chars() {
        match character {
            '\t' | '\r' | '\0' => shown.extend(character.escape_default()),
            other => shown.push(other),
        }
    }
    if text.len() > SHOWN {
        shown += &format!("... ({} characters)", text.len());
    }
    shown
}

/// For a differing `peek` or `out`: the same look at the first differing byte only.
pub fn narrower_look(line: &[u8], seen: &Difference) -> Option<Text> {
    let text = std::str::from_utf8(line).ok()?;
    let words: Vec<&str> = text.split_whitespace().collect();
    let [command @ ("peek" | "out"), start, _] = words.as_slice() else {
        return None;
    };
    let start: usize = start.parse().ok()?;
    let place = first_unequal(&seen.first, &seen.second).checked_sub("bytes ".len())?;
    Some(format!("{command} {} 1", start + place / 2).into_bytes())
}
