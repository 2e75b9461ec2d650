//! Writes one script line by line, and plays each line on a live model as it is written, so that the
//! next line can be chosen where it matters.

use super::random::Random;
use crate::protocol::{to_hex, Console};
use crate::state::Controller;

/// One line without its newline, and the model's answer (None: a blank line).
#[derive(Clone)]
pub struct Line {
    pub text: Vec<u8>,
    pub answer: Option<String>,
}

pub struct Script {
    pub number: u64,
    pub lines: Vec<Line>,
    /// The bytes of the memory array as the script leaves it.
    pub memory_left: Vec<u8>,
}

/// A word of a command, not yet spelled.
#[derive(Clone)]
pub enum Word {
    Name(&'static str),
    Number(u64),
    Hex(Vec<u8>),
    Raw(String),
}

pub use Word::{Hex, Name, Number, Raw};

pub struct Writer {
    pub random: Random,
    pub console: Console,
    pub lines: Vec<Line>,
    /// The chip of the board that the script is about now; None is the controller.
    pub chip: Option<usize>,
    /// Transfers this script may still make.
    pub budget: u64,
    /// Of a hundred states made anew, so many are of the Intel edition.
    pub intel: u64,
    /// Of a hundred states made anew, so many have waits.
    pub slow: u64,
    /// Send lines the protocol leaves open, too.
    pub odd: bool,
}

impl Writer {
    pub fn new(random: Random, odd: bool) -> Writer {
        let console = Console::new();
        let lines = Vec::new();
        Writer { random, console, lines, chip: None, budget: 0, intel: 0, slow: 0, odd }
    }

    pub fn finish(self, number: u64) -> Script {
        Script { number, lines: self.lines, memory_left: self.console.memory }
    }

    /// The controller, or the chip of the board that the script is about now.
    pub fn controller(&self) -> Controller {
        match self.chip {
            None => self.console.controller,
            Some(chip) => self.console.board.chips[chip],
        }
    }

    /// Say a command in some spelling.
    pub fn say(&mut self, words: &[Word]) {
        let words = self.addressed(words);
        let text = self.spell(&words);
        let text = self.dress(text);
        self.say_exactly(text);
    }

    /// Say a command in its plainest spelling.
    pub fn say_plainly(&mut self, text: &str) {
        self.say_exactly(text.as_bytes().to_vec());
    }

    pub fn say_exactly(&mut self, text: Vec<u8>) {
        let answer = self.console.answer(&text);
        if let Some(answer) = &answer {
            self.budget = self.budget.saturating_sub(transfers_in(answer));
            self.chip = self.chip.map(|chip| chip_granted(answer).unwrap_or(chip));
        }
        self.lines.push(Line { text, answer });
    }

    pub fn spell(&mut self, words: &[Word]) -> Vec<u8> {
        let mut text = Vec::new();
        for (index, word) in words.iter().enumerate() {
            if index > 0 {
                text.extend(self.gap());
            }
            let spelled = match word {
                Name(name) => name.to_string(),
                Raw(raw) => raw.clone(),
                Number(number) => self.spell_number(*number),
                Hex(bytes) => self.spell_hex(bytes),
            };
            text.extend(spelled.as_bytes());
        }
        text
    }

    fn gap(&mut self) -> Vec<u8> {
        if self.random.chance(94) {
            return b" ".to_vec();
        }
        let length = self.random.between(1, 4);
        (0..length).map(|_| self.random.pick(b" \t")).collect()
    }

    fn spell_number(&mut self, number: u64) -> String {
        match self.random.below(20) {
            0..=8 => format!("{number}"),
            9..=13 => format!("0x{number:x}"),
            14..=16 => format!("0x{number:X}"),
            17 => format!("0x{number:08x}"),
            18 => format!("0x{number:020X}"),
            _ => format!("{number:07}"),
        }
    }

    fn spell_hex(&mut self, bytes: &[u8]) -> String {
        let text = to_hex(bytes);
        match self.random.below(4) {
            0 => text.to_uppercase(),
            1 if text.len() < 1_000 => text.chars().map(|c| self.some_case(c)).collect(),
            _ => text,
        }
    }

    fn some_case(&mut self, character: char) -> char {
        if self.random.chance(50) {
            return character.to_ascii_uppercase();
        }
        character
    }

    /// Blanks, a comment or a carriage return around the words, now and then.
    fn dress(&mut self, mut text: Vec<u8>) -> Vec<u8> {
        if self.random.chance(3) {
            let mut front = self.gap();
            front.append(&mut text);
            text = front;
        }
        match self.random.below(100) {
            0..=2 => text.extend(self.gap()),
            3 => text.extend(b" # a comment, 'quoted' # twice"),
            4 => text.extend(b"#close"),
            5 => text.extend(b"\t#"),
            _ => {}
        }
        if self.random.chance(3) {
            text.push(b'\r');
        }
        text
    }
}

/// The chip of the channel that an answer tells.
fn chip_granted(answer: &str) -> Option<usize> {
    let channel: usize = answer.strip_prefix("channel ")?.parse().ok()?;
    Some(channel / 4)
}

/// The transfers that an answer tells, or the records of a log that was accepted, or 0.
fn transfers_in(answer: &str) -> u64 {
    let marked = ["transfers=", "records="].iter().find_map(|mark| answer.split_once(mark));
    let Some((_, rest)) = marked else {
        return 0;
    };
    let digits = rest.split(' ').next().unwrap_or("0");
    digits.parse().unwrap_or(0)
}
