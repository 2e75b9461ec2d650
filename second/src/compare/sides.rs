//! The two sides of a comparison, and where their answers first differ.

use super::program::{Played, Program};
use crate::faults::{self, Fault};
use crate::protocol::{is_blank, Console};

/// The text of one line, without its newline.
pub type Text = Vec<u8>;

#[derive(Clone)]
pub enum Side {
    /// The model of this package, in this process, right or with a fault.
    Model(Option<Fault>),
    Program(Program),
}

impl Side {
    fn hurried(&self) -> Side {
        match self {
            Side::Model(fault) => Side::Model(*fault),
            Side::Program(program) => Side::Program(program.hurried()),
        }
    }

    /// Play these lines from the start of a console.
    pub fn play(&self, texts: &[Text], last_newline: bool, most: usize) -> Played {
        match self {
            Side::Model(fault) => play_model(*fault, texts),
            Side::Program(program) => program.play(join(texts, last_newline), most),
        }
    }
}

/// The two programs, or program and model, that are compared.
#[derive(Clone)]
pub struct Pair {
    pub first: Side,
    pub second: Side,
}

impl Pair {
    /// Where these lines make the two differ, if they do.
    pub fn differ(&self, texts: &[Text], last_newline: bool, most: usize) -> Option<Difference> {
        let first = self.first.play(texts, last_newline, most);
        let second = self.second.play(texts, last_newline, most);
        first_difference(texts, &first, &second)
    }

    /// For many trials: a program that hangs shall not take its whole time in each.
    pub fn hurried(&self) -> Pair {
        Pair { first: self.first.hurried(), second: self.second.hurried() }
    }
}

fn play_model(fault: Option<Fault>, texts: &[Text]) -> Played {
    faults::choose(fault);
    let mut console = Console::new();
    let answers =
        texts.iter().filter_map(|text| console.answer(text)).map(String::into_bytes).collect();
    faults::choose(None);
    Played { answers, trouble: None }
}

fn join(texts: &[Text], last_newline: bool) -> Vec<u8> {
    let mut input = texts.join(&b'\n');
    if last_newline {
        input.push(b'\n');
    }
    input
}

/// The first line whose answers differ.
pub struct Difference {
    pub line: usize,
    pub first: Vec<u8>,
    pub second: Vec<u8>,
    /// One side has no answer there.
    pub silent: bool,
}

pub fn first_difference(texts: &[Text], first: &Played, second: &Played) -> Option<Difference> {
    let mut place = 0;
    for (line, text) in texts.iter().enumerate() {
        if is_blank(text) {
            continue;
        }
        let answers = (first.answers.get(place), second.answers.get(place));
        match answers {
            (Some(one), Some(other)) if one == other => place += 1,
            _ => return Some(difference(line, place, first, second)),
        }
    }
    let left_over = first.answers.len() > place || second.answers.len() > place;
    let trouble = first.trouble.is_some() || second.trouble.is_some();
    let last = texts.len().saturating_sub(1);
    (left_over || trouble).then(|| difference(last, place, first, second))
}

fn difference(line: usize, place: usize, first: &Played, second: &Played) -> Difference {
    let silent = place >= first.answers.len() || place >= second.answers.len();
    Difference { line, first: answer_at(first, place), second: answer_at(second, place), silent }
}

fn answer_at(played: &Played, place: usize) -> Vec<u8> {
    match (played.answers.get(place), &played.trouble) {
        (Some(answer), _) => answer.clone(),
        (None, Some(trouble)) => format!("(no answer: {trouble})").into_bytes(),
        (None, None) => b"(no answer)".to_vec(),
    }
}
