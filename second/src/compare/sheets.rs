//! Sheets of both forms: written, read and converted; good ones, and ones with each fault.

use super::editions::BROKEN_EDITIONS;
use super::random::Random;
use super::values;
use super::writer::{Hex, Name, Number, Raw, Word, Writer};
use crate::protocol::to_hex;
use crate::sheet::{Form, TRAILER_LENGTH};
use crate::state::{Controller, AM9517A, INTEL};

/// Longer answers are not said again.
const LONGEST_SAID_AGAIN: usize = 1_000;
/// Of a hundred sheets to read, so many are whole; of those to convert, more.
const WHOLE_TO_READ: u64 = 25;
const WHOLE_TO_CONVERT: u64 = 50;

pub fn other_form(form: Form) -> Form {
    match form {
        Form::One => Form::Two,
        Form::Two => Form::One,
    }
}

/// The command that writes this form.
fn writes(form: Form) -> Word {
    Name(match form {
        Form::One => "sheet",
        Form::Two => "sheet2",
    })
}

/// The command that reads this form.
pub fn reads(form: Form) -> &'static str {
    match form {
        Form::One => "load",
        Form::Two => "load2",
    }
}

/// The command that converts from this form to the other.
pub fn converts(form: Form) -> &'static str {
    match form {
        Form::One => "forward",
        Form::Two => "back",
    }
}

/// The form that a command reads a sheet of.
pub fn form_read_by(command: &str) -> Option<Form> {
    [Form::One, Form::Two]
        .into_iter()
        .find(|&form| [reads(form), converts(form)].contains(&command))
}

impl Writer {
    pub fn some_form(&mut self) -> Form {
        self.random.pick(&[Form::One, Form::Two])
    }

    /// Sheets written, read and converted, and what becomes of edition and waits.
    pub fn scene_of_sheets(&mut self) {
        for _ in 0..self.random.between(1, 2) {
            match self.random.below(10) {
                0..=2 => self.store_and_read(),
                3..=4 => self.load_and_show(),
                5..=7 => self.convert(),
                _ => self.there_and_back(),
            }
        }
    }

    /// `sheet` or `sheet2`.
    pub fn sheet(&mut self) {
        let form = self.some_form();
        self.sheet_of(form);
    }

    pub fn sheet_of(&mut self, form: Form) {
        let length = self.length_for(form);
        self.say(&[writes(form), Number(length)]);
    }

    /// `load` or `load2`.
    pub fn load(&mut self) {
        let form = self.some_form();
        let state = if self.random.chance(40) { self.controller() } else { self.some_state() };
        let sheet = self.some_sheet(form, state, WHOLE_TO_READ);
        self.say(&[Name(reads(form)), sheet]);
    }

    /// `forward` or `back`.
    pub fn convert(&mut self) {
        let form = self.some_form();
        let state = self.state_to_convert();
        let sheet = self.some_sheet(form, state, WHOLE_TO_CONVERT);
        let length = self.length_for(other_form(form));
        self.say(&[Name(converts(form)), sheet, Number(length)]);
    }

    pub fn load_and_show(&mut self) {
        self.load();
        self.show_full();
    }

    /// A sheet written; then another is read, or this one is read or converted as either form.
    pub fn store_and_read(&mut self) {
        self.sheet();
        if self.random.chance(30) {
            return self.load_and_show();
        }
        let form = self.some_form();
        match self.bytes_answered() {
            Some(sheet) if self.random.chance(50) => self.say(&[Name(reads(form)), sheet]),
            Some(sheet) => {
                let length = self.length_for(other_form(form));
                self.say(&[Name(converts(form)), sheet, Number(length)])
            }
            None => {}
        }
    }

    /// "Forward and back gives the same bytes": each answer is what the next command gets.
    fn there_and_back(&mut self) {
        let first = self.some_form();
        let state = self.state_to_convert();
        let mut sheet = Hex(first.sheet(&state.full()));
        for form in [first, other_form(first)] {
            let length = self.length_for(other_form(form));
            self.say(&[Name(converts(form)), sheet, Number(length)]);
            match self.bytes_answered() {
                Some(answered) => sheet = answered,
                None => return,
            }
        }
        if self.random.chance(30) {
            self.say(&[Name(reads(first)), sheet]);
        }
    }

    /// The bytes of the last answer, if it has some.
    pub fn bytes_answered(&self) -> Option<Word> {
        let answer = self.lines.last()?.answer.as_deref()?;
        let bytes = answer.strip_prefix("bytes ")?;
        (bytes.len() <= LONGEST_SAID_AGAIN).then(|| Raw(bytes.to_string()))
    }

    /// Lengths of a slice for this form: most often enough, by nothing or a little.
    fn length_for(&mut self, form: Form) -> u64 {
        let enough = form.length() as u64;
        match self.random.below(40) {
            0 => self.random.pick(&[65_536, 69_999, 70_000]),
            // Cut to fewer bits, some of these would do.
            1 => self.random.pick(&[70_001, 70_058, 0x1_003A, 0x1_0000_003A, u64::MAX]),
            2..=4 => self.random.pick(&[0, 0, 1, 8, 48, 50]),
            5..=14 => self.random.between(54, 60),
            15..=26 => enough,
            _ => enough + self.random.pick(&[1, 2, 2, 3, 8, 56, 58, 142]),
        }
    }

    /// The present state or another; "allowed exactly when both are 0", so most have neither edition
    /// nor waits.
    fn state_to_convert(&mut self) -> Controller {
        let state = match self.random.below(10) {
            0 => return self.controller(),
            1..=3 => self.controller(),
            _ => self.some_state(),
        };
        let waits = values::waits(&mut self.random);
        let (edition, waits) = self.random.pick(&[
            (AM9517A, 0),
            (AM9517A, 0),
            (AM9517A, 0),
            (AM9517A, 0),
            (AM9517A, 0),
            (AM9517A, waits),
            (INTEL, 0),
            (INTEL, waits),
        ]);
        Controller { edition, waits, ..state }
    }

    /// A sheet for a reader of this form: so many of a hundred whole, if the state is; the others
    /// with a fault or several, or of the other form.
    fn some_sheet(&mut self, reader: Form, state: Controller, whole: u64) -> Word {
        let random = &mut self.random;
        if random.chance(whole) {
            let sheet = reader.sheet(&state.full());
            return Hex(if random.chance(30) { longer(random, sheet) } else { sheet });
        }
        let form = if random.chance(15) { other_form(reader) } else { reader };
        let state = broken_or_not(random, form, state);
        let mut sheet = form.sheet(&state.full());
        for _ in 0..random.weighted(&[55, 30, 9, 6]) {
            spoil(random, form, &mut sheet);
        }
        let sheet = resize(random, sheet);
        if random.chance(3) {
            return Raw(without_last_digit(&sheet));
        }
        Hex(sheet)
    }
}

/// A range broken now and then; in form 2, the edition's more often.
fn broken_or_not(random: &mut Random, form: Form, mut state: Controller) -> Controller {
    match random.below(100) {
        0..=29 => values::break_range(random, &mut state),
        30..=44 if form == Form::Two => state.edition = random.pick(&BROKEN_EDITIONS),
        _ => {}
    }
    state
}

/// One fault in a part of the trailer, or in the body, whose sum isn't changed with it.
fn spoil(random: &mut Random, form: Form, sheet: &mut [u8]) {
    let near = random.pick(&[1, 0xFFFF, 0x100, 0xFF00, 2]);
    let (body, trailer) = sheet.split_at_mut(form.body_length());
    let sum = u16::from_le_bytes([trailer[4], trailer[5]]);
    match random.below(10) {
        0 => trailer[6] = random.pick(&[0x4D, 0x45, 0x43, 0]),
        1 => trailer[7] = random.pick(&[0x44, 0x4C, 0x4E, 0]),
        // The other form's number comes more often than others, and so does its distance.
        2 => trailer[0] ^= random.pick(&[3, 3, 1, 2, 0x80]),
        3 => trailer[1] = random.pick(&[1, 0x80]),
        4 => trailer[2] = trailer[2].wrapping_add(random.pick(&[2, 0xFE, 1, 0xFF, 8])),
        5 => trailer[3] = random.pick(&[1, 0x30, 0x32]),
        6 => trailer[4..6].copy_from_slice(&sum.wrapping_add(near).to_le_bytes()),
        7 => trailer.swap(4, 5),
        8 => body[random.below(2) as usize] ^= 1 << random.below(8),
        _ => body[random.below(body.len() as u64) as usize] ^= 1 << random.below(8),
    }
}

/// Bytes in front of the sheet, or too few of them.
fn resize(random: &mut Random, mut sheet: Vec<u8>) -> Vec<u8> {
    let length = sheet.len();
    match random.below(20) {
        0 => sheet.split_off(random.pick(&[1, 1, 2, 3])),
        1 => sheet.split_off(random.below(length as u64) as usize),
        2 => sheet[..length - 1].to_vec(),
        3 => sheet.split_off(random.pick(&[length, length - TRAILER_LENGTH])),
        4..=6 => longer(random, sheet),
        _ => sheet,
    }
}

/// Any bytes in front, now and then a sheet's own.
fn longer(random: &mut Random, sheet: Vec<u8>) -> Vec<u8> {
    let length = random.pick(&[1, 1, 2, 2, 3, 8, 56, 58, 200]);
    let front = if length == sheet.len() { sheet.clone() } else { random.bytes(length) };
    [front, sheet].concat()
}

/// An odd number of digits is no HEX.
fn without_last_digit(bytes: &[u8]) -> String {
    let mut digits = to_hex(bytes);
    digits.pop();
    digits
}
