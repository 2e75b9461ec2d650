//! The line protocol: one console, which answers each command line with one line. The board's
//! commands are in [`crate::board_lines`].

use crate::board::Board;
use crate::faults::{self, Fault};
use crate::judge::Verdict;
use crate::record::{Record, READ, WRITE};
use crate::round::{RoundStop, RoundTally};
use crate::run::{Stop, Tally};
use crate::sheet::{convert, Form};
use crate::state::{Controller, Refusal, AM9517A, BODY_LENGTH, FULL_LENGTH, INTEL};
use std::collections::VecDeque;
use std::io::{self, BufRead, Write};

/// "a memory array of 65,537 bytes"
pub const ARRAY_LENGTH: usize = 65_537;
/// "of which the first `memory` bytes are lent to runs and rounds (65,536 at the start)"
pub const LENT_AT_START: usize = 65_536;
/// The most bytes in the queue, in the room, and in a sheet's slice.
pub const MOST_BYTES: usize = 70_000;
/// "a slice of N bytes 0xEE"
const SLICE_BYTE: u8 = 0xEE;

pub struct Console {
    pub controller: Controller,
    pub board: Board,
    pub memory: Vec<u8>,
    pub lent: usize,
    pub queue: VecDeque<u8>,
    pub room: Vec<u8>,
    /// The room's write position.
    pub position: usize,
}

/// A command that changes nothing.
pub(crate) enum Fail {
    Error,
    Refused(Refusal),
}

impl From<Refusal> for Fail {
    fn from(refusal: Refusal) -> Fail {
        Fail::Refused(refusal)
    }
}

pub(crate) type Answer = Result<String, Fail>;

impl Default for Console {
    fn default() -> Console {
        Console::new()
    }
}

impl Console {
    pub fn new() -> Console {
        Console {
            controller: Controller::fresh(),
            board: Board::fresh(),
            memory: vec![0; ARRAY_LENGTH],
            lent: LENT_AT_START,
            queue: VecDeque::new(),
            room: Vec::new(),
            position: 0,
        }
    }

    /// The answer to one line, with or without its newline; None for a blank line, which gets none.
    pub fn answer(&mut self, line: &[u8]) -> Option<String> {
        let words = words_of(line);
        if words.is_empty() {
            return None;
        }
        Some(match self.obey(&words) {
            Ok(answer) => answer,
            Err(Fail::Error) => "error".to_string(),
            Err(Fail::Refused(refusal)) => format!("refused {}", refusal.number()),
        })
    }

    fn obey(&mut self, words: &[&[u8]]) -> Answer {
        match words {
            [b"state"] => Ok(format!("state {}", to_hex(&self.controller.body()))),
            [b"state", hex] => self.take_state(&bytes(hex)?),
            [b"full"] => self.show_full(),
            [b"full", hex] => self.take_full(&bytes(hex)?),
            [b"fresh"] => self.fresh(AM9517A),
            [b"fresh", edition] => self.fresh(edition_of(edition)?),
            [b"write", register, value] => self.write(number32(register)?, byte(value)?),
            [b"read", register] => self.read(number32(register)?),
            [b"pins", levels] => self.pins(number32(levels)?),
            [b"reset"] => self.reset(),
            [b"waits", waits] => self.waits(number(waits)?),
            [b"grant"] => self.grant(),
            [b"memory", length] => self.lend(number(length)?),
            [b"poke", address, hex] => self.poke(number(address)?, &bytes(hex)?),
            [b"peek", address, length] => peek(&self.memory, number(address)?, number(length)?),
            [b"feed", hex] => self.feed(&bytes(hex)?),
            [b"fill", length, value] => self.fill(number(length)?, byte(value)?),
            [b"room", length, value] => self.new_room(number(length)?, byte(value)?),
            [b"out", address, length] => peek(&self.room, number(address)?, number(length)?),
            [b"run", limit, eop] => self.run(number32(limit)?, number32(eop)?),
            [b"round", k] => self.round(number32(k)?),
            [b"sheet", length] => self.sheet(Form::One, number(length)?),
            [b"sheet2", length] => self.sheet(Form::Two, number(length)?),
            [b"load", hex] => self.load(Form::One, &bytes(hex)?),
            [b"load2", hex] => self.load(Form::Two, &bytes(hex)?),
            [b"forward", hex, length] => self.forward(&bytes(hex)?, number(length)?),
            [b"back", hex, length] => self.back(&bytes(hex)?, number(length)?),
            [b"judge", hex] => self.judge(&bytes(hex)?),
            [b"judge"] if faults::on(Fault::JudgeBareLine) => self.judge(&[]),
            _ => self.obey_board(words),
        }
    }

    fn take(&mut self, next: Controller) -> Answer {
        self.controller = next;
        ok()
    }

    /// "`state HEX` sets the 48 and leaves edition and waits".
    fn take_state(&mut self, given: &[u8]) -> Answer {
        let body: &[u8; BODY_LENGTH] = given.try_into().map_err(|_| Fail::Error)?;
        let mut next = Controller::from_body(body);
        if !faults::on(Fault::StateDropsEdition) {
            next.edition = self.controller.edition;
        }
        if !faults::on(Fault::StateDropsWaits) {
            next.waits = self.controller.waits;
        }
        self.take(next)
    }

    fn show_full(&self) -> Answer {
        let mut full = self.controller.full();
        if faults::on(Fault::FullHidesWaits) {
            full[1] = 0;
        }
        Ok(format!("full {}", to_hex(&full)))
    }

    /// "the state is now these 50 bytes, taken with no range check".
    fn take_full(&mut self, given: &[u8]) -> Answer {
        let full: &[u8; FULL_LENGTH] = given.try_into().map_err(|_| Fail::Error)?;
        let mut next = Controller::from_full(full);
        match faults::chosen() {
            Some(Fault::FullRefusesWaits) if next.waits != 0 => return Err(Fail::Error),
            Some(Fault::FullDropsWaits) => next.waits = 0,
            Some(Fault::FullKeepsWaits) => next.waits = self.controller.waits,
            _ => {}
        }
        self.take(next)
    }

    /// "a fresh state of edition E, 0 (also when E is missing) Am9517A or 1 Intel".
    fn fresh(&mut self, edition: u8) -> Answer {
        let edition = match faults::chosen() {
            Some(Fault::FreshDropsEdition) => AM9517A,
            Some(Fault::FreshKeepsEdition) if edition == AM9517A => self.controller.edition,
            _ => edition,
        };
        let mut next = Controller::fresh_of(edition);
        if faults::on(Fault::FreshKeepsWaits) {
            next.waits = self.controller.waits;
        }
        if faults::on(Fault::FreshMakesBoard) {
            self.board = Board::fresh();
        }
        self.take(next)
    }

    fn write(&mut self, register: u32, value: u8) -> Answer {
        let next = self.controller.write(register, value)?;
        self.take(next)
    }

    fn read(&mut self, register: u32) -> Answer {
        let (next, value) = self.controller.read(register)?;
        self.controller = next;
        Ok(format!("byte 0x{value:02x}"))
    }

    fn pins(&mut self, levels: u32) -> Answer {
        let next = self.controller.set_pins(levels)?;
        self.take(next)
    }

    fn reset(&mut self) -> Answer {
        let next = self.controller.reset()?;
        self.take(next)
    }

    fn waits(&mut self, given: u64) -> Answer {
        let waits = u8::try_from(given).or_else(|_| self.too_many_waits(given))?;
        let next = self.controller.set_waits(waits)?;
        self.take(next)
    }

    /// "N over 255 is `error`", before any refusal.
    fn too_many_waits(&self, given: u64) -> Result<u8, Fail> {
        match faults::chosen() {
            Some(Fault::WaitsLineCut) => Ok(given as u8),
            Some(Fault::WaitsLineRefused) => Err(Fail::Refused(Refusal::TooLarge)),
            Some(Fault::WaitsLineLate) => {
                self.controller.set_waits(0)?;
                Err(Fail::Error)
            }
            _ => Err(Fail::Error),
        }
    }

    fn grant(&mut self) -> Answer {
        let (next, channel) = self.controller.grant()?;
        self.controller = next;
        Ok(format!("channel {channel}"))
    }

    fn lend(&mut self, length: u64) -> Answer {
        self.lent = at_most(length, ARRAY_LENGTH)?;
        ok()
    }

    fn poke(&mut self, address: u64, given: &[u8]) -> Answer {
        let place = place_in(&self.memory, address, given.len() as u64)?;
        self.memory[place].copy_from_slice(given);
        ok()
    }

    fn feed(&mut self, given: &[u8]) -> Answer {
        if self.queue.len() + given.len() > MOST_BYTES {
            return Err(Fail::Error);
        }
        self.queue.extend(given);
        ok()
    }

    fn fill(&mut self, length: u64, value: u8) -> Answer {
        let length = at_most(length, MOST_BYTES)?;
        self.feed(&vec![value; length])
    }

    fn new_room(&mut self, length: u64, value: u8) -> Answer {
        let length = at_most(length, MOST_BYTES)?;
        self.room = vec![value; length];
        self.position = 0;
        ok()
    }

    /// What runs and rounds are lent: memory, the queue's bytes, and the room that is left.
    pub(crate) fn lent_to_runs(&mut self) -> (&mut [u8], &[u8], &mut [u8]) {
        let memory = &mut self.memory[..self.lent];
        let input = self.queue.make_contiguous();
        let room = &mut self.room[self.position..];
        (memory, input, room)
    }

    fn run(&mut self, limit: u32, eop: u32) -> Answer {
        let controller = self.controller;
        let (memory, input, room) = self.lent_to_runs();
        let (next, stop, tally) = controller.run(memory, input, room, limit, eop)?;
        self.controller = next;
        self.account(&tally);
        Ok(run_answer(stop, &tally))
    }

    fn round(&mut self, k: u32) -> Answer {
        let controller = self.controller;
        let (memory, input, room) = self.lent_to_runs();
        let (next, stop, tally) = controller.round(memory, input, room, k)?;
        self.controller = next;
        self.account(&tally.total);
        Ok(round_answer(stop, &tally))
    }

    /// "Bytes used leave the queue; bytes written go to the room from its write position on, which
    /// moves behind them".
    pub(crate) fn account(&mut self, tally: &Tally) {
        self.queue.drain(..tally.used);
        self.position += tally.written;
    }

    fn sheet(&mut self, form: Form, length: u64) -> Answer {
        let mut slice = new_slice(length)?;
        self.controller.write_sheet(form, &mut slice)?;
        Ok(format!("bytes {}", to_hex(&slice)))
    }

    fn load(&mut self, form: Form, given: &[u8]) -> Answer {
        let now = self.controller;
        match faults::chosen() {
            Some(Fault::IntelLoadRefused) if now.is_intel() => return Err(Refusal::NoPlace.into()),
            Some(Fault::WaitsLoadRefused) if now.waits != 0 => return Err(Refusal::NoPlace.into()),
            _ => {}
        }
        let mut next = Controller::read_sheet(form, given)?;
        match (faults::chosen(), form) {
            (Some(Fault::LoadKeepsEdition), Form::One) => next.edition = now.edition,
            (Some(Fault::LoadKeepsWaits), Form::One) => next.waits = now.waits,
            (Some(Fault::LoadTwoDropsEdition), Form::Two) => next.edition = AM9517A,
            (Some(Fault::LoadTwoDropsWaits), Form::Two) => next.waits = 0,
            _ => {}
        }
        self.take(next)
    }

    fn forward(&mut self, source: &[u8], length: u64) -> Answer {
        self.convert(Form::One, source, Form::Two, length)
    }

    fn back(&mut self, source: &[u8], length: u64) -> Answer {
        self.convert(Form::Two, source, Form::One, length)
    }

    /// "the sheet at the end of HEX is converted into a slice of N bytes 0xEE"; the state is neither
    /// asked nor changed.
    fn convert(&mut self, from: Form, source: &[u8], to: Form, length: u64) -> Answer {
        let mut slice = new_slice(length)?;
        if faults::on(Fault::ConvertsOneState) {
            self.controller.refuse_broken()?;
        }
        convert(from, source, to, &mut slice)?;
        if faults::on(Fault::ConvertsAndLoads) {
            self.controller = Controller::read_sheet(from, source)?;
        }
        Ok(format!("bytes {}", to_hex(&slice)))
    }

    /// "State and lent memory are as the good records made them"; queue and room are neither asked
    /// nor changed.
    fn judge(&mut self, log: &[u8]) -> Answer {
        let memory = &mut self.memory[..self.lent];
        let (next, verdict) = self.controller.judge(memory, log)?;
        self.controller = next;
        self.harm_device(good_part(log, verdict));
        Ok(judge_answer(verdict))
    }

    /// Nothing, but for two of the faults: the log has the device's bytes.
    fn harm_device(&mut self, good: &[u8]) {
        for record in good.as_chunks().0.iter().map(|&bytes| Record::from_bytes(bytes)) {
            match (faults::chosen(), record.kind) {
                (Some(Fault::JudgeUsesQueue), WRITE) => {
                    self.queue.pop_front();
                }
                (Some(Fault::JudgeFillsRoom), READ) if self.position < self.room.len() => {
                    self.room[self.position] = record.data;
                    self.position += 1;
                }
                _ => {}
            }
        }
    }
}

/// The records before the first wrong one.
fn good_part(log: &[u8], verdict: Verdict) -> &[u8] {
    match verdict {
        Verdict::Accepted { .. } => log,
        Verdict::Wrong { at, .. } => &log[..at],
    }
}

/// "a slice of N bytes 0xEE (N at most 70,000)"
pub(crate) fn new_slice(length: u64) -> Result<Vec<u8>, Fail> {
    Ok(vec![SLICE_BYTE; at_most(length, MOST_BYTES)?])
}

pub(crate) fn ok() -> Answer {
    Ok("ok".to_string())
}

pub(crate) fn run_answer(stop: Stop, tally: &Tally) -> String {
    format!("{} {}", stop.word(), tally_answer(tally))
}

fn round_answer(stop: RoundStop, tally: &RoundTally) -> String {
    let [a, b, c, d] = tally.services;
    format!("{} services={a},{b},{c},{d} {}", stop.word(), tally_answer(&tally.total))
}

/// "E in decimal, `-` before a negative one".
fn judge_answer(verdict: Verdict) -> String {
    match verdict {
        Verdict::Accepted { records } => format!("accepted records={records}"),
        Verdict::Wrong { at, error } => format!("wrong at={at} error={error}"),
    }
}

pub(crate) fn tally_answer(tally: &Tally) -> String {
    let Tally { transfers, used, written, states } = tally;
    format!("transfers={transfers} used={used} written={written} states={states}")
}

/// The bytes of an array; "out of it: `error`".
fn peek(array: &[u8], address: u64, length: u64) -> Answer {
    let place = place_in(array, address, length)?;
    Ok(format!("bytes {}", to_hex(&array[place])))
}

/// "A place is out of an array where ADDR + N is more than its length; N may be 0."
fn place_in(array: &[u8], address: u64, length: u64) -> Result<std::ops::Range<usize>, Fail> {
    let end = address.checked_add(length).ok_or(Fail::Error)?;
    if end > array.len() as u64 {
        return Err(Fail::Error);
    }
    Ok(address as usize..end as usize)
}

/// "Words are separated by blanks or tabs; a carriage return at the end of a line is ignored"; "`#`
/// starts a comment that runs to the end of the line".
fn words_of(line: &[u8]) -> Vec<&[u8]> {
    let line = line.strip_suffix(b"\n").unwrap_or(line);
    let line = line.strip_suffix(b"\r").unwrap_or(line);
    let end = line.iter().position(|&c| c == b'#').unwrap_or(line.len());
    line[..end].split(|&c| c == b' ' || c == b'\t').filter(|word| !word.is_empty()).collect()
}

/// "blank lines are passed over and get no answer".
pub fn is_blank(line: &[u8]) -> bool {
    words_of(line).is_empty()
}

/// "Numbers are decimal or `0x` hexadecimal." One beyond 64 bits fits no place of the protocol.
pub(crate) fn number(word: &[u8]) -> Result<u64, Fail> {
    let (base, digits) = match word.strip_prefix(b"0x") {
        Some(digits) => (16, digits),
        None => (10, word),
    };
    if digits.is_empty() {
        return Err(Fail::Error);
    }
    let mut value: u64 = 0;
    for &digit in digits {
        let digit = char::from(digit).to_digit(base).ok_or(Fail::Error)?;
        let shifted = value.checked_mul(u64::from(base)).ok_or(Fail::Error)?;
        value = shifted.checked_add(u64::from(digit)).ok_or(Fail::Error)?;
    }
    Ok(value)
}

/// "REG, P, LIMIT, EOP and K take any number below 2^32; a larger one is `error`."
pub(crate) fn number32(word: &[u8]) -> Result<u32, Fail> {
    u32::try_from(number(word)?).map_err(|_| Fail::Error)
}

/// "a byte over 255" is `error`.
pub(crate) fn byte(word: &[u8]) -> Result<u8, Fail> {
    u8::try_from(number(word)?).map_err(|_| Fail::Error)
}

/// "E over 1 is `error`".
pub(crate) fn edition_of(word: &[u8]) -> Result<u8, Fail> {
    let value = at_most(number(word)?, usize::from(INTEL))?;
    Ok(value as u8)
}

pub(crate) fn at_most(value: u64, most: usize) -> Result<usize, Fail> {
    match usize::try_from(value) {
        Ok(value) if value <= most => Ok(value),
        _ => Err(Fail::Error),
    }
}

/// "`HEX` is an even number of hexadecimal digits with no blanks; `-` stands for no bytes".
pub(crate) fn bytes(word: &[u8]) -> Result<Vec<u8>, Fail> {
    if word == b"-" {
        return Ok(Vec::new());
    }
    if word.len() & 1 == 1 {
        return Err(Fail::Error);
    }
    word.chunks_exact(2).map(|pair| Ok(digit(pair[0])? << 4 | digit(pair[1])?)).collect()
}

fn digit(character: u8) -> Result<u8, Fail> {
    let value = char::from(character).to_digit(16).ok_or(Fail::Error)?;
    Ok(value as u8)
}

/// "Answers write hexadecimal digits in lower case."; `-` for no bytes "in answers too".
pub fn to_hex(given: &[u8]) -> String {
    if given.is_empty() {
        return "-".to_string();
    }
    let digits = b"0123456789abcdef";
    let mut text = String::with_capacity(2 * given.len());
    for &byte in given {
        text.push(char::from(digits[usize::from(byte >> 4)]));
        text.push(char::from(digits[usize::from(byte & 15)]));
    }
    text
}

/// Answer every line of `input`. With `prompt`, each answer is shown at once.
pub fn converse(input: &mut dyn BufRead, output: &mut dyn Write, prompt: bool) -> io::Result<()> {
    let mut console = Console::new();
    let mut line = Vec::new();
    while input.read_until(b'\n', &mut line)? > 0 {
        if let Some(answer) = console.answer(&line) {
            output.write_all(answer.as_bytes())?;
            output.write_all(b"\n")?;
            if prompt {
                output.flush()?;
            }
        }
        line.clear();
    }
    output.flush()
}
