//! The protocol's commands for the board, which share memory, queue and room with the controller's
//! (document 02, A9).

use crate::arbiter::BoardTally;
use crate::board::{Board, BOARD_LENGTH};
use crate::faults::{self, Fault};
use crate::protocol::{
    at_most, byte, bytes, edition_of, new_slice, number, number32, ok, run_answer, tally_answer,
    to_hex, Answer, Console, Fail,
};
use crate::round::RoundStop;
use crate::sheet::Form;
use crate::state::AM9517A;

impl Console {
    /// A command that is none of the controller's.
    pub(crate) fn obey_board(&mut self, words: &[&[u8]]) -> Answer {
        match words {
            [b"b.state"] => self.show_board(),
            [b"b.state", hex] => self.take_board_bytes(&bytes(hex)?),
            [b"b.fresh"] => self.fresh_board([AM9517A; 2]),
            [b"b.fresh", first, second] => {
                self.fresh_board([edition_of(first)?, edition_of(second)?])
            }
            [b"b.fresh", both] if faults::on(Fault::BoardFreshOneWord) => {
                self.fresh_board([edition_of(both)?; 2])
            }
            [b"b.write", register, value] => self.write_board(number32(register)?, byte(value)?),
            [b"b.read", register] => self.read_board(number32(register)?),
            [b"b.pins", levels] => self.take_board(self.board.set_pins(number32(levels)?)?),
            [b"b.reset"] => self.take_board(self.board.reset()?),
            [b"b.waits", chip, waits] => self.board_waits(chip_number(chip)?, waits),
            [b"b.grant"] => self.grant_board(),
            [b"b.run", limit, eop] => self.run_board(number32(limit)?, number32(eop)?),
            [b"b.round", k] => self.round_board(number32(k)?),
            [b"b.sheet", chip, form, length] => {
                self.board_sheet(chip_number(chip)?, form_of(form)?, number(length)?)
            }
            [b"b.load", chip, form, hex] => {
                self.load_board(chip_number(chip)?, form_of(form)?, &bytes(hex)?)
            }
            _ => Err(Fail::Error),
        }
    }

    fn take_board(&mut self, next: Board) -> Answer {
        self.board = next;
        if faults::on(Fault::BoardSharesFirst) {
            self.controller = next.chips[0];
        }
        ok()
    }

    fn show_board(&self) -> Answer {
        let mut board = self.board;
        if faults::on(Fault::BoardStateSwapped) {
            board.chips.swap(0, 1);
        }
        Ok(format!("b.state {}", to_hex(&board.bytes())))
    }

    /// "the board is now these 101 bytes, taken with no range check".
    fn take_board_bytes(&mut self, given: &[u8]) -> Answer {
        let mut given = given.to_vec();
        if faults::on(Fault::BoardStateOf100) && given.len() == BOARD_LENGTH - 1 {
            given.insert(0, self.board.last);
        }
        let given: &[u8; BOARD_LENGTH] = given[..].try_into().map_err(|_| Fail::Error)?;
        let mut next = Board::from_bytes(given);
        match faults::chosen() {
            Some(Fault::BoardStateSwapped) => next.chips.swap(0, 1),
            Some(Fault::BoardStateKeepsLast) => next.last = self.board.last,
            Some(Fault::BoardStateCutsLast) => next.last &= 1,
            _ => {}
        }
        self.take_board(next)
    }

    /// "a fresh board, of these editions (0 0 when missing)".
    fn fresh_board(&mut self, editions: [u8; 2]) -> Answer {
        let mut next = Board::fresh_of(editions);
        match faults::chosen() {
            Some(Fault::BoardFreshKeepsLast) => next.last = self.board.last,
            Some(Fault::BoardFreshTurns) => next.last = 0,
            Some(Fault::BoardFreshOneEdition) => next.chips[1].edition = editions[0],
            Some(Fault::BoardFreshKeepsWaits) => {
                next.chips[1].waits = self.board.chips[1].waits;
            }
            _ => {}
        }
        self.take_board(next)
    }

    fn write_board(&mut self, register: u32, value: u8) -> Answer {
        let next = self.board.write(register, value)?;
        self.take_board(next)
    }

    fn read_board(&mut self, register: u32) -> Answer {
        let (next, value) = self.board.read(register)?;
        self.take_board(next)?;
        Ok(format!("byte 0x{value:02x}"))
    }

    /// "CHIP over 1 or N over 255 is `error`", before any refusal.
    fn board_waits(&mut self, chip: usize, word: &[u8]) -> Answer {
        let waits = match faults::chosen() {
            Some(Fault::BoardWaitsLineCut) => number(word)? as u8,
            _ => byte(word)?,
        };
        let next = self.board.set_waits(chip, waits)?;
        self.take_board(next)
    }

    fn grant_board(&mut self) -> Answer {
        let (next, mut channel) = self.board.grant()?;
        self.take_board(next)?;
        if faults::on(Fault::BoardChannelOfChip) {
            channel %= 4;
        }
        Ok(format!("channel {channel}"))
    }

    fn run_board(&mut self, limit: u32, eop: u32) -> Answer {
        let board = self.board;
        let (memory, input, room) = self.lent_to_runs();
        let (next, stop, tally) = board.run(memory, input, room, limit, eop)?;
        self.take_board(next)?;
        self.account(&tally);
        Ok(run_answer(stop, &tally))
    }

    fn round_board(&mut self, k: u32) -> Answer {
        let board = self.board;
        let (memory, input, room) = self.lent_to_runs();
        let (next, stop, tally) = board.round(memory, input, room, k)?;
        self.take_board(next)?;
        self.account(&tally.total);
        Ok(round_answer(stop, &tally))
    }

    fn board_sheet(&mut self, chip: usize, form: Form, length: u64) -> Answer {
        let mut slice = new_slice(length)?;
        self.board.write_sheet(chip, form, &mut slice)?;
        Ok(format!("bytes {}", to_hex(&slice)))
    }

    fn load_board(&mut self, chip: usize, form: Form, given: &[u8]) -> Answer {
        let next = self.board.read_sheet(chip, form, given)?;
        self.take_board(next)
    }
}

/// "as `round`, with eight services".
fn round_answer(stop: RoundStop, tally: &BoardTally) -> String {
    let services = tally.services.map(|number| number.to_string()).join(",");
    format!("{} services={services} {}", stop.word(), tally_answer(&tally.total))
}

/// The first controller is 0, the second 1.
fn chip_number(word: &[u8]) -> Result<usize, Fail> {
    let value = number(word)?;
    if faults::on(Fault::BoardChipCut) {
        return Ok((value & 1) as usize);
    }
    at_most(value, 1)
}

/// "one sheet of form 1 or 2": there is no other.
fn form_of(word: &[u8]) -> Result<Form, Fail> {
    match number(word)? {
        1 => Ok(Form::One),
        2 => Ok(Form::Two),
        _ if faults::on(Fault::BoardFormAny) => Ok(Form::Two),
        _ => Err(Fail::Error),
    }
}
