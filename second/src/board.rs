//! The whole 7009 board (document 02, A9): two controllers, eight lines and the arbiter's memory of
//! the last grant; its ranges, registers, pins, reset, waits and sheets. It is "built above the
//! controller" and calls what that offers. Who gets the bus is told in [`crate::arbiter`].

use crate::faults::{self, Fault};
use crate::sheet::Form;
use crate::state::{Controller, Refusal, AM9517A, FULL_LENGTH};

/// "the controller granted last (1 after reset), then edition, waits and the 48 body bytes of each".
pub const BOARD_LENGTH: usize = 1 + 2 * FULL_LENGTH;
/// "the first controller being first after reset": the second counts as granted last.
pub const LAST_AT_START: u8 = 1;

/// The master clear's register, and the status's.
const CLEAR: u32 = 0xD;
const STATUS: u32 = 8;

/// Any 101 bytes are a board; those that break a range are refused by every operation of the pair.
#[derive(Clone, Copy, Debug, PartialEq, Eq)]
pub struct Board {
    /// The controller granted last, 0 or 1.
    pub last: u8,
    /// The first has lines 0 to 3, the second 4 to 7.
    pub chips: [Controller; 2],
}

impl Board {
    /// A fresh board of two Am9517A.
    pub fn fresh() -> Board {
        Board::fresh_of([AM9517A; 2])
    }

    pub fn fresh_of(editions: [u8; 2]) -> Board {
        Board { last: LAST_AT_START, chips: editions.map(Controller::fresh_of) }
    }

    pub fn bytes(self) -> [u8; BOARD_LENGTH] {
        let mut bytes = [0; BOARD_LENGTH];
        bytes[0] = self.last;
        for (place, chip) in bytes[1..].chunks_exact_mut(FULL_LENGTH).zip(self.chips) {
            place.copy_from_slice(&chip.full());
        }
        bytes
    }

    /// The board these 101 bytes stand for, with no range check.
    pub fn from_bytes(bytes: &[u8; BOARD_LENGTH]) -> Board {
        let mut board = Board::fresh();
        board.last = bytes[0];
        for (place, chip) in bytes[1..].chunks_exact(FULL_LENGTH).zip(&mut board.chips) {
            let mut full = [0; FULL_LENGTH];
            full.copy_from_slice(place);
            *chip = Controller::from_full(&full);
        }
        board
    }

    /// The same board with this chip in the place of one of its own.
    pub fn with_chip(self, chip: usize, next: Controller) -> Board {
        let mut board = self;
        board.chips[chip] = next;
        board
    }

    /// The chip whose service is open, if one is.
    pub fn chip_in_service(self) -> Option<usize> {
        self.chips.iter().position(|chip| chip.in_service())
    }

    /// "A pair with both in service is refusal 1", and so is one with either chip or the arbiter out
    /// of its ranges.
    pub fn refuse_broken(self) -> Result<(), Refusal> {
        for (number, chip) in self.chips.iter().enumerate() {
            if !is_unchecked(number) {
                chip.refuse_broken()?;
            }
        }
        let both = self.chips.iter().all(|chip| chip.in_service());
        if both && !faults::on(Fault::BoardBothServe) {
            return Err(Refusal::BrokenState);
        }
        if self.last > 1 && !faults::on(Fault::BoardArbiterUnchecked) {
            return Err(Refusal::BrokenState);
        }
        Ok(())
    }

    /// "a register access, grant or round during it is refusal 3 for either chip".
    pub fn refuse_during_service(self) -> Result<(), Refusal> {
        self.chips.iter().try_for_each(|chip| chip.refuse_during_service())
    }

    /// Write a register: 1, 2, 3 of the board, then 4 and 5 of the chip.
    pub fn write(self, register: u32, byte: u8) -> Result<Board, Refusal> {
        let (chip, register) = self.addressed(register)?;
        let mut now = self.chips[chip];
        if faults::on(Fault::BoardEditionOfFirst) {
            now.edition = self.chips[0].edition;
        }
        let mut next = now.write(register, byte)?;
        if faults::on(Fault::BoardEditionOfFirst) {
            next.edition = self.chips[chip].edition;
        }
        let mut board = self.after_access(chip, next)?;
        // A master clear of one chip leaves the arbiter and the other chip.
        match faults::chosen() {
            Some(Fault::BoardClearTurnsBack) if register == CLEAR => board.last = LAST_AT_START,
            Some(Fault::BoardClearsBoth) if register == CLEAR => {
                board.chips = board.chips.map(Controller::cleared)
            }
            _ => {}
        }
        Ok(board)
    }

    /// Read a register: 1, 2, 3 of the board, then 4 of the chip.
    pub fn read(self, register: u32) -> Result<(Board, u8), Refusal> {
        let (chip, register) = self.addressed(register)?;
        let (next, byte) = self.chips[chip].read(register)?;
        let mut board = self.after_access(chip, next)?;
        if faults::on(Fault::BoardStatusClearsBoth) && register == STATUS {
            board.chips.iter_mut().for_each(|chip| chip.tc = 0);
        }
        Ok((board, byte))
    }

    /// "Five address bits: bit 4 picks the controller (0: first, lines 0 to 3)". The chip, and its
    /// own register.
    fn addressed(self, register: u32) -> Result<(usize, u32), Refusal> {
        if faults::on(Fault::BoardTwoFirst) {
            refuse_register(register)?;
        }
        let chip = chip_of(register);
        match faults::chosen() {
            Some(Fault::BoardOtherUnchecked) => self.chips[chip].refuse_broken()?,
            _ => self.refuse_broken()?,
        }
        if faults::on(Fault::BoardThreeBeforeTwo) {
            self.refuse_during_service()?;
        }
        refuse_register(register)?;
        match faults::chosen() {
            Some(Fault::BoardThreeOfOne | Fault::BoardThreeLast) => {}
            _ => self.refuse_during_service()?,
        }
        Ok((chip, register & 15))
    }

    /// The board behind a register access of this chip.
    fn after_access(self, chip: usize, next: Controller) -> Result<Board, Refusal> {
        if faults::on(Fault::BoardThreeLast) {
            self.refuse_during_service()?;
        }
        let mut board = self.with_chip(chip, next);
        if faults::on(Fault::BoardFlipFlopShared) {
            board.chips[1 - chip].flip_flop = next.flip_flop;
        }
        Ok(board)
    }

    /// All eight lines at once: bits 0-3 are the first controller's, 4-7 the second's. "pins over
    /// 255 is refusal 2".
    pub fn set_pins(self, pins: u32) -> Result<Board, Refusal> {
        self.refuse_broken()?;
        if faults::on(Fault::BoardPinsInService) {
            self.refuse_during_service()?;
        }
        let most = match faults::chosen() {
            Some(Fault::BoardPinsOver15) => 15,
            Some(Fault::BoardPinsCut) => u32::MAX,
            _ => 255,
        };
        if pins > most {
            return Err(Refusal::TooLarge);
        }
        let [first, second] = self.chips;
        let (low, high) = match faults::chosen() {
            Some(Fault::BoardPinsSwapped) => (pins >> 4 & 15, pins & 15),
            Some(Fault::BoardPinsHighLost) => (pins & 15, u32::from(second.pins)),
            _ => (pins & 15, pins >> 4 & 15),
        };
        Ok(Board { chips: [first.set_pins(low)?, second.set_pins(high)?], ..self })
    }

    /// Board reset resets both chips and the arbiter. It is legal during a service, as a chip's is.
    pub fn reset(self) -> Result<Board, Refusal> {
        self.refuse_broken()?;
        if faults::on(Fault::BoardResetInService) {
            self.refuse_during_service()?;
        }
        let [first, second] = self.chips;
        let mut board = Board { last: LAST_AT_START, chips: [first.reset()?, second.reset()?] };
        match faults::chosen() {
            Some(Fault::BoardResetKeepsLast) => board.last = self.last,
            Some(Fault::BoardResetTurns) => board.last = 0,
            Some(Fault::BoardResetOfFirst) => board.chips[1] = second,
            Some(Fault::BoardResetOfServing) if self.chip_in_service() == Some(0) => {
                board.chips[1] = second
            }
            _ => {}
        }
        Ok(board)
    }

    /// The waits of one chip: 1 and 3, asked of the pair.
    pub fn set_waits(self, chip: usize, waits: u8) -> Result<Board, Refusal> {
        if !faults::on(Fault::BoardWaitsOneOfOne) {
            self.refuse_broken()?;
        }
        if !faults::on(Fault::BoardWaitsThreeOfOne) {
            self.refuse_during_service()?;
        }
        let mut board = self.with_chip(chip, self.chips[chip].set_waits(waits)?);
        if faults::on(Fault::BoardWaitsOfBoth) {
            board.chips[1 - chip].waits = waits;
        }
        Ok(board)
    }

    /// "sheets stay one per chip": writing asks that chip alone, 1, 9 and 15.
    pub fn write_sheet(self, chip: usize, form: Form, slice: &mut [u8]) -> Result<(), Refusal> {
        match faults::chosen() {
            Some(Fault::BoardSheetAsksPair) => self.refuse_broken()?,
            Some(Fault::BoardSheetInService) => self.refuse_during_service()?,
            Some(Fault::BoardSheetOfFirst) => return self.chips[0].write_sheet(form, slice),
            _ => {}
        }
        self.chips[chip].write_sheet(form, slice)
    }

    /// A sheet read into one chip, 9 to 14; "without a look at the pair", and the rest is left.
    pub fn read_sheet(self, chip: usize, form: Form, slice: &[u8]) -> Result<Board, Refusal> {
        if faults::on(Fault::BoardLoadInService) {
            self.refuse_during_service()?;
        }
        let mut board = self.with_chip(chip, Controller::read_sheet(form, slice)?);
        let (old, other) = (self.chips[chip], 1 - chip);
        match faults::chosen() {
            Some(Fault::BoardLoadAsksPair) => board.refuse_broken()?,
            Some(Fault::BoardLoadsOther) => {
                return Ok(self.with_chip(other, board.chips[chip]));
            }
            Some(Fault::BoardLoadTurnsBack) => board.last = LAST_AT_START,
            Some(Fault::BoardLoadEndsOther) if board.chips[chip].in_service() => {
                board.chips[other] = board.chips[other].with_service_ended()
            }
            Some(Fault::BoardLoadKeepsEdition) if form == Form::One => {
                (board.chips[chip].edition, board.chips[chip].waits) = (old.edition, old.waits)
            }
            _ => {}
        }
        Ok(board)
    }
}

/// Never so, but for two of the faults.
fn is_unchecked(chip: usize) -> bool {
    match faults::chosen() {
        Some(Fault::BoardFirstUnchecked) => chip == 0,
        Some(Fault::BoardSecondUnchecked) => chip == 1,
        _ => false,
    }
}

/// "a register number over 31 ... is refusal 2".
fn refuse_register(register: u32) -> Result<(), Refusal> {
    let most = match faults::chosen() {
        Some(Fault::BoardRegisterOver15) => 15,
        Some(Fault::BoardRegisterCut) => u32::MAX,
        _ => 31,
    };
    if register > most {
        return Err(Refusal::TooLarge);
    }
    Ok(())
}

fn chip_of(register: u32) -> usize {
    let bit = (register >> 4 & 1) as usize;
    match faults::chosen() {
        Some(Fault::BoardBitFourIgnored) => 0,
        Some(Fault::BoardBitFourTurned) => 1 - bit,
        _ => bit,
    }
}
