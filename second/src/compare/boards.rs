//! Scripts about the board. A scene of the controller becomes one of a chip of the board: each of
//! its commands is said for that chip. What the board alone has is in [`super::board_scenes`].

use super::values;
use super::waiting::{has_a_wide_round, is_wide_on_board};
use super::writer::{Hex, Name, Number, Word, Writer};
use crate::board::{Board, BOARD_LENGTH};
use crate::protocol::LENT_AT_START;
use crate::state::{Controller, BODY_LENGTH, FULL_LENGTH};

/// Of a hundred scripts, so many are about the board.
const ABOUT_THE_BOARD: u64 = 23;
/// Arbiter bytes there are none of.
const BROKEN_ARBITERS: [u8; 6] = [2, 2, 3, 0x80, 0xFE, 0xFF];
/// The greatest number that a register or pins may be given as.
const MOST: u64 = 0xFFFF_FFFF;

impl Writer {
    pub fn on_board(&self) -> bool {
        self.chip.is_some()
    }

    pub fn board(&self) -> Board {
        self.console.board
    }

    /// Is this script about the board? Every second wide round is one of the board.
    pub fn choose_subject(&mut self, number: u64) {
        let board = match has_a_wide_round(number) {
            true => is_wide_on_board(number),
            false => self.random.chance(ABOUT_THE_BOARD),
        };
        if board {
            self.chip = Some(self.random.below(2) as usize);
        }
    }

    /// This command for the chip that the script is about now, or for the controller.
    pub fn addressed(&mut self, words: &[Word]) -> Vec<Word> {
        let Some(chip) = self.chip else {
            return words.to_vec();
        };
        match words {
            [Name("state" | "full"), Hex(bytes)] => {
                vec![Name("b.state"), Hex(self.board_with(chip, bytes))]
            }
            [Name("fresh"), edition] => {
                let mut editions = [edition.clone(), Number(self.random.below(2))];
                if self.random.chance(50) {
                    editions.swap(0, 1);
                }
                [&[Name("b.fresh")], &editions[..]].concat()
            }
            [name @ Name("write" | "read"), Number(register), rest @ ..] => {
                let register = Number(on_chip(*register, chip));
                [&front(name, chip)[..], &[register], rest].concat()
            }
            [Name("pins"), Number(levels)] => {
                let levels = self.all_pins(*levels, chip);
                vec![Name("b.pins"), Number(levels)]
            }
            [name, rest @ ..] => [&front(name, chip)[..], rest].concat(),
            [] => Vec::new(),
        }
    }

    /// Levels of one chip's lines; those of the other stay, most often.
    fn all_pins(&mut self, levels: u64, chip: usize) -> u64 {
        if levels > 15 {
            return (levels + 240).min(MOST);
        }
        let mut others = u64::from(self.board().chips[1 - chip].pins & 15);
        if self.random.chance(20) {
            others = self.random.below(16);
        }
        levels << (4 * chip) | others << (4 * (1 - chip))
    }

    /// The board with another state of this chip; of as many bytes too few or too many as are given.
    fn board_with(&mut self, chip: usize, bytes: &[u8]) -> Vec<u8> {
        let mut board = self.board();
        let old = board.chips[chip];
        if let Ok(full) = <&[u8; FULL_LENGTH]>::try_from(bytes) {
            board.chips[chip] = Controller::from_full(full);
        } else if let Ok(body) = <&[u8; BODY_LENGTH]>::try_from(bytes) {
            let Controller { edition, waits, .. } = old;
            board.chips[chip] = Controller { edition, waits, ..Controller::from_body(body) };
        } else {
            let mut wrong = board.bytes().to_vec();
            let longer = BOARD_LENGTH + bytes.len();
            wrong.resize(longer.saturating_sub(FULL_LENGTH), 0);
            return wrong;
        }
        if board.chips[chip].in_service() {
            self.settle(&mut board, chip);
        }
        board.bytes().to_vec()
    }

    /// Most often one service alone is open, and often it is of the chip granted last.
    fn settle(&mut self, board: &mut Board, chip: usize) {
        if self.random.chance(90) {
            board.chips[1 - chip] = board.chips[1 - chip].with_service_ended();
        }
        if self.random.chance(60) {
            board.last = chip as u8;
        }
    }

    /// The chip in service more often than the other.
    pub fn choose_chip(&mut self) {
        self.chip = match self.board().chip_in_service() {
            Some(chip) if self.random.chance(70) => Some(chip),
            _ => Some(self.random.below(2) as usize),
        };
    }

    /// Editions, waits, lines and registers of both chips, or nothing but a fresh board.
    pub fn open_board_script(&mut self) {
        if self.random.chance(60) {
            self.chip = self.chip.map(|chip| 1 - chip);
            if self.slow > 0 {
                self.set_waits();
            }
        }
        match self.random.below(4) {
            0 => self.set_board(),
            1 => self.program_fresh_board(),
            _ => {}
        }
    }

    /// One command or one scene of a script about the board.
    pub fn board_step(&mut self) {
        self.choose_chip();
        match self.random.below(100) {
            0..=5 => return self.aside(),
            6..=8 => return self.step_beside_the_board(),
            9..=11 => return self.wrong_board_line(),
            _ => {}
        }
        if self.console.lent != LENT_AT_START && self.random.chance(40) {
            return self.say(&[Name("memory"), Number(LENT_AT_START as u64)]);
        }
        if self.board().refuse_broken().is_err() {
            self.board_step_while_broken()
        } else if self.board().chip_in_service().is_some() {
            self.board_step_in_service()
        } else {
            self.board_step_idle()
        }
    }

    /// The console's controller has nothing to do with the board.
    fn step_beside_the_board(&mut self) {
        let chip = self.chip.take();
        match self.random.below(4) {
            0 => self.fresh(),
            1 => self.any_operation(),
            _ => self.step(),
        }
        self.chip = chip;
    }

    fn board_step_while_broken(&mut self) {
        match self.random.below(20) {
            0..=3 => self.any_operation(),
            4..=6 => self.refused_in_several_ways(),
            7 => self.fresh(),
            8 => self.load(),
            9..=10 => self.scene_of_board_sheets(),
            11 => self.set_waits(),
            12..=13 => self.load_idle_chip(),
            _ => self.set_board(),
        }
    }

    fn board_step_in_service(&mut self) {
        let weights = [50, 14, 9, 9, 7, 3, 6, 4, 3, 3, 2, 3, 4, 2];
        match self.random.weighted(&weights) {
            0 => self.run(),
            1 => self.board_pins(),
            2 => self.device(),
            3 => self.any_operation(),
            4 => self.refused_in_several_ways(),
            5 => self.set_board(),
            6 => self.scene_of_board_sheets(),
            7 => self.scene_of_board_reset(),
            8 => self.look_or_poke(),
            9 => self.break_board(),
            10 => self.lend_memory(),
            11 => self.load(),
            12 => self.set_waits(),
            _ => self.scene_of_editions(),
        }
    }

    fn board_step_idle(&mut self) {
        let boards = [30, 14, 26, 9, 7, 14, 8, 10, 8, 6];
        let chips = [10, 8, 4, 6, 6, 5, 4, 3, 3, 3];
        let others = [6, 4, 6, 5, 3, 3, 2, 2, 2, 4, 5];
        match self.random.weighted(&[&boards[..], &chips[..], &others[..]].concat()) {
            0 => self.scene_of_turns(),
            1 => self.scene_of_one_alone(),
            2 => self.scene_of_a_board_round(),
            3 => self.scene_of_board_clear(),
            4 => self.scene_of_board_reset(),
            5 => self.scene_of_board_sheets(),
            6 => self.program_fresh_board(),
            7 => self.set_board(),
            8 => self.break_board(),
            9 => self.refused_in_several_ways(),
            10 => self.scene_of_one_service(),
            11 => self.scene_of_memory_to_memory(),
            12 => self.scene_of_a_pattern(),
            13 => self.scene_of_a_round(),
            14 => self.scene_of_eop(),
            15 => self.scene_of_editions(),
            16 => self.scene_of_waits(),
            17 => self.store_and_read(),
            18 => self.program_channel(),
            19 => self.read_everything(),
            20 => self.write_some_register(),
            21 => self.read_some_register(),
            22 => self.say(&[Name("grant")]),
            23 => self.round(),
            24 => self.board_pins(),
            25 => self.device(),
            26 => self.look_or_poke(),
            27 => self.lend_memory(),
            28 => self.load(),
            29 => self.set_waits(),
            _ => self.clear_mask(),
        }
    }

    /// A board made anew that keeps its ranges, idle or in service.
    fn some_board(&mut self) -> Board {
        let chips = [self.some_state(), self.some_state()];
        let mut board = Board { last: self.random.below(2) as u8, chips };
        if board.chips.iter().all(|chip| chip.in_service()) || self.random.chance(25) {
            let chip = self.random.below(2) as usize;
            board.chips[chip] = board.chips[chip].with_service_ended();
        }
        board
    }

    pub fn say_board(&mut self, board: Board) {
        self.say(&[Name("b.state"), Hex(board.bytes().to_vec())]);
    }

    pub fn set_board(&mut self) {
        let board = self.some_board();
        self.say_board(board);
    }

    /// One range broken or two: of either chip, of the arbiter, or both chips in service.
    pub fn break_board(&mut self) {
        let mut board = self.board();
        if self.random.chance(60) {
            board = self.some_board();
        }
        for _ in 0..self.random.pick(&[1, 1, 1, 2]) {
            let chip = self.random.below(2) as usize;
            match self.random.below(10) {
                0..=2 => board.last = self.random.pick(&BROKEN_ARBITERS),
                3..=5 => {
                    let serving = |chip: &Controller| chip.in_service();
                    for chip in board.chips.iter_mut().filter(|chip| !serving(chip)) {
                        values::open_service(&mut self.random, chip);
                    }
                }
                _ => values::break_range(&mut self.random, &mut board.chips[chip]),
            }
        }
        self.say_board(board);
        for _ in 0..self.random.between(1, 5) {
            self.choose_chip();
            match self.random.below(8) {
                0..=2 => self.refused_in_several_ways(),
                3 => self.sheet(),
                4 => self.set_waits(),
                5 => self.run(),
                _ => self.any_operation(),
            }
        }
    }
}

/// The first words of a command for this chip.
fn front(name: &Word, chip: usize) -> Vec<Word> {
    let number = Number(chip as u64);
    let Name(name) = name else {
        return vec![name.clone()];
    };
    match *name {
        "state" | "full" => vec![Name("b.state")],
        "fresh" => vec![Name("b.fresh")],
        "write" => vec![Name("b.write")],
        "read" => vec![Name("b.read")],
        "pins" => vec![Name("b.pins")],
        "reset" => vec![Name("b.reset")],
        "grant" => vec![Name("b.grant")],
        "run" => vec![Name("b.run")],
        "round" => vec![Name("b.round")],
        "waits" => vec![Name("b.waits"), number],
        "sheet" => vec![Name("b.sheet"), number, Number(1)],
        "sheet2" => vec![Name("b.sheet"), number, Number(2)],
        "load" => vec![Name("b.load"), number, Number(1)],
        "load2" => vec![Name("b.load"), number, Number(2)],
        other => vec![Name(other)],
    }
}

/// The board's number for a chip's register; one that a chip has not, the board has not either.
fn on_chip(register: u64, chip: usize) -> u64 {
    match register {
        0..=15 => register + 16 * chip as u64,
        _ => (register + 16).min(MOST),
    }
}
