//! Scenes that only a board has: turns on the bus, rounds of both chips, one chip cleared and the
//! other not, and sheets that go from chip to chip.

use super::values;
use super::writer::{Hex, Name, Number, Raw, Writer};
use crate::protocol::to_hex;
use crate::sheet::Form;
use crate::state::Controller;

const DISABLE: u8 = 4;
const ROTATING: u8 = 0x10;
const AUTOINITIALIZE: u8 = 0x10;
const SINGLE: u8 = 0x40;
const BLOCK: u8 = 0x80;

/// Lines with something wrong in their form, and some with nothing wrong.
const LINES: [&str; 38] = [
    "b.fresh 0",
    "b.fresh 1",
    "b.fresh 0 1",
    "b.fresh 1 0",
    "b.fresh 0 2",
    "b.fresh 2 0",
    "b.fresh 0 256",
    "b.fresh 257 1",
    "b.fresh 0 4294967297",
    "b.fresh 0 0 0",
    "b.state -",
    "b.state 00",
    "b.waits 2 0",
    "b.waits 0 256",
    "b.waits 1 257",
    "b.waits 256 1",
    "b.waits 1",
    "b.waits 4294967296 7",
    "b.sheet 2 1 58",
    "b.sheet 3 2 58",
    "b.sheet 0 0 58",
    "b.sheet 1 3 58",
    "b.sheet 1 258 60",
    "b.sheet 1 2 70001",
    "b.sheet 1 58",
    "b.load 2 1 00",
    "b.load 0 0 00",
    "b.load 1 3 -",
    "b.load 1 2",
    "b.load 1 2 0",
    "b.pins 4294967296",
    "b.pins 0x1000000ff",
    "b.write 0x100000000 0",
    "b.write 17 256",
    "b.round 4294967296",
    "b.judge -",
    "b.full",
    "B.state",
];

impl Writer {
    pub fn board_pins(&mut self) {
        let levels = match self.random.below(8) {
            0 => self.random.pick(&[256, 257, 0x1FF, 0x1000, 0x1_0000, 0xFFFF_FFFF]),
            1..=2 => self.random.pick(&[255, 0xF0, 0x0F, 0, 16, 128]),
            3..=4 => return self.pins(),
            _ => self.random.below(256),
        };
        self.say(&[Name("b.pins"), Number(levels)]);
    }

    fn show_board(&mut self) {
        self.say(&[Name("b.state")]);
    }

    /// Channels of one chip that ask for service, most often single, short and rotating.
    fn live_chip(&mut self, chip: usize, active: u8) -> Controller {
        let mut plan = self.board().chips[chip];
        plan.command = values::command(&mut self.random) & !DISABLE;
        if self.random.chance(60) {
            plan.command |= ROTATING;
        }
        for number in 0..4 {
            let mode = match self.random.below(10) {
                0..=5 => SINGLE | self.random.pick(&[0, 4, 8]),
                6..=7 => BLOCK | self.random.pick(&[0, 4, 8]),
                _ => values::mode(&mut self.random),
            };
            let again = self.random.pick(&[0, AUTOINITIALIZE]);
            self.plan_channel(&mut plan, number, mode | again);
            if self.random.chance(80) {
                let count = self.random.below(6) as u16;
                plan.channels[number].base_count = count;
                plan.channels[number].current_count = count;
            }
        }
        plan.mask = self.random.pick(&[0, 0, 0, 1, 2, 4, 8, 15]);
        plan.pins = values::pins_for(active, plan.command);
        plan.request = self.random.below(16) as u8 & self.random.below(16) as u8;
        plan
    }

    /// Both chips live, by one `b.state`, or chip by chip, by states or registers.
    fn make_live(&mut self, active: [u8; 2]) {
        let plans = [self.live_chip(0, active[0]), self.live_chip(1, active[1])];
        if self.random.chance(70) {
            let mut board = self.board();
            board.chips = plans;
            board.last = self.random.below(2) as u8;
            self.say_board(board);
        } else {
            for (chip, plan) in plans.into_iter().enumerate() {
                self.chip = Some(chip);
                self.reach(plan);
            }
        }
        if self.random.chance(70) {
            self.prepare_memory_and_device();
        }
    }

    fn some_lines(&mut self) -> u8 {
        let any = self.random.below(16) as u8;
        self.random.pick(&[15, 15, any, any])
    }

    /// One service after another, with something between them now and then.
    pub fn scene_of_turns(&mut self) {
        let active = [self.some_lines(), self.some_lines()];
        self.make_live(active);
        for _ in 0..self.random.between(2, 12) {
            self.one_turn();
            match self.random.below(14) {
                0 => self.board_pins(),
                1 => self.show_board(),
                2 => {
                    self.choose_chip();
                    self.write_some_register()
                }
                3 => self.set_waits(),
                _ => {}
            }
        }
    }

    /// A grant and a run; a service left open is gone on with, or not.
    fn one_turn(&mut self) {
        self.say(&[Name("grant")]);
        if self.random.chance(40) {
            self.run();
        }
        if self.board().chip_in_service().is_some() && self.random.chance(80) {
            self.run_to_end();
        }
    }

    /// All of the open service, if there are transfers enough left for it.
    fn run_to_end(&mut self) {
        let (most, device) = self.transfers_to_tc();
        if most.min(device) > self.budget {
            return self.run();
        }
        self.say(&[Name("run"), Number(70_000), Number(0)]);
    }

    /// Grants that nobody contests, then one that both want.
    pub fn scene_of_one_alone(&mut self) {
        let alone = self.random.below(2) as usize;
        let mut active = [0, 0];
        active[alone] = self.random.between(1, 15) as u8;
        self.make_live(active);
        for _ in 0..self.random.between(1, 3) {
            self.one_turn();
        }
        if self.random.chance(40) {
            self.show_board();
        }
        self.open_all_lines();
        self.one_turn();
    }

    /// Every line of both chips active and unmasked, as a driver would do it.
    fn open_all_lines(&mut self) {
        let mut levels = 0;
        for (chip, now) in self.board().chips.into_iter().enumerate() {
            levels |= u64::from(values::pins_for(15, now.command)) << (4 * chip);
            if now.mask != 0 {
                let register = 15 + 16 * chip as u64;
                self.say(&[Name("b.write"), Number(register), Number(0)]);
            }
        }
        self.say(&[Name("b.pins"), Number(levels)]);
    }

    /// No line of either chip active.
    fn close_all_lines(&mut self) {
        let [first, second] = self.board().chips.map(|now| values::pins_for(0, now.command));
        self.say(&[Name("b.pins"), Number(u64::from(first | second << 4))]);
    }

    /// One round over both chips, or two; now and then with a service, a look or pins between.
    pub fn scene_of_a_board_round(&mut self) {
        let active = [self.some_lines(), self.some_lines()];
        self.make_live(active);
        if self.random.chance(70) {
            let wanted = self.random.below(60);
            self.feed_about(wanted);
            let wanted = self.random.below(60);
            self.new_room(wanted);
        }
        for _ in 0..self.random.between(1, 2) {
            self.round();
            match self.random.below(8) {
                0 => self.one_turn(),
                1 => self.show_board(),
                2 => self.board_pins(),
                3 => self.run(),
                _ => {}
            }
        }
    }

    /// A chip's master clear leaves the other chip and the arbiter: who is next?
    pub fn scene_of_board_clear(&mut self) {
        let active = [self.some_lines(), self.some_lines()];
        self.make_live(active);
        self.one_turn();
        self.choose_chip();
        self.master_clear();
        if self.random.chance(40) {
            self.show_board();
        }
        self.open_all_lines();
        self.one_turn();
    }

    /// Board reset, idle or in service, and who is next.
    pub fn scene_of_board_reset(&mut self) {
        if self.board().chip_in_service().is_none() && self.random.chance(70) {
            let active = [self.some_lines(), self.some_lines()];
            self.make_live(active);
            self.say(&[Name("grant")]);
            if self.random.chance(50) {
                self.run();
            }
        }
        self.say(&[Name("reset")]);
        if self.random.chance(40) {
            self.show_board();
        }
        if self.random.chance(60) {
            self.open_all_lines();
            self.one_turn();
        }
    }

    /// A chip's sheet, into the same chip or the other; then, often, an operation of the pair.
    pub fn scene_of_board_sheets(&mut self) {
        let form = self.some_form();
        self.chip = Some(self.random.below(2) as usize);
        self.sheet_of(form);
        if let Some(sheet) = self.bytes_answered() {
            let chip = self.random.below(2);
            let form = if self.random.chance(85) { form } else { self.some_form() };
            let number = u64::from(form.number());
            self.say(&[Name("b.load"), Number(chip), Number(number), sheet]);
        } else if self.random.chance(40) {
            self.load();
        }
        match self.random.below(6) {
            0..=1 => self.show_board(),
            2 => self.any_operation(),
            3 => self.refused_in_several_ways(),
            4 => self.load_idle_chip(),
            _ => {}
        }
    }

    /// A whole sheet of an idle state into a chip, the one in service most often.
    pub fn load_idle_chip(&mut self) {
        self.choose_chip();
        let state = self.some_state().with_service_ended();
        let chip = self.chip.unwrap_or(0) as u64;
        let sheet = Hex(Form::Two.sheet(&state.full()));
        self.say(&[Name("b.load"), Number(chip), Number(2), sheet]);
    }

    /// A fresh board, brought to life by registers alone.
    pub fn program_fresh_board(&mut self) {
        self.fresh();
        for chip in 0..2 {
            self.chip = Some(chip);
            if self.slow > 0 && self.random.chance(50) {
                self.set_waits();
            }
            for _ in 0..self.random.between(0, 2) {
                self.program_channel();
            }
            if self.random.chance(50) {
                self.write_command();
            }
            let mask = self.random.pick(&[0, 0, 1, 2, 12, 14]);
            self.write(0xF, mask);
        }
        let levels = self.random.below(256);
        self.say(&[Name("b.pins"), Number(levels)]);
        match self.random.below(3) {
            0 => self.round(),
            1 => self.one_turn(),
            _ => {}
        }
    }

    /// Operations that several refusals could meet: which comes first?
    pub fn refused_in_several_ways(&mut self) {
        if self.random.chance(25) {
            let lent = self.random.pick(&[65_535, 65_537, 0]);
            self.say(&[Name("memory"), Number(lent)]);
        }
        for _ in 0..self.random.between(1, 3) {
            let own = self.random.below(32);
            let register = self.random.pick(&[31, 32, 32, 33, 48, 63, 64, 0xFFFF_FFFF, own]);
            let mode = self.random.pick(&[0x0C, 0x4C, 0x8D, 0x44]);
            let illegal = self.random.pick(&[9, 12, 14, 15, 25, 28, 30, 31]);
            match self.random.below(9) {
                0 => self.say(&[Name("b.write"), Number(register), Number(mode)]),
                1 => self.say(&[Name("b.read"), Number(register)]),
                2 => {
                    let register = self.random.pick(&[11, 14, 27, 30]);
                    self.say(&[Name("b.write"), Number(register), Number(mode)])
                }
                3 => self.say(&[Name("b.read"), Number(illegal)]),
                4 => self.board_pins(),
                5 => {
                    if self.random.chance(50) {
                        self.close_all_lines();
                    }
                    self.say(&[Name("grant")])
                }
                6 => self.run(),
                7 => {
                    let k = self.random.pick(&[0, 0, 1, 4_097, 8_192, 8_193]);
                    self.say(&[Name("round"), Number(k)])
                }
                _ => self.say(&[Name("reset")]),
            }
        }
    }

    /// A line of the board's with something wrong in its form, most often.
    pub fn wrong_board_line(&mut self) {
        match self.random.below(8) {
            0 => self.wrong_board_state(),
            1 => self.wrong_board_sheet(),
            2 => {
                let editions = [Number(self.random.below(2)), Number(self.random.below(4))];
                let number = self.random.pick(&[1, 1, 2]);
                self.say(&[&[Name("b.fresh")], &editions[..number]].concat());
            }
            3 => {
                let chip = self.random.pick(&[0, 1, 2, 3, 255, 256, 257]);
                let waits = self.random.pick(&[0, 1, 255, 256, 257, 511]);
                self.say(&[Name("b.waits"), Number(chip), Number(waits)]);
            }
            _ => {
                let line = self.random.pick(&LINES);
                self.say_plainly(line);
            }
        }
        if self.random.chance(30) {
            self.show_board();
        }
    }

    /// `b.state HEX` of a wrong length, or with a digit too few.
    fn wrong_board_state(&mut self) {
        let mut bytes = self.board().bytes().to_vec();
        if self.random.chance(30) {
            let mut digits = to_hex(&bytes);
            digits.pop();
            return self.say(&[Name("b.state"), Raw(digits)]);
        }
        let length = self.random.pick(&[50, 96, 100, 100, 100, 102, 202]);
        bytes.resize(length, 0);
        self.say(&[Name("b.state"), Hex(bytes)]);
    }

    /// A whole sheet, but for a chip or in a form that there is none of.
    fn wrong_board_sheet(&mut self) {
        let form = self.some_form();
        let sheet = Hex(form.sheet(&self.board().chips[1].full()));
        let chip = self.random.pick(&[0, 1, 2, 3, 256, 257]);
        let number = self.random.pick(&[0, 1, 2, 3, 257, 258]);
        self.say(&[Name("b.load"), Number(chip), Number(number), sheet]);
    }
}
