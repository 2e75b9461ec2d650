//! States of both editions: made, shown, cleared, stored and read; and the write of register E.

use super::values;
use super::writer::{Hex, Name, Number, Writer};
use crate::state::{Controller, AM9517A, FULL_LENGTH, INTEL};

const PAIR: u8 = 1;
const DISABLE: u8 = 4;
const AUTOINITIALIZE: u8 = 0x10;
const DEMAND: u8 = 0x00;
const SINGLE: u8 = 0x40;
const BLOCK: u8 = 0x80;

/// Editions there are none of.
pub const BROKEN_EDITIONS: [u8; 5] = [2, 2, 3, 0x80, 0xFF];

impl Writer {
    /// Half of the scripts make Am9517A states only, some make only Intel ones, some both.
    pub fn choose_editions(&mut self) {
        self.intel = [0, 100, 50][self.random.weighted(&[46, 34, 20])];
        if self.intel > 0 && self.random.chance(95) {
            self.fresh();
        }
    }

    /// For a state that is made anew.
    pub fn some_edition(&mut self) -> u8 {
        if self.random.chance(self.intel) {
            return INTEL;
        }
        AM9517A
    }

    /// Sheets and `fresh` leave an Am9517A behind in scripts of the Intel edition.
    pub fn has_lost_its_edition(&self) -> bool {
        self.intel == 100 && self.controller().edition == AM9517A
    }

    /// `fresh`, with E or without.
    pub fn fresh(&mut self) {
        let edition = self.some_edition();
        if self.random.chance(if edition == AM9517A { 60 } else { 20 }) {
            return self.say(&[Name("fresh")]);
        }
        self.say(&[Name("fresh"), Number(u64::from(edition))]);
    }

    /// `state`, which leaves edition and waits, or `full`.
    pub fn say_state(&mut self, state: Controller) {
        let now = self.controller();
        let same = state.edition == now.edition && state.waits == now.waits;
        if self.random.chance(if same { 65 } else { 8 }) {
            return self.say(&[Name("state"), Hex(state.body().to_vec())]);
        }
        self.say(&[Name("full"), Hex(state.full().to_vec())]);
    }

    pub fn show_state(&mut self) {
        let command = self.random.pick(&["state", "full"]);
        self.say(&[Name(command)]);
    }

    pub fn show_full(&mut self) {
        self.say(&[Name("full")]);
    }

    /// The same state in the edition this script makes; in service, in the middle of it.
    pub fn change_edition(&mut self) {
        let mut state = self.controller();
        state.edition = self.some_edition();
        self.say(&[Name("full"), Hex(state.full().to_vec())]);
    }

    /// What the editions differ in, and what they must not.
    pub fn scene_of_editions(&mut self) {
        match self.random.below(14) {
            0..=3 => self.scene_of_clear_mask(),
            4 => self.change_edition(),
            5..=7 => self.clear_and_show(),
            8 => self.store_and_read(),
            9..=10 => self.load_and_show(),
            11 => self.break_edition(),
            12 => self.wrong_full(),
            _ => self.wrong_fresh(),
        }
    }

    /// External EOP outside memory-to-memory, in each mode, with autoinitialize and without.
    pub fn scene_of_eop(&mut self) {
        let mut plan = self.controller();
        plan.command = values::command(&mut self.random) & !(DISABLE | PAIR);
        let number = self.random.below(4) as usize;
        let kind = self.random.pick(&[DEMAND, SINGLE, SINGLE, BLOCK]);
        let mode = kind | self.random.pick(&[0, 0, 4, 8]) | self.random.pick(&[0, AUTOINITIALIZE]);
        self.plan_channel(&mut plan, number, mode);
        plan.pins = values::pins_for(1 << number, plan.command);
        plan.mask &= !(1 << number);
        plan.tc &= !(1 << number);
        self.reach(plan);
        self.provide_for(number);
        self.say(&[Name("grant")]);
        self.run_to_eop();
        match self.random.below(4) {
            0 => self.show_full(),
            1 => self.say(&[Name("read"), Number(8)]),
            2 => self.run(),
            _ => {}
        }
    }

    /// A run to EOP at the first transfer, at TC, or on either side of it; no limit before that.
    fn run_to_eop(&mut self) {
        let (most, _) = self.transfers_to_tc();
        let eop = self.random.pick(&[1, 1, 1, 2, most / 2, most - 1, most, most, most + 1]);
        let limit = if most > self.budget { self.budget.min(50) } else { most + 1 };
        self.say(&[Name("run"), Number(limit), Number(eop)]);
    }

    /// A mask, now and then half of an address, then E; and who is served by it.
    fn scene_of_clear_mask(&mut self) {
        let mask = self.random.byte();
        if self.random.chance(60) {
            self.write(0xF, mask);
        }
        if self.random.chance(40) {
            let register = self.random.below(8);
            self.write(register, mask);
        }
        self.clear_mask();
        match self.random.below(7) {
            0..=1 => self.show_full(),
            2 => self.round(),
            3 => {
                self.say(&[Name("grant")]);
                self.run();
                self.clear_mask();
            }
            4..=5 => self.say(&[Name("read"), Number(0xE)]),
            _ => {}
        }
    }

    pub fn clear_mask(&mut self) {
        let any = self.random.byte();
        let byte = self.random.pick(&[0, 0, 1, 4, 7, 15, 0xFF, any, any]);
        self.write(0xE, byte);
    }

    /// "kept in it through reset", and through master clear; so are the waits.
    pub fn clear_and_show(&mut self) {
        if self.random.chance(50) {
            self.say(&[Name("reset")]);
        } else {
            self.master_clear();
        }
        self.show_full();
    }

    /// An edition there is none of, all else in order or not, and how operations take it.
    pub fn break_edition(&mut self) {
        let mut state = self.controller();
        if self.random.chance(50) {
            state = values::state(&mut self.random, false);
        }
        if self.random.chance(10) {
            values::break_range(&mut self.random, &mut state);
        }
        state.edition = self.random.pick(&BROKEN_EDITIONS);
        state.waits = self.some_waits();
        self.say(&[Name("full"), Hex(state.full().to_vec())]);
        for _ in 0..self.random.between(1, 4) {
            match self.random.below(8) {
                0 => self.clear_mask(),
                1 => self.set_state(),
                _ => self.any_operation(),
            }
        }
    }

    /// `full HEX` of a wrong length.
    fn wrong_full(&mut self) {
        let mut state = values::state(&mut self.random, false);
        state.edition = self.random.pick(&[AM9517A, INTEL, 2]);
        state.waits = self.some_waits();
        let mut bytes = state.full().to_vec();
        if self.random.chance(50) {
            bytes.truncate(self.random.pick(&[0, 1, 2, 47, 48, FULL_LENGTH - 1]));
        } else {
            let length = self.random.pick(&[1, 1, 2, 6, 50]);
            bytes.extend(self.random.bytes(length));
        }
        self.say(&[Name("full"), Hex(bytes)]);
        self.show_full();
    }

    /// "E over 1 is `error`", cut to fewer bits or not.
    fn wrong_fresh(&mut self) {
        let numbers =
            [2, 2, 3, 255, 256, 257, 0x1_0000, 0xFFFF_FFFF, 0x1_0000_0000, 0x1_0000_0001, u64::MAX];
        let edition = self.random.pick(&numbers);
        self.say(&[Name("fresh"), Number(edition)]);
        self.show_full();
    }
}
