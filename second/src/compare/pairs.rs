//! Scenes of memory-to-memory: copies, fills, and patterns that channel 0's autoinitialize lays.

use super::values;
use super::writer::{Hex, Name, Number, Writer};
use crate::state::{Channel, Controller};

const BLOCK: u8 = 0x80;
const AUTOINITIALIZE: u8 = 0x10;
const DECREMENT: u8 = 0x20;
/// The memory is a ring of so many places.
const RING: usize = 65_536;
/// At most so many bytes of a source are poked.
const MOST_POKED: u64 = 300;

impl Writer {
    /// Is the open service one of memory-to-memory?
    pub fn serves_a_pair(&self) -> bool {
        self.controller().is_memory_to_memory()
    }

    /// How far channel 0's count is from going through 0, now or at one of the next times.
    pub fn transfers_to_a_passing(&mut self) -> u64 {
        let zero = self.controller().channels[0];
        let later = if zero.autoinitializes() { self.random.below(3) } else { 0 };
        u64::from(zero.current_count) + 1 + later * period(zero)
    }

    /// Any two channels, most often asked for by software.
    pub fn scene_of_memory_to_memory(&mut self) {
        let mut plan = self.controller();
        plan.command = values::command(&mut self.random) & !4 | 1;
        self.plan_pair(&mut plan);
        plan.request |= self.random.pick(&[1, 1, 3]);
        if self.random.chance(30) {
            plan.pins = values::pins_for(self.random.pick(&[1, 3, 15]), plan.command);
            plan.mask &= !1;
        }
        self.reach(plan);
        self.poke_near(plan.channels[0].current_address);
        self.say(&[Name("grant")]);
        self.run_or_judge();
    }

    /// Channels 0 and 1, their places often over each other.
    fn plan_pair(&mut self, plan: &mut Controller) {
        let kind =
            if self.random.chance(70) { BLOCK } else { values::mode(&mut self.random) & 0xC0 };
        let first = values::mode(&mut self.random) & 0x34 | kind;
        let second = values::mode(&mut self.random);
        self.plan_channel(plan, 1, second);
        self.plan_channel(plan, 0, first);
        if self.random.chance(60) {
            let near = self.random.pick(&[0, 1, 2, 3, 0xFFFD, 0xFFFE, 0xFFFF]);
            let address = plan.channels[1].current_address.wrapping_add(near);
            plan.channels[0].base_address = address;
            plan.channels[0].current_address = address;
        }
        if self.random.chance(40) {
            let now = *plan;
            plan.channels[0].base_address = values::address(&mut self.random, &now);
            plan.channels[0].base_count = values::count(&mut self.random, false);
        }
    }

    /// A short source laid over a long target again and again, in runs or in a round.
    pub fn scene_of_a_pattern(&mut self) {
        let mut plan = self.controller();
        plan.command = values::command(&mut self.random) & !4 | self.random.pick(&[1, 1, 1, 3]);
        let in_round = self.random.chance(30);
        plan.channels[0] = self.plan_source(&plan);
        plan.channels[1] = self.plan_target(&plan, in_round);
        self.ask_for_pair(&mut plan, in_round);
        if self.random.chance(60) {
            self.say_state(plan);
        } else {
            self.reach(plan);
        }
        self.poke_source(plan.channels[0]);
        if in_round {
            self.round();
        } else {
            self.say(&[Name("grant")]);
            self.run_in_pieces();
            self.go_on_with_pair(plan.command);
        }
        if self.random.chance(25) {
            self.read_pair();
        }
    }

    /// Channel 0, by software or by its line, which alone asks for it again and outside block mode.
    fn ask_for_pair(&mut self, plan: &mut Controller, again: bool) {
        plan.request = plan.request & !1 | self.random.pick(&[0, 1, 1, 3]);
        let block = plan.channels[0].mode & 0xC0 == BLOCK;
        let asked = plan.request & 1 != 0 && block;
        if again || !asked || self.random.chance(20) {
            let active = self.random.pick(&[1, 1, 1, 3, 15]);
            plan.pins = values::pins_for(active, plan.command);
            plan.mask &= !1;
        } else if self.random.chance(70) {
            plan.pins = values::pins_for(0, plan.command);
        }
    }

    /// Channel 0: few bytes, base and current registers often apart.
    fn plan_source(&mut self, now: &Controller) -> Channel {
        let base_count = match self.random.below(9) {
            0..=5 => self.random.pick(&[0, 1, 2, 3, 15, 255]),
            6..=7 => self.random.between(4, 60) as u16,
            _ => self.random.number() as u16,
        };
        let current_count = match self.random.below(10) {
            0 => 0,
            1 => base_count.wrapping_add(1),
            2 => self.random.below(u64::from(base_count) + 1) as u16,
            3 => self.random.between(0, 20) as u16,
            4 => values::count(&mut self.random, false),
            _ => base_count,
        };
        let mode = self.mode_of_pair(85);
        let length = u64::from(base_count) + 1;
        let base_address = self.start_of_place(now, mode, length);
        let current_address = match self.random.below(10) {
            0..=2 => values::address(&mut self.random, now),
            3 => stepped(base_address, mode, base_count.wrapping_sub(current_count)),
            4 => base_address.wrapping_add(self.random.pick(&[1, 2, 0x100, 0xFFFE, 0xFFFF])),
            _ => base_address,
        };
        Channel { base_address, current_address, base_count, current_count, mode }
    }

    /// Channel 1: the source several times over, often at or in it.
    fn plan_target(&mut self, plan: &Controller, again: bool) -> Channel {
        let zero = plan.channels[0];
        let mode = self.mode_of_pair(if again { 80 } else { 40 });
        let current_count = self.count_of_target(zero);
        let mut base_count = current_count;
        if self.random.chance(25) {
            base_count = self.count_of_target(zero);
        }
        let near = self.random.pick(&[0u16, 1, 2, 3, 0xFFFD, 0xFFFE, 0xFFFF]);
        let current_address = match self.random.below(10) {
            0..=2 => zero.base_address.wrapping_add(near),
            3 => zero.current_address.wrapping_add(near),
            4 => stepped(zero.base_address, zero.mode, zero.base_count.wrapping_add(near)),
            _ => self.start_of_place(plan, mode, u64::from(current_count) + 1),
        };
        let base_address = match self.random.below(4) {
            0 => values::address(&mut self.random, plan),
            _ => current_address,
        };
        Channel { base_address, current_address, base_count, current_count, mode }
    }

    /// Whole periods of the source, one more or less, or any length the budget allows.
    fn count_of_target(&mut self, zero: Channel) -> u16 {
        let budget = self.budget.clamp(1, RING as u64);
        let length = match self.random.below(10) {
            0..=2 => self.random.between(1, 6) * period(zero),
            3 => self.random.between(1, 3) * period(zero) + 1,
            4 => (self.random.between(1, 3) * period(zero)).max(2) - 1,
            5 => u64::from(zero.current_count) + 1,
            6 => budget / self.random.between(1, 4),
            7 if self.heavy() => self.random.pick(&[0xFFFE, 0xFFFF, 0x1_0000]),
            _ => self.random.between(1, 400),
        };
        let fits = length.clamp(1, budget.max(400));
        (fits - 1) as u16
    }

    /// Where a place of this length begins: over an end of the address space, or anywhere.
    fn start_of_place(&mut self, now: &Controller, mode: u8, length: u64) -> u16 {
        if self.random.chance(60) {
            return values::address(&mut self.random, now);
        }
        let before_end = self.random.below(length.min(MOST_POKED)) as u16;
        if mode & DECREMENT != 0 {
            return before_end;
        }
        0xFFFF - before_end
    }

    /// Mostly block; autoinitialize in so many of a hundred.
    fn mode_of_pair(&mut self, autoinitialize: u64) -> u8 {
        let mut mode = values::mode(&mut self.random) & !AUTOINITIALIZE;
        if self.random.chance(80) {
            mode = mode & DECREMENT | BLOCK | self.random.pick(&[0, 4, 8]);
        }
        if self.random.chance(autoinitialize) {
            mode |= AUTOINITIALIZE;
        }
        mode
    }

    /// Random bytes at channel 0's places, over the ends of the address space too.
    fn poke_source(&mut self, zero: Channel) {
        let length = period(zero).min(MOST_POKED) as u16;
        let back = if zero.decrements() { length - 1 } else { 0 };
        self.poke_ring(zero.base_address.wrapping_sub(back), length);
        if zero.current_address != zero.base_address {
            let length = self.random.between(1, 12) as u16;
            let back = if zero.decrements() { length - 1 } else { 0 };
            self.poke_ring(zero.current_address.wrapping_sub(back), length);
        }
    }

    fn poke_ring(&mut self, start: u16, length: u16) {
        let mut bytes = self.random.bytes(usize::from(length));
        let behind_end = bytes.split_off(bytes.len().min(RING - usize::from(start)));
        self.say(&[Name("poke"), Number(u64::from(start)), Hex(bytes)]);
        if !behind_end.is_empty() {
            self.say(&[Name("poke"), Number(0), Hex(behind_end)]);
        }
    }

    /// The open service cut into several runs, with a look or other pins between them.
    fn run_in_pieces(&mut self) {
        for _ in 0..self.random.between(1, 5) {
            self.run();
            if !self.controller().in_service() {
                return;
            }
            match self.random.below(10) {
                0..=1 => self.show_state(),
                2 => self.pins(),
                _ => {}
            }
        }
    }

    /// Once more from where channel 0 was left: after a reset in the middle, or after the end.
    fn go_on_with_pair(&mut self, command: u8) {
        if self.controller().in_service() {
            if !self.random.chance(25) {
                return;
            }
            self.say(&[Name("reset")]);
            self.write(8, command);
        } else if !self.random.chance(30) {
            return;
        }
        self.write(9, 4);
        self.say(&[Name("grant")]);
        self.run_in_pieces();
    }

    /// What a driver reads after a copy: both channels' addresses and counts, then the status.
    fn read_pair(&mut self) {
        self.write(0xC, 0);
        for register in [0, 0, 1, 1, 2, 2, 3, 3, 8] {
            self.say(&[Name("read"), Number(register)]);
        }
    }
}

/// So many transfers lie between two restores of channel 0.
fn period(zero: Channel) -> u64 {
    u64::from(zero.base_count) + 1
}

fn stepped(address: u16, mode: u8, steps: u16) -> u16 {
    if mode & DECREMENT != 0 {
        return address.wrapping_sub(steps);
    }
    address.wrapping_add(steps)
}
