//! States with waits: made, set, shown, cleared, stored and read; and rounds whose states pass 32
//! bits.

use super::values;
use super::writer::{Name, Number, Writer};

const PAIR: u8 = 1;
const DISABLE: u8 = 4;
const AUTOINITIALIZE: u8 = 0x10;
/// Every so many scripts, one has a round that passes 32 bits.
const BETWEEN_WIDE_ROUNDS: u64 = 500;
/// Waits and services of 65,536 transfers. With 252 waits a transfer takes 512 states, so that 128
/// services make 2^32 exactly.
const WIDE_ROUNDS: [(u64, u64); 8] = [
    (252, 127),
    (252, 128),
    (252, 128),
    (252, 129),
    (253, 128),
    (254, 128),
    (255, 127),
    (255, 128),
];

/// Is this script one of those? The first few hundred aren't: most faults need none.
pub fn has_a_wide_round(number: u64) -> bool {
    number % BETWEEN_WIDE_ROUNDS == BETWEEN_WIDE_ROUNDS - 1
}

/// Of these, every second one is about the board.
pub fn is_wide_on_board(number: u64) -> bool {
    number / BETWEEN_WIDE_ROUNDS % 2 == 1
}

impl Writer {
    /// Some scripts have no waits, some give them to each state they make, some to half of them.
    pub fn choose_waits(&mut self) {
        self.slow = [0, 100, 50][self.random.weighted(&[35, 40, 25])];
        if self.slow > 0 && self.random.chance(80) {
            self.set_waits();
        }
    }

    /// For a state that is made anew.
    pub fn some_waits(&mut self) -> u8 {
        if self.random.chance(self.slow) {
            return values::waits(&mut self.random);
        }
        0
    }

    /// Sheets and `fresh` leave no waits behind in scripts that have them.
    pub fn has_lost_its_waits(&self) -> bool {
        self.slow == 100 && self.controller().waits == 0
    }

    pub fn set_waits(&mut self) {
        let waits = values::waits(&mut self.random);
        self.say_waits(u64::from(waits));
    }

    pub fn say_waits(&mut self, number: u64) {
        self.say(&[Name("waits"), Number(number)]);
    }

    /// What waits change, and what they must not.
    pub fn scene_of_waits(&mut self) {
        match self.random.below(12) {
            0..=2 => self.set_and_show_waits(),
            3..=4 => self.wrong_waits(),
            5..=6 => self.waits_in_service(),
            7 => self.waits_while_broken(),
            8 => self.clear_and_show(),
            9..=10 => self.store_and_read(),
            _ => self.fresh_and_show(),
        }
    }

    fn set_and_show_waits(&mut self) {
        self.set_waits();
        self.show_full();
        if self.random.chance(30) {
            self.store_and_read();
        }
    }

    /// "N over 255 is `error`", cut to fewer bits or not; and the numbers just below.
    fn wrong_waits(&mut self) {
        let numbers = [
            254,
            255,
            256,
            256,
            257,
            511,
            0x1_0000,
            0xFFFF_FFFF,
            0x1_0000_0000,
            0x1_0000_0001,
            u64::MAX,
        ];
        let number = self.random.pick(&numbers);
        self.say_waits(number);
        self.show_full();
    }

    /// "when idle": a service may be open already, or one is begun.
    fn waits_in_service(&mut self) {
        if !self.controller().in_service() {
            self.say(&[Name("grant")]);
        }
        if self.random.chance(30) {
            self.wrong_waits();
        } else {
            self.set_waits();
        }
        if self.random.chance(50) {
            self.run();
        }
    }

    /// A broken state, idle or in service: refusal 1 comes before 3.
    fn waits_while_broken(&mut self) {
        let mut state = values::state(&mut self.random, false);
        values::break_range(&mut self.random, &mut state);
        state.edition = state.edition.max(self.some_edition());
        state.waits = self.some_waits();
        self.say_state(state);
        self.set_waits();
        self.show_full();
        if self.random.chance(50) {
            self.store_and_read();
        }
    }

    fn fresh_and_show(&mut self) {
        self.fresh();
        self.show_full();
    }

    /// "a long round now passes 32 bits": the same 65,536 places copied again and again. It goes
    /// beyond this script's budget of transfers, which is left as it is.
    pub fn wide_round(&mut self) {
        let budget = self.budget;
        let (waits, services) = self.random.pick(&WIDE_ROUNDS);
        self.say_waits(waits);
        let mut plan = self.controller();
        plan.command = values::command(&mut self.random) & !DISABLE | PAIR;
        for number in 0..2 {
            let mode = values::mode(&mut self.random) | AUTOINITIALIZE;
            self.plan_channel(&mut plan, number, mode);
        }
        plan.channels[1].base_count = 0xFFFF;
        plan.channels[1].current_count = 0xFFFF;
        plan.pins = values::pins_for(1, plan.command);
        plan.mask &= !1;
        plan.request = 0;
        self.reach(plan);
        self.poke_near(plan.channels[0].current_address);
        self.say(&[Name("round"), Number(services)]);
        self.budget = budget;
    }
}
