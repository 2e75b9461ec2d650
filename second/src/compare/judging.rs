//! Scenes that lead to `judge`: services opened, and their logs, honest or damaged.

use super::logs::{change, damage};
use super::values;
use super::writer::{Hex, Name, Number, Writer};
use crate::protocol::to_hex;
use crate::record::{LAST, RECORD_LENGTH, TC};
use crate::state::{Controller, Mode, MEMORY_LENGTH};

const PAIR: u8 = 1;
const DISABLE: u8 = 4;
const BLOCK: u8 = 0x80;
const CASCADE: u8 = 0xC0;
/// From this budget on, some logs have thousands of records.
const BUDGET_FOR_LONG_LOGS: u64 = 10_000;
/// Every so many scripts, one has a log of thousands of records.
const BETWEEN_LONG_LOGS: u64 = 250;
/// "A line may be as long as 200,000 characters": so many records and a cut one of 5 bytes.
const MOST_RECORDS: u64 = 12_499;
const MOST_BYTES_BEHIND: u64 = 5;

/// Is this script one of those? The first hundred aren't: most faults need none.
pub fn has_a_long_log(number: u64) -> bool {
    number % BETWEEN_LONG_LOGS == BETWEEN_LONG_LOGS / 2
}

impl Writer {
    /// A service, its log, and a look at what the log made of it.
    pub fn scene_of_a_log(&mut self) {
        match self.random.weighted(&[48, 12, 10, 12, 12]) {
            0 => {
                self.open_for_a_log();
                self.judge_open_service();
            }
            1 => self.count_of_n_read_as_n(),
            2 => self.line_dropped_between(),
            3 => self.log_without_transfers(),
            _ => self.refused_log(),
        }
        self.look_after_log();
    }

    /// A run most often, or a log of the service that was just begun.
    pub fn run_or_judge(&mut self) {
        if self.random.chance(80) || self.on_board() || !self.controller().in_service() {
            return self.run();
        }
        self.judge_open_service();
    }

    /// A log of the open service: honest, in one part or several, or damaged.
    pub fn judge_open_service(&mut self) {
        let open = self.controller();
        let honest = self.honest_log(able(open));
        match self.random.below(10) {
            0..=1 => self.judge_all(&honest),
            2..=3 => self.judge_in_parts(&honest),
            _ => self.judge_damaged(&honest),
        }
    }

    /// Any log in any state, as one of the operations that are most often refused.
    pub fn judge_something(&mut self) {
        let pretended = self.pretended();
        let log = self.honest_log(pretended);
        self.judge_all(&log);
    }

    fn judge_all(&mut self, log: &[u8]) {
        self.say(&[Name("judge"), Hex(log.to_vec())]);
    }

    /// One `judge` after another, with something between them now and then; then more bytes.
    fn judge_in_parts(&mut self, log: &[u8]) {
        let mut left = log;
        while !left.is_empty() {
            let records = (left.len() / RECORD_LENGTH) as u64;
            let first = self.random.between(1, records.min(20).max(records / 3)) as usize;
            let (part, rest) = left.split_at(first * RECORD_LENGTH);
            self.judge_all(part);
            left = rest;
            self.between_parts();
        }
        if self.random.chance(40) {
            let mut more = Vec::new();
            damage(&mut self.random, &mut more);
            self.judge_all(&more);
        }
    }

    fn between_parts(&mut self) {
        match self.random.below(20) {
            0..=1 => self.show_full(),
            2 => self.pins(),
            3 => self.say(&[Name("run"), Number(1), Number(0)]),
            4 => self.judge_all(&[]),
            5 => self.poke_source_of_log(),
            _ => {}
        }
    }

    /// A log with one thing wrong, or two; then, now and then, the rest again, put right.
    fn judge_damaged(&mut self, honest: &[u8]) {
        let mut log = honest.to_vec();
        for _ in 0..self.random.pick(&[1, 1, 1, 1, 2]) {
            damage(&mut self.random, &mut log);
        }
        self.judge_all(&log);
        self.judge_rest_again(honest);
    }

    fn judge_rest_again(&mut self, honest: &[u8]) {
        let rest = self.place_of_wrong().and_then(|at| honest.get(at..));
        if self.random.chance(25) {
            self.show_full();
        }
        match rest {
            Some(rest) if self.random.chance(50) => self.judge_all(rest),
            _ => {}
        }
    }

    /// The place that the last answer told, if it was a wrong log's.
    fn place_of_wrong(&self) -> Option<usize> {
        let answer = self.lines.last()?.answer.as_deref()?;
        let rest = answer.strip_prefix("wrong at=")?;
        rest.split(' ').next()?.parse().ok()
    }

    fn look_after_log(&mut self) {
        match self.random.below(10) {
            0..=3 => self.show_full(),
            4 => self.run(),
            5 => self.say(&[Name("read"), Number(8)]),
            _ => {}
        }
    }

    /// An open service of any kind, most often one that can go on.
    fn open_for_a_log(&mut self) {
        let open = self.state_to_judge();
        self.say_state(open);
        if self.random.chance(70) {
            self.poke_source_of_log();
        }
    }

    /// Random bytes where the open service reads or writes next.
    fn poke_source_of_log(&mut self) {
        let now = self.controller();
        self.poke_near(now.channels[usize::from(now.serving & 3)].current_address);
    }

    fn state_to_judge(&mut self) -> Controller {
        let mut open = self.some_state();
        if !open.in_service() {
            values::open_service(&mut self.random, &mut open);
        }
        if self.random.chance(35) {
            open.serving = 0;
            open.command |= PAIR;
        }
        open.command &= !DISABLE;
        if self.random.chance(15) {
            open.command |= DISABLE;
        }
        if self.random.chance(85) {
            open = able(open);
        }
        let count = &mut open.channels[open.counting_channel()].current_count;
        if self.budget >= BUDGET_FOR_LONG_LOGS && self.random.chance(8) {
            *count = self.random.between(250, 4_000) as u16;
        } else if *count > 60 && self.random.chance(75) {
            *count = self.random.below(13) as u16;
        }
        open
    }

    /// The log of this service as the model's own run makes it, whole or stopped early, by EOP too.
    fn honest_log(&mut self, open: Controller) -> Vec<u8> {
        let count = open.channels[open.counting_channel()].current_count;
        let length = self.length_of_log(u64::from(count) + 1);
        let eop = match self.random.below(12) {
            0 => 1,
            1..=2 => length,
            3..=4 => self.random.between(1, length.max(1)),
            _ => 0,
        };
        self.log_of(open, length, eop)
    }

    /// The first records of this service's log, with EOP at one of them or none.
    fn log_of(&mut self, open: Controller, length: u64, eop: u64) -> Vec<u8> {
        let input = self.random.bytes(length as usize);
        let mut memory = self.console.memory[..MEMORY_LENGTH].to_vec();
        let recorded = open.recorded_run(&mut memory, &input, length as u32, eop as u32);
        recorded.map_or(Vec::new(), |(.., log)| log)
    }

    /// So many records at most: all up to TC, if they are few, or fewer.
    fn length_of_log(&mut self, most: u64) -> u64 {
        let long = self.budget >= BUDGET_FOR_LONG_LOGS && self.random.chance(40);
        let cap = if long { self.random.between(300, 5_000) } else { self.random.between(1, 64) };
        let whole = most.min(cap);
        match self.random.below(10) {
            0 => whole - 1,
            1 => self.random.below(whole + 1),
            2 => whole.min(1),
            _ => whole,
        }
    }

    /// The present state as if a service were open in it and could go on.
    fn pretended(&mut self) -> Controller {
        let mut open = self.controller();
        open.in_service = 1;
        if !open.ranges_hold() {
            open = values::state(&mut self.random, false);
            open.in_service = 1;
        }
        able(open)
    }

    /// A vendor that reads a count of N as N transfers and flags the N-th as the last: 05h.
    fn count_of_n_read_as_n(&mut self) {
        let mut open = able(self.state_to_judge());
        let any = self.random.between(2, 40);
        let count = self.random.pick(&[1, 2, 10, 11, 12, any, any]);
        open.channels[open.counting_channel()].current_count = count as u16;
        self.say(&[Name("full"), Hex(open.full().to_vec())]);
        let honest = self.log_of(open, count, 0);
        let mut log = honest.clone();
        let last = (log.len() / RECORD_LENGTH).saturating_sub(1);
        change(&mut log, last, |record| record.flags = TC | LAST);
        self.judge_all(&log);
        self.judge_rest_again(&honest);
    }

    /// A demand service whose line goes in the middle of its log, and comes back or not.
    fn line_dropped_between(&mut self) {
        let mut open = self.state_to_judge();
        let serving = self.random.below(4) as u8;
        open.serving = serving;
        open.command &= !PAIR | self.random.pick(&[0, 0, 0, PAIR]);
        let channel = &mut open.channels[usize::from(serving)];
        channel.mode &= !CASCADE;
        channel.current_count = self.random.between(1, 20) as u16;
        let open = able(open);
        self.say(&[Name("full"), Hex(open.full().to_vec())]);
        let log = self.honest_log(open);
        let records = (log.len() / RECORD_LENGTH) as u64;
        let (first, rest) = log.split_at(self.random.below(records + 1) as usize * RECORD_LENGTH);
        self.judge_all(first);
        let levels = [open.pins ^ 1 << serving, open.pins];
        for level in levels {
            self.say(&[Name("pins"), Number(u64::from(level))]);
            self.judge_all(rest);
            if self.random.chance(40) {
                return;
            }
        }
    }

    /// "one where the rules make no transfer (line dropped, cascade)": a log as if there were some.
    fn log_without_transfers(&mut self) {
        let mut open = self.state_to_judge();
        open.serving = self.random.below(4) as u8;
        open.command &= !PAIR | self.random.pick(&[0, 0, 0, PAIR]);
        let number = usize::from(open.serving);
        let kind = self.random.pick(&[0, CASCADE]);
        open.channels[number].mode = open.channels[number].mode & !CASCADE | kind;
        if kind == 0 || self.random.chance(30) {
            let others = self.random.below(16) as u8 & !(1 << open.serving);
            open.pins = values::pins_for(others, open.command);
        }
        self.say_state(open);
        let log = match self.random.below(5) {
            0 => Vec::new(),
            _ => self.honest_log(able(open)),
        };
        self.judge_all(&log);
        if self.random.chance(50) {
            self.show_full();
        }
    }

    /// Refusals 1, 7 and 8, alone and together; then, most often, with the whole memory again.
    fn refused_log(&mut self) {
        let mut state = self.state_to_judge();
        if self.random.chance(40) {
            state = state.with_service_ended();
        }
        if self.random.chance(40) {
            values::break_range(&mut self.random, &mut state);
        }
        self.say_state(state);
        let lent = self.random.pick(&[65_535, 65_537, 65_537, 65_536, 0, 1]);
        if self.random.chance(60) {
            self.say(&[Name("memory"), Number(lent)]);
        }
        self.judge_something();
        if self.random.chance(80) {
            self.say(&[Name("memory"), Number(65_536)]);
        }
        if self.random.chance(30) {
            self.judge_something();
        }
    }

    /// Thousands of records, up to the most that a line can hold. It goes beyond this script's
    /// budget of transfers, which is left as it is.
    pub fn long_log(&mut self) {
        let budget = self.budget;
        let mut open = able(self.state_to_judge());
        let channel = &mut open.channels[usize::from(open.serving)];
        channel.mode = channel.mode & !CASCADE | BLOCK;
        let records = self.random.pick(&[4_096, 8_193, MOST_RECORDS - 1, MOST_RECORDS]);
        let count = self.random.pick(&[0xFFFF, records - 1, records, records - 2]);
        open.channels[open.counting_channel()].current_count = count as u16;
        self.say(&[Name("full"), Hex(open.full().to_vec())]);
        self.poke_source_of_log();
        let mut log = self.log_of(open, records, 0);
        if self.random.chance(50) && !log.is_empty() {
            damage(&mut self.random, &mut log);
        }
        let behind = self.random.below(MOST_BYTES_BEHIND + 1) as usize;
        log.truncate(MOST_RECORDS as usize * RECORD_LENGTH);
        log.extend(self.random.bytes(behind));
        self.say_plainly(&format!("judge {}", to_hex(&log)));
        self.budget = budget;
    }
}

/// The same service, open and with its next transfer to come: not of a cascade channel, and with
/// its line active, but for memory-to-memory, which needs neither.
fn able(mut open: Controller) -> Controller {
    open.in_service = 1;
    if open.is_memory_to_memory() {
        return open;
    }
    let number = usize::from(open.serving & 3);
    let channel = &mut open.channels[number];
    if channel.kind() == Mode::Cascade {
        channel.mode = channel.mode & !CASCADE | BLOCK;
    }
    if channel.mode & 0x0C == 0x0C {
        channel.mode &= !0x0C;
    }
    let line = 1 << number;
    let active = values::pins_for(line, open.command) & line;
    open.pins = open.pins & !line | active;
    open
}
