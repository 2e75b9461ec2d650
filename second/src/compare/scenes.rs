//! What a script does: single commands and short scenes, chosen by what the live model is doing.

use super::judging::has_a_long_log;
use super::random::Random;
use super::values;
use super::waiting::has_a_wide_round;
use super::writer::{Hex, Name, Number, Script, Writer};
use crate::board::Board;
use crate::protocol::to_hex;
use crate::state::{Channel, Controller, Mode, Type};

/// A budget of transfers from here on makes a script a heavy one.
const HEAVY: u64 = 100_000;

/// Script `number` of a seed.
pub fn write_script(seed: u64, number: u64, odd: bool) -> Script {
    if number >= FIRST_LONG {
        return write_long_script(number);
    }
    let mut writer = Writer::new(Random::new(seed, number), odd);
    writer.write_body(number);
    writer.write_end();
    writer.finish(number)
}

impl Writer {
    fn write_body(&mut self, number: u64) {
        self.budget = [2_500, 15_000, 210_000][self.random.weighted(&[80, 14, 6])];
        let mut length = self.random.between(6, 60) as usize;
        if !has_a_long_log(number) {
            self.choose_subject(number);
        }
        if self.on_board() {
            length += 30;
        }
        self.choose_editions();
        self.choose_waits();
        if has_a_wide_round(number) {
            self.wide_round();
        }
        if has_a_long_log(number) {
            self.long_log();
        }
        if self.on_board() {
            self.open_board_script();
        }
        if self.random.chance(70) {
            self.prepare_memory_and_device();
        }
        if self.random.below(150) == 0 {
            self.long_line();
        }
        while self.lines.len() < length {
            match self.on_board() {
                true => self.board_step(),
                false => self.step(),
            }
        }
    }

    pub fn heavy(&self) -> bool {
        self.budget >= HEAVY
    }

    /// One command or one scene.
    pub fn step(&mut self) {
        if self.random.chance(7) {
            return self.aside();
        }
        if self.console.lent != 65_536 && self.random.chance(40) {
            return self.say(&[Name("memory"), Number(65_536)]);
        }
        if self.has_lost_its_edition() && self.random.chance(25) {
            return self.change_edition();
        }
        if self.has_lost_its_waits() && self.random.chance(25) {
            return self.set_waits();
        }
        if !self.controller().ranges_hold() {
            self.step_while_broken()
        } else if self.controller().in_service() {
            self.step_in_service()
        } else {
            self.step_idle()
        }
    }

    fn step_while_broken(&mut self) {
        match self.random.below(10) {
            0..=3 => self.any_operation(),
            4 => self.fresh(),
            5 => self.load(),
            6 => self.convert(),
            _ => self.set_state(),
        }
    }

    fn step_in_service(&mut self) {
        // A cascade service only waits for its line to go.
        let run = if self.stays_in_cascade() { 15 } else { 55 };
        match self.random.weighted(&[run, 18, 10, 4, 3, 3, 8, 2, 3, 1, 2, 2, 3, 3, 6, 12]) {
            0 => self.run(),
            1 => self.pins(),
            2 => self.device(),
            3 => self.set_state(),
            4 => self.sheet(),
            5 => self.load(),
            6 => self.any_operation(),
            7 => self.say(&[Name("reset")]),
            8 => self.look_or_poke(),
            9 => self.set_broken_state(),
            10 => self.lend_memory(),
            11 => self.clear_mask(),
            12 => self.scene_of_editions(),
            13 => self.scene_of_waits(),
            14 => self.scene_of_sheets(),
            _ => self.judge_open_service(),
        }
    }

    fn stays_in_cascade(&self) -> bool {
        let now = self.controller();
        let number = usize::from(now.serving & 3);
        now.channels[number].kind() == Mode::Cascade && !self.serves_a_pair()
    }

    fn step_idle(&mut self) {
        let scenes = [22, 13, 18, 16];
        let others = [3, 6, 15, 8, 10, 6, 10, 2, 2, 4, 3, 5, 2, 6, 1, 14, 8, 8, 20, 34];
        match self.random.weighted(&[&scenes[..], &others[..]].concat()) {
            0 => self.scene_of_one_service(),
            1 => self.scene_of_memory_to_memory(),
            2 => self.scene_of_a_pattern(),
            3 => self.scene_of_a_round(),
            4 => self.program_channel(),
            5 => self.pins(),
            6 => self.write_some_register(),
            7 => self.read_some_register(),
            8 => self.say(&[Name("grant")]),
            9 => self.round(),
            10 => self.set_state(),
            11 => self.set_broken_state(),
            12 => self.sheet(),
            13 => self.load(),
            14 => self.device(),
            15 => self.look_or_poke(),
            16 => self.lend_memory(),
            17 => self.any_operation(),
            18 => self.read_everything(),
            19 => self.scene_of_editions(),
            20 => self.scene_of_eop(),
            21 => self.scene_of_waits(),
            22 => self.scene_of_sheets(),
            _ => self.scene_of_a_log(),
        }
    }

    /// Things that are no operation of the controller.
    pub fn aside(&mut self) {
        match self.random.below(10) {
            0..=5 => self.faulty_line(),
            6..=7 => self.blank_line(),
            8 if self.random.chance(10) => self.full_device(),
            8 => self.show_state(),
            _ if self.odd => self.odd_line(),
            _ => self.look_or_poke(),
        }
    }

    /// Any operation, whatever the state: most are refused.
    pub fn any_operation(&mut self) {
        match self.random.below(13) {
            0 => self.write_some_register(),
            1 => self.read_some_register(),
            2 => self.pins(),
            3 => self.say(&[Name("reset")]),
            4 => self.say(&[Name("grant")]),
            5 => self.run(),
            6 => self.round(),
            7 => self.sheet(),
            8 => self.master_clear(),
            9 => self.set_waits(),
            10 if !self.on_board() => self.convert(),
            11 if !self.on_board() => self.judge_something(),
            11 => self.refused_in_several_ways(),
            _ => self.fresh(),
        }
    }

    fn some_address(&mut self) -> u16 {
        let now = self.controller();
        values::address(&mut self.random, &now)
    }

    pub fn write(&mut self, register: u64, byte: u8) {
        self.say(&[Name("write"), Number(register), Number(u64::from(byte))]);
    }

    pub fn master_clear(&mut self) {
        let byte = self.random.byte();
        self.write(0xD, byte);
    }

    pub fn write_some_register(&mut self) {
        let channel = self.random.below(4) as u8;
        let bit = channel | (self.random.below(2) as u8) << 2;
        let byte = self.random.byte();
        match self.random.weighted(&[24, 15, 15, 11, 20, 6, 1, 3, 7, 3]) {
            0 => {
                let register = self.random.below(8);
                self.write(register, byte)
            }
            1 => self.write_command(),
            2 => self.write(9, bit | byte & 0xF0),
            3 => self.write(0xA, bit | byte & 0xF8),
            4 => {
                let mode = values::mode_to_write(&mut self.random);
                self.write(0xB, mode)
            }
            5 => self.write(0xC, byte),
            6 => self.write(0xD, byte),
            7 => self.clear_mask(),
            8 => self.write(0xF, byte),
            _ => {
                let register = self.random.pick(&[15, 16, 17, 24, 255, 256, 0xFFFF_FFFF]);
                self.write(register, byte)
            }
        }
    }

    pub fn write_command(&mut self) {
        let command = values::command(&mut self.random);
        self.write(8, command);
        // A disabled chip still shows who requests.
        if command & 4 != 0 && self.random.chance(60) {
            self.say(&[Name("read"), Number(8)]);
        }
    }

    pub fn read_some_register(&mut self) {
        let register = match self.random.weighted(&[50, 25, 10, 10, 5]) {
            0 => self.random.below(8),
            1 => 8,
            2 => 0xD,
            3 => self.random.pick(&[9, 0xA, 0xB, 0xC, 0xE, 0xF]),
            _ => self.random.pick(&[15, 16, 17, 0x18, 0x100, 0xFFFF_FFFF]),
        };
        self.say(&[Name("read"), Number(register)]);
    }

    pub fn pins(&mut self) {
        let now = self.controller();
        let levels = match self.random.below(12) {
            0 => self.random.pick(&[16, 17, 0x80, 0x100, 0x1_0000, 0xFFFF_FFFF]),
            1..=5 => {
                let active = self.random.below(16) as u8;
                u64::from(values::pins_for(active, now.command))
            }
            6..=9 if now.in_service() => u64::from(now.pins & 15 ^ 1 << (now.serving & 3)),
            _ => self.random.below(16),
        };
        self.say(&[Name("pins"), Number(levels)]);
    }

    /// A channel anew: address, count, mode; base and current equal.
    pub fn plan_channel(&mut self, plan: &mut Controller, number: usize, mode: u8) {
        let heavy = self.heavy();
        let address = values::address(&mut self.random, plan);
        let count = values::count(&mut self.random, heavy);
        plan.channels[number] = Channel {
            base_address: address,
            current_address: address,
            base_count: count,
            current_count: count,
            mode,
        };
    }

    pub fn program_channel(&mut self) {
        let number = self.random.below(4) as usize;
        let mode = values::mode(&mut self.random);
        let mut plan = self.controller();
        self.plan_channel(&mut plan, number, mode);
        self.program(number, plan.channels[number]);
    }

    /// Address, count and mode by registers, mostly from a cleared flip-flop.
    fn program(&mut self, number: usize, channel: Channel) {
        if self.random.chance(80) {
            self.write(0xC, 0);
        }
        for byte in channel.current_address.to_le_bytes() {
            self.write(2 * number as u64, byte);
        }
        for byte in channel.current_count.to_le_bytes() {
            self.write(2 * number as u64 + 1, byte);
        }
        self.write(0xB, channel.mode | number as u8);
    }

    /// Bring the controller to the plan, by one `state` or by the registers a driver would use.
    pub fn reach(&mut self, plan: Controller) {
        if self.random.chance(60) {
            return self.say_state(plan);
        }
        let now = self.controller();
        if plan.command != now.command {
            self.write(8, plan.command);
        }
        for number in 0..4 {
            if plan.channels[number] != now.channels[number] {
                self.program(number, plan.channels[number]);
            }
            let bit = 1 << number;
            if plan.request & bit != now.request & bit {
                self.write(9, number as u8 | (plan.request >> number & 1) << 2);
            }
        }
        if plan.mask != now.mask {
            self.write(0xF, plan.mask);
        }
        if plan.pins != now.pins {
            self.say(&[Name("pins"), Number(u64::from(plan.pins))]);
        }
    }

    /// Set up one channel, ask for service by line or by software, and begin it.
    pub fn scene_of_one_service(&mut self) {
        let mut plan = self.controller();
        if self.random.chance(50) {
            plan.command = values::command(&mut self.random);
        }
        let number = self.random.below(4) as usize;
        let mode = values::mode(&mut self.random);
        self.plan_channel(&mut plan, number, mode);
        if self.random.chance(60) {
            let others = self.random.below(16) as u8 & self.random.below(16) as u8;
            plan.pins = values::pins_for(1 << number | others, plan.command);
            plan.mask &= !(1 << number);
        } else {
            plan.request |= 1 << number;
        }
        self.reach(plan);
        self.provide_for(number);
        self.say(&[Name("grant")]);
        self.run_or_judge();
    }

    /// Bytes or room about as many as the channel's count asks for.
    pub fn provide_for(&mut self, number: usize) {
        let channel = self.controller().channels[number];
        let wanted = self.near(u64::from(channel.current_count) + 1);
        match channel.transfer_type() {
            Type::Write => self.feed_about(wanted),
            Type::Read => {
                self.poke_near(channel.current_address);
                self.new_room(wanted)
            }
            _ => {}
        }
    }

    fn near(&mut self, number: u64) -> u64 {
        match self.random.below(8) {
            0 => number.saturating_sub(1),
            1 => number + 1,
            2 => number / 2,
            3 => number + 7,
            4 => 0,
            _ => number,
        }
    }

    pub fn scene_of_a_round(&mut self) {
        let mut plan = self.controller();
        if self.random.chance(60) {
            plan.command = values::command(&mut self.random);
        }
        let active = self.random.below(16) as u8;
        for number in 0..4 {
            if self.random.chance(50) {
                let mode = values::mode(&mut self.random);
                self.plan_channel(&mut plan, number, mode);
            }
        }
        plan.pins = values::pins_for(active, plan.command);
        plan.mask = self.random.below(16) as u8 & self.random.below(16) as u8;
        if self.random.chance(30) {
            plan.request = self.random.below(16) as u8;
        }
        self.reach(plan);
        let length = self.random.below(200);
        self.feed_about(length);
        let length = self.random.below(200);
        self.new_room(length);
        self.round();
    }

    /// Every register a driver can read.
    pub fn read_everything(&mut self) {
        for register in 0..8 {
            for _ in 0..2 {
                self.say(&[Name("read"), Number(register)]);
            }
        }
        self.say(&[Name("read"), Number(8)]);
        self.say(&[Name("read"), Number(0xD)]);
    }

    pub fn round(&mut self) {
        let mut k = match self.random.below(12) {
            0 => 0,
            1 => 1,
            2 => 4_096,
            3 => 4_097,
            4 => self.random.pick(&[4_095, 5_000, 0x1_0000, 0xFFFF_FFFF]),
            5 => self.random.between(13, 300),
            _ => self.random.between(2, 12),
        };
        while k > 0 && k <= 4_096 && self.round_cost(k) > self.budget {
            k /= 2;
        }
        self.say(&[Name("round"), Number(k)]);
    }

    /// At most so many transfers would a round of k services make.
    fn round_cost(&self, k: u64) -> u64 {
        let mut first = 0;
        let mut again = 1;
        for now in self.chips_of_a_round() {
            let (all, most) = self.cost_of_chip(now);
            first += all;
            again = again.max(most);
        }
        first + k * again
    }

    /// The controller, or both chips of the board; none where a round is refused.
    fn chips_of_a_round(&self) -> Vec<Controller> {
        let (chips, refused) = match self.on_board() {
            true => (self.board().chips.to_vec(), self.board().refuse_broken().is_err()),
            false => (vec![self.controller()], !self.controller().ranges_hold()),
        };
        if refused || chips.iter().any(|chip| chip.in_service()) {
            return Vec::new();
        }
        chips
    }

    /// The transfers of one service of each channel, and the most of a later one.
    fn cost_of_chip(&self, now: Controller) -> (u64, u64) {
        let mut first = 0;
        let mut again = 1;
        for number in (0..4).filter(|&number| now.is_entitled(number)) {
            let channel = now.channels[number];
            if number == 0 && now.command & 1 != 0 {
                // Channel 0 stays entitled by its line; channel 1 goes on from its base or FFFFh.
                let other = now.channels[1];
                first += u64::from(other.current_count) + 1;
                let next = if other.autoinitializes() { other.base_count } else { 0xFFFF };
                again = again.max(u64::from(next) + 1);
            } else if channel.kind() != Mode::Single {
                let device = self.device_end(channel);
                first += device.min(u64::from(channel.current_count) + 1);
                if channel.autoinitializes() {
                    again = again.max(device.min(u64::from(channel.base_count) + 1));
                }
            }
        }
        (first, again)
    }

    /// How many transfers the queue or the room allows this channel.
    fn device_end(&self, channel: Channel) -> u64 {
        match channel.transfer_type() {
            Type::Write => self.console.queue.len() as u64,
            Type::Read => (self.console.room.len() - self.console.position) as u64,
            _ => u64::MAX,
        }
    }

    pub fn run(&mut self) {
        let (most, device) = self.transfers_to_tc();
        let aim = self.aim(most);
        let mut limit = self.limit(aim);
        let aim = self.aim(most);
        let eop = self.eop(aim, limit);
        let eop_end = if eop == 0 { u64::MAX } else { eop };
        if most.min(limit).min(eop_end).min(device) > self.budget {
            let little = self.budget.min(50);
            limit = self.random.below(little + 1);
        }
        self.say(&[Name("run"), Number(limit), Number(eop)]);
        if eop != 0 && self.controller().is_intel() && self.random.chance(20) {
            self.show_full();
        }
    }

    /// Limits and EOP fall near TC; in memory-to-memory, where channel 0's count passes 0 as well;
    /// in single mode, at the only transfer.
    fn aim(&mut self, most: u64) -> u64 {
        if !self.random.chance(40) {
            return most;
        }
        let now = self.controller();
        if self.serves_a_pair() {
            return self.transfers_to_a_passing();
        }
        match now.channels[usize::from(now.serving & 3)].kind() {
            Mode::Single => 1,
            _ => most,
        }
    }

    /// How far the serving channel is from TC, and how far the device goes with it.
    pub fn transfers_to_tc(&self) -> (u64, u64) {
        let now = self.controller();
        let number = usize::from(now.serving & 3);
        if self.serves_a_pair() {
            return (u64::from(now.channels[1].current_count) + 1, u64::MAX);
        }
        let channel = now.channels[number];
        (u64::from(channel.current_count) + 1, self.device_end(channel))
    }

    fn limit(&mut self, most: u64) -> u64 {
        match self.random.below(20) {
            0..=1 => 0,
            2..=3 => 1,
            4 => most - 1,
            5 => most,
            6 => most + 1,
            7..=8 => most / 2,
            9..=11 => self.random.between(2, 9),
            12 => self.random.pick(&[65_535, 65_536, 65_537]),
            13 => 0xFFFF_FFFF,
            _ => most + self.random.below(50),
        }
    }

    fn eop(&mut self, most: u64, limit: u64) -> u64 {
        // In the Intel edition, more often one.
        let first = if self.controller().is_intel() { 6 } else { 0 };
        match self.random.between(first, 23) {
            0..=10 => 0,
            12 => 1,
            13 => 2,
            14 => most - 1,
            15..=17 => most,
            11 => most + 1,
            18 => most / 2,
            19 => limit,
            20 => (limit + 1).min(0xFFFF_FFFF),
            21 => 0xFFFF_FFFF,
            _ => self.random.between(1, 12),
        }
    }

    pub fn set_state(&mut self) {
        let state = self.some_state();
        self.say_state(state);
    }

    /// A state made anew, in an edition and with waits of this script's.
    pub fn some_state(&mut self) -> Controller {
        let heavy = self.heavy();
        let state = values::state(&mut self.random, heavy);
        Controller { edition: self.some_edition(), waits: self.some_waits(), ..state }
    }

    fn set_broken_state(&mut self) {
        let mut state = self.controller();
        if self.random.chance(50) {
            state = self.some_state();
        }
        for _ in 0..self.random.between(1, 2) {
            values::break_range(&mut self.random, &mut state);
        }
        self.say_state(state);
        for _ in 0..self.random.below(4) {
            self.any_operation();
        }
        if self.random.chance(25) {
            self.sheet();
        }
    }

    pub fn lend_memory(&mut self) {
        let length = self.random.pick(&[65_535, 65_537, 65_536, 0, 1, 256, 32_768, 65_538]);
        self.say(&[Name("memory"), Number(length)]);
        if self.random.chance(70) {
            self.run_or_round();
        }
    }

    fn run_or_round(&mut self) {
        if self.random.chance(60) {
            return self.run();
        }
        self.round();
    }

    pub fn prepare_memory_and_device(&mut self) {
        for _ in 0..self.random.between(1, 3) {
            let address = self.some_address();
            self.poke_near(address);
        }
        let length = self.random.between(1, 70);
        self.feed_about(length);
        let length = self.random.between(1, 70);
        self.new_room(length);
    }

    /// Random bytes around an address, over the end of the array too.
    pub fn poke_near(&mut self, address: u16) {
        let before = self.random.below(20) as usize;
        let start = usize::from(address).saturating_sub(before);
        let length = self.random.between(1, 40) as usize;
        let bytes = self.random.bytes(length.min(65_537 - start));
        self.say(&[Name("poke"), Number(start as u64), Hex(bytes)]);
    }

    pub fn device(&mut self) {
        let channel = self.random.below(4) as usize;
        let length = match self.random.below(6) {
            0 => 0,
            1 => u64::from(self.controller().channels[channel].current_count) + 1,
            2 => self.random.between(1, 4),
            _ => self.random.between(1, 60),
        };
        if self.random.chance(50) {
            self.feed_about(length);
        } else {
            self.new_room(length);
        }
    }

    /// About so many bytes into the queue; long ones are one byte many times, most often.
    pub fn feed_about(&mut self, length: u64) {
        let length = if self.heavy() { length } else { length.min(400) };
        let long = length > 400 && self.random.chance(70);
        if long || self.random.chance(20) {
            let byte = u64::from(self.random.byte());
            return self.say(&[Name("fill"), Number(length), Number(byte)]);
        }
        let bytes = self.random.bytes(length as usize);
        self.say(&[Name("feed"), Hex(bytes)]);
    }

    pub fn new_room(&mut self, length: u64) {
        let length = if self.heavy() { length } else { length.min(400) };
        let byte = u64::from(self.random.byte());
        self.say(&[Name("room"), Number(length), Number(byte)]);
    }

    /// Look at memory or room, or change memory, at edges and beyond.
    pub fn look_or_poke(&mut self) {
        let address = self.some_address();
        let place = match self.random.below(6) {
            0 => self.random.pick(&[65_535, 65_536, 65_537, 65_538, 70_000, 0xFFFF_FFFF]),
            _ => u64::from(address),
        };
        let length = self.random.pick(&[0, 1, 1, 2, 3, 16, 40]);
        match self.random.below(4) {
            0 => {
                let bytes = self.random.bytes(length as usize);
                self.say(&[Name("poke"), Number(place), Hex(bytes)])
            }
            1 => {
                let room = self.console.room.len() as u64;
                let start = self.random.pick(&[0, room, room + 1, room / 2, room.max(1) - 1]);
                self.say(&[Name("out"), Number(start), Number(length)])
            }
            _ => self.say(&[Name("peek"), Number(place), Number(length)]),
        }
    }

    /// The queue and the room up to their most bytes, and beyond.
    fn full_device(&mut self) {
        let near = self.random.pick(&[69_999, 70_000, 70_001]);
        let byte = u64::from(self.random.byte());
        if self.random.chance(40) {
            return self.say(&[Name("room"), Number(near), Number(byte)]);
        }
        let length = u64::saturating_sub(near, self.console.queue.len() as u64);
        self.say(&[Name("fill"), Number(length), Number(byte)]);
        let more = self.random.pick(&[0, 1, 2]);
        let bytes = self.random.bytes(more);
        self.say(&[Name("feed"), Hex(bytes)]);
    }
}

/// Scripts from this number on are the long ones, a fixed few.
pub const FIRST_LONG: u64 = 1 << 40;
pub const LONG_SCRIPTS: u64 = 4;

/// Rounds of 4,096 services of 65,536 transfers: the greatest totals there are. In memory-to-memory
/// it is a short pattern that is laid again and again; the last two have the most waits, too, and
/// the very last is the board's, its chips in turns.
fn write_long_script(number: u64) -> Script {
    let mut writer = Writer::new(Random::new(0, 0), false);
    let mut state = Controller::fresh();
    state.mask = 0;
    state.pins = 1;
    state.command = u8::from(number != FIRST_LONG);
    state.waits = if number >= FIRST_LONG + 2 { 255 } else { 0 };
    for channel in &mut state.channels {
        channel.base_address = 1;
        channel.current_address = 1;
        channel.base_count = 0xFFFF;
        channel.current_count = 0xFFFF;
        channel.mode = 0x90;
    }
    state.channels[1].current_address = 0x8000;
    if state.command & 1 != 0 {
        state.channels[0].base_count = 4;
        state.channels[0].current_count = 2;
    }
    writer.say_plainly("poke 1 0102030405");
    if number == FIRST_LONG + 3 {
        let board = Board { last: 1, chips: [state; 2] };
        writer.say_plainly(&format!("b.state {}", to_hex(&board.bytes())));
        writer.say_plainly("b.round 4096");
    } else {
        writer.say_plainly(&format!("full {}", to_hex(&state.full())));
        writer.say_plainly("round 4096");
    }
    writer.write_end();
    writer.finish(number)
}
