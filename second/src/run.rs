//! A run of one service (document 01, "A run of one service", "Memory-to-memory" and "Working
//! states"; document 02, A1 to A3), one transfer at a time.

use crate::faults::{self, Fault};
use crate::state::{Channel, Controller, Mode, Refusal, Type, MEMORY_LENGTH};

/// How a run stops.
#[derive(Clone, Copy, Debug, PartialEq, Eq)]
pub enum Stop {
    Ended,
    Dropped,
    Cascade,
    Limit,
    Short,
}

impl Stop {
    pub fn word(self) -> &'static str {
        match self {
            Stop::Ended => "ended",
            Stop::Dropped => "dropped",
            Stop::Cascade => "cascade",
            Stop::Limit => "limit",
            Stop::Short => "short",
        }
    }
}

/// "With every stop the answer also gives transfers, device bytes used and written, and working
/// states."
#[derive(Clone, Copy, Debug, Default, PartialEq, Eq)]
pub struct Tally {
    pub transfers: u64,
    pub used: usize,
    pub written: usize,
    pub states: u64,
}

/// The device and the memory of one run: "memory, device bytes to read, device room to write".
struct Service<'a> {
    controller: Controller,
    memory: &'a mut [u8],
    input: &'a [u8],
    room: &'a mut [u8],
    tally: Tally,
    /// Only for the fault that copies overlapping places at once.
    copied: Option<Vec<u8>>,
    /// Only for the fault that restores channel 0 once a run.
    zero_restored: bool,
}

impl Controller {
    /// Run the open service. `eop` is "which transfer of this call, counted from 1, meets external
    /// EOP (0: none)". "run 1, 7, 8".
    pub fn run(
        self,
        memory: &mut [u8],
        input: &[u8],
        room: &mut [u8],
        limit: u32,
        eop: u32,
    ) -> Result<(Controller, Stop, Tally), Refusal> {
        self.refuse_broken()?;
        refuse_memory(memory)?;
        if !self.in_service() {
            return Err(Refusal::NoService);
        }
        let copied = faults::on(Fault::OverlapCopied).then(|| memory.to_vec());
        let tally = Tally::default();
        let mut service =
            Service { controller: self, memory, input, room, tally, copied, zero_restored: false };
        let stop = service.run(u64::from(limit), u64::from(eop));
        let mut next = service.controller;
        if faults::on(Fault::RotationAtEnd) {
            let cut_before = self.latch_full == 1;
            if self.is_rotating() && !next.in_service() && !cut_before {
                next.lowest = self.serving;
            }
        }
        if faults::on(Fault::EndClearsWaits) && !next.in_service() {
            next.waits = 0;
        }
        Ok((next, stop, service.tally))
    }

    /// "With command bit 0 set, a service of channel 0 is this, whatever its mode".
    pub fn is_memory_to_memory(self) -> bool {
        self.command & 1 != 0 && self.serving == 0
    }
}

/// "7: memory not of 65,536 bytes"
pub fn refuse_memory(memory: &[u8]) -> Result<(), Refusal> {
    let too_long_passes = faults::on(Fault::LongMemoryPasses) && memory.len() > MEMORY_LENGTH;
    if memory.len() != MEMORY_LENGTH && !too_long_passes {
        return Err(Refusal::MemoryLength);
    }
    Ok(())
}

impl Service<'_> {
    fn run(&mut self, limit: u64, eop: u64) -> Stop {
        loop {
            if let Some(stop) = self.stops_before_transfer(limit) {
                return stop;
            }
            let meets_eop = eop != 0 && self.tally.transfers + 1 == eop;
            if self.controller.is_memory_to_memory() {
                self.transfer_memory_to_memory(meets_eop);
            } else {
                self.transfer(meets_eop);
            }
            // "These ends are "ended"."
            if !self.controller.in_service() {
                return Stop::Ended;
            }
        }
    }

    /// "Before each transfer, in order"; in memory-to-memory "steps 1, 2 and 4 don't apply".
    fn stops_before_transfer(&mut self, limit: u64) -> Option<Stop> {
        let limit_reached = self.tally.transfers >= limit;
        if self.controller.is_memory_to_memory() && !self.pair_drops() {
            return limit_reached.then_some(Stop::Limit);
        }
        if faults::on(Fault::LimitFirst) && limit_reached {
            return Some(Stop::Limit);
        }
        let number = usize::from(self.controller.serving);
        let channel = self.controller.channels[number];
        let needs_line = matches!(channel.kind(), Mode::Demand | Mode::Cascade);
        // 1. "demand or cascade with the line inactive: service ends, "dropped""
        if needs_line && !self.controller.line_is_active(number) {
            self.controller = self.controller.with_service_ended();
            if faults::on(Fault::DropMasks) {
                self.controller.mask |= 1 << number;
            }
            return Some(Stop::Dropped);
        }
        // 2. "cascade: stop, "cascade"; service stays open, nothing moves"
        if channel.kind() == Mode::Cascade {
            return Some(Stop::Cascade);
        }
        if faults::on(Fault::ShortFirst) && self.is_short(channel) {
            return Some(Stop::Short);
        }
        // 3. "limit reached: stop, "limit"; service stays open"
        if limit_reached {
            return Some(Stop::Limit);
        }
        // 4. "... stop, "short"; service stays open."
        self.is_short(channel).then_some(Stop::Short)
    }

    /// "a write with no device byte left, or a read with no room left"
    fn is_short(&self, channel: Channel) -> bool {
        match channel.transfer_type() {
            Type::Write => self.tally.used == self.input.len(),
            Type::Read => self.tally.written == self.room.len(),
            _ => false,
        }
    }

    /// Never so, but for one of the faults.
    fn pair_drops(&self) -> bool {
        let demand = self.controller.channels[0].kind() == Mode::Demand;
        faults::on(Fault::PairDrops) && demand && !self.controller.line_is_active(0)
    }

    /// One transfer outside memory-to-memory.
    fn transfer(&mut self, meets_eop: bool) {
        let number = usize::from(self.controller.serving);
        let address = self.controller.channels[number].current_address;
        self.count_states(number, address);
        self.move_byte(number, address);
        if !(number == 0 && self.controller.command & 2 != 0 && faults::on(Fault::HoldAlways)) {
            self.step_address(number);
        }
        let tc = self.step_count(number);
        self.tally.transfers += 1;
        self.set_tc_bit(number, tc, meets_eop);
        if tc || meets_eop {
            self.controller = self.controller.with_service_ended();
            // "the request bit is cleared"
            self.controller.request &= !(1 << number);
            self.restore_or_mask(number);
        } else if self.is_single(number) {
            // "Outside memory-to-memory, a single service ends after each transfer in any case."
            self.controller = self.controller.with_service_ended();
            if self.controller.is_intel() && faults::on(Fault::IntelSingleSetsTc) {
                self.controller.tc |= 1 << number;
            }
        }
    }

    fn is_single(&self, number: usize) -> bool {
        let single = self.controller.channels[number].kind() == Mode::Single;
        single && !faults::on(Fault::SingleGoesOn)
    }

    /// "Normal transfer 3, compressed 2, plus 1 (state S1) when the latch is empty or differs from
    /// the upper address byte, which is then latched."
    fn count_states(&mut self, number: usize, address: u16) {
        let compressed = self.controller.command & 8 != 0 && !faults::on(Fault::NeverCompressed);
        let mut states = if compressed { 2 } else { 3 };
        let upper = (address >> 8) as u8;
        let empty = self.controller.latch_full == 0;
        let has_s1 = empty || self.controller.latch != upper;
        states += self.wait_states(number, has_s1);
        if has_s1 {
            if !(empty && faults::on(Fault::S1OnCarryOnly)) {
                states += 1;
            }
            self.controller.latch_full = 1;
            self.controller.latch = upper;
        }
        if faults::on(Fault::InventsState) {
            states += 1;
        }
        self.tally.states += states;
    }

    /// Document 02, A3: "Each transfer costs that many states more", whatever its type and timing.
    fn wait_states(&self, number: usize, has_s1: bool) -> u64 {
        let now = self.controller;
        let transfer = now.channels[number].transfer_type();
        let waits = u64::from(now.waits);
        match faults::chosen() {
            Some(Fault::WaitsForgotten) => 0,
            Some(Fault::VerifyHasNoWaits) if transfer == Type::Verify => 0,
            Some(Fault::WriteHasNoWaits) if transfer == Type::Write => 0,
            Some(Fault::ReadHasNoWaits) if transfer == Type::Read => 0,
            Some(Fault::CompressedHasNoWaits) if now.command & 8 != 0 => 0,
            Some(Fault::IntelHasNoWaits) if now.is_intel() => 0,
            Some(Fault::WaitsWithS1Only) if !has_s1 => 0,
            Some(Fault::FirstWaitsOnly) if self.tally.transfers > 0 => 0,
            Some(Fault::WaitsTwice) => 2 * waits,
            Some(Fault::WaitsOfSevenBits) => waits & 0x7F,
            _ => waits,
        }
    }

    /// "verify moves nothing; write stores the next device byte at the current address; read puts
    /// that memory byte in the next place of the room."
    fn move_byte(&mut self, number: usize, address: u16) {
        let place = usize::from(address);
        match self.controller.channels[number].transfer_type() {
            Type::Verify | Type::None => {}
            Type::Write => {
                if self.really_moves() {
                    self.memory[place] = self.input[self.tally.used];
                }
                self.tally.used += 1;
            }
            Type::Read => {
                if self.really_moves() {
                    self.room[self.tally.written] = self.memory[place];
                }
                self.tally.written += 1;
            }
        }
    }

    /// Always so, but for two of the faults.
    fn really_moves(&self) -> bool {
        let first = self.tally.transfers == 0;
        !faults::on(Fault::MovesNothing) && (first || !faults::on(Fault::MovesFirstOnly))
    }

    /// "The address steps by one up or down and wraps modulo 65,536."
    fn step_address(&mut self, number: usize) {
        let channel = &mut self.controller.channels[number];
        let address = channel.current_address;
        let stepped =
            if channel.decrements() { address.wrapping_sub(1) } else { address.wrapping_add(1) };
        channel.current_address = stepped;
        if faults::on(Fault::NoCarry) {
            channel.current_address = address & 0xFF00 | stepped & 0x00FF;
        }
    }

    /// "The count steps down; from 0 it becomes FFFFh, which is TC." True at TC.
    fn step_count(&mut self, number: usize) -> bool {
        let channel = &mut self.controller.channels[number];
        let before = channel.current_count;
        channel.current_count = before.wrapping_sub(1);
        if faults::on(Fault::StopsEarly) && before == 1 {
            return true;
        }
        before == 0
    }

    /// "TC sets the TC bit."
    fn set_tc_bit(&mut self, number: usize, tc: bool, meets_eop: bool) {
        if tc && meets_eop && faults::on(Fault::EopHidesTc) {
            return;
        }
        if tc {
            self.controller.tc |= 1 << number;
        }
        if meets_eop {
            self.controller.tc |= self.tc_bits_of_eop(number);
        }
    }

    /// "External EOP alone does not (000)." Document 02, A2, of the Intel edition: "external EOP
    /// sets the TC bit of the channel whose count is being run (channel 1 in memory-to-memory)",
    /// whatever its mode, with autoinitialize too.
    fn tc_bits_of_eop(&self, number: usize) -> u8 {
        let bit = if self.controller.is_intel() { 1 << number } else { 0 };
        let channel = self.controller.channels[number];
        let pair = self.controller.is_memory_to_memory();
        match faults::chosen() {
            Some(Fault::EopSetsTc) => 1 << number,
            Some(Fault::IntelEopKeepsTc) => 0,
            Some(Fault::IntelRestoreKeepsTc) if channel.autoinitializes() => 0,
            Some(Fault::IntelSingleKeepsTc) if !pair && channel.kind() == Mode::Single => 0,
            Some(Fault::IntelPairKeepsTc) if pair => 0,
            Some(Fault::IntelEopSetsZero) if pair => bit >> 1,
            Some(Fault::IntelEopSetsBoth) if pair => bit | bit >> 1,
            _ => bit,
        }
    }

    /// "the channel either restores current from base (autoinitialize) or sets its mask bit."
    fn restore_or_mask(&mut self, number: usize) {
        if self.controller.channels[number].autoinitializes() {
            self.restore(number);
        } else {
            self.controller.mask |= 1 << number;
        }
    }

    /// Current address and count from base.
    fn restore(&mut self, number: usize) {
        let channel = &mut self.controller.channels[number];
        if !faults::on(Fault::RestoreForgetsAddress) {
            channel.current_address = channel.base_address;
        }
        channel.current_count = channel.base_count;
    }

    /// "One transfer: byte at channel 0's address to the temporary byte, then to channel 1's
    /// address; both step as their mode bit 5 says, but channel 0 stays under command bit 1."
    fn transfer_memory_to_memory(&mut self, meets_eop: bool) {
        let from = usize::from(self.controller.channels[0].current_address);
        let to = usize::from(self.controller.channels[1].current_address);
        let source = self.copied.as_deref().unwrap_or(self.memory);
        self.controller.temporary = source[from];
        if self.really_moves() {
            self.memory[to] = self.controller.temporary;
        }
        if !self.is_held() {
            self.step_address(0);
        }
        self.step_address(1);
        // "Channel 1's count steps; its TC sets TC bit 1."
        let tc = self.step_count(1);
        let ends = tc || meets_eop;
        self.count_channel_zero(ends);
        self.tally.transfers += 1;
        self.count_pair_states(to);
        self.set_tc_bit(1, tc, meets_eop);
        let single = faults::on(Fault::SingleEndsPair) && self.is_single(0);
        if ends {
            self.end_memory_to_memory(tc, meets_eop);
        } else if single {
            self.controller = self.controller.with_service_ended();
        }
    }

    /// "channel 0 stays under command bit 1"
    fn is_held(&self) -> bool {
        self.controller.command & 2 != 0 && !faults::on(Fault::HoldIgnored)
    }

    /// Document 02, A1: "Channel 0's count steps down with every transfer, also under address hold.
    /// When it goes from 0 to FFFFh it neither ends the service nor sets TC bit 0, but restores
    /// channel 0's current registers if that channel has autoinitialize. On the same transfer the
    /// address steps first and the restore wins." The address has stepped before this is called.
    fn count_channel_zero(&mut self, ends: bool) {
        if self.zero_count_stays() {
            return;
        }
        let passes = self.step_count(0);
        if self.zero_is_restored(passes, ends) {
            self.restore_zero();
        }
        if passes {
            self.harm_at_passing();
        }
    }

    /// Never so, but for three of the faults.
    fn zero_count_stays(&self) -> bool {
        match faults::chosen() {
            Some(Fault::PairCountStays) => true,
            Some(Fault::HoldStopsCount) => self.is_held(),
            Some(Fault::ZeroCountStops) => self.controller.channels[0].current_count == 0xFFFF,
            _ => false,
        }
    }

    /// "if that channel has autoinitialize"; without it the count goes on from FFFFh. Whether this
    /// transfer also ends the service makes no difference.
    fn zero_is_restored(&self, passes: bool, ends: bool) -> bool {
        let [zero, one, ..] = self.controller.channels;
        let restored = passes && zero.autoinitializes();
        match faults::chosen() {
            Some(Fault::ZeroNeverRestores) => false,
            Some(Fault::ZeroAlwaysRestores) => passes,
            Some(Fault::ZeroRestoresByOne) => passes && one.autoinitializes(),
            Some(Fault::ZeroRestoresEarly) => zero.current_count == 0 && zero.autoinitializes(),
            Some(Fault::ZeroRestoresOnce) => restored && !self.zero_restored,
            Some(Fault::EndHidesRestore) => restored && !ends,
            _ => restored,
        }
    }

    /// Address and count, under hold too: from then on the base address is held.
    fn restore_zero(&mut self) {
        let before = self.controller.channels[0];
        let held = self.is_held();
        self.restore(0);
        self.zero_restored = true;
        let [zero, one, ..] = &mut self.controller.channels;
        match faults::chosen() {
            Some(Fault::ZeroRestoresAddressOnly) => zero.current_count = before.current_count,
            Some(Fault::ZeroRestoresCountOnly) => zero.current_address = before.current_address,
            Some(Fault::HoldKeepsAddress) if held => zero.current_address = before.current_address,
            Some(Fault::RestoredAddressSteps) if !held => self.step_address(0),
            Some(Fault::RestoredCountSteps) => {
                zero.current_count = zero.current_count.wrapping_sub(1)
            }
            Some(Fault::ZeroTakesOneBack) => one.current_address = one.base_address,
            _ => {}
        }
    }

    /// Nothing, but for four of the faults: channel 0's count passing 0 is no TC.
    fn harm_at_passing(&mut self) {
        match faults::chosen() {
            Some(Fault::ZeroSetsTc) => self.controller.tc |= 1,
            Some(Fault::ZeroMasks) if !self.controller.channels[0].autoinitializes() => {
                self.controller.mask |= 1
            }
            Some(Fault::ZeroClearsRequest) => self.controller.request &= !1,
            Some(Fault::ZeroEndsPair) => self.controller = self.controller.with_service_ended(),
            _ => {}
        }
    }

    /// "Memory-to-memory 8 always, latch unused." The waits come on top.
    fn count_pair_states(&mut self, to: usize) {
        let mut states = 8 + self.pair_wait_states();
        if faults::on(Fault::InventsState) {
            states += 1;
        }
        if faults::on(Fault::PairCompressed) && self.controller.command & 8 != 0 {
            states -= 2;
        }
        if faults::on(Fault::PairLatches) {
            self.controller.latch_full = 1;
            self.controller.latch = (to >> 8) as u8;
        }
        self.tally.states += states;
    }

    /// Document 02, A3: "memory-to-memory twice that", under address hold too.
    fn pair_wait_states(&self) -> u64 {
        let waits = u64::from(self.controller.waits);
        match faults::chosen() {
            Some(Fault::WaitsForgotten | Fault::PairHasNoWaits) => 0,
            Some(Fault::PairWaitsOnce) => waits,
            Some(Fault::HeldPairWaitsOnce) if self.is_held() => waits,
            Some(Fault::PairWaitsOfOneByte) => (2 * waits) & 0xFF,
            Some(Fault::IntelHasNoWaits) if self.controller.is_intel() => 0,
            _ => 2 * waits,
        }
    }

    /// "At TC or EOP the service ends, request bits 0 and 1 are cleared, and channel 1 restores or
    /// is masked by its own mode bit 4. Channel 0's count and mask bit aren't touched." Document
    /// 02, A1, overrules the last sentence as to the count, which steps with every transfer. At the
    /// end, channel 0 is still left alone: neither TC nor EOP restores or masks it.
    fn end_memory_to_memory(&mut self, tc: bool, meets_eop: bool) {
        self.controller = self.controller.with_service_ended();
        self.controller.request &= if faults::on(Fault::KeepsRequestOne) { !1 } else { !3 };
        self.restore_or_mask(1);
        let by_tc = tc && faults::on(Fault::TcRestoresZero);
        let by_eop = meets_eop && faults::on(Fault::EopRestoresZero);
        if (by_tc || by_eop) && self.controller.channels[0].autoinitializes() {
            self.restore(0);
        }
        if faults::on(Fault::MasksChannelZero) {
            self.controller.mask |= 1;
        }
    }
}
