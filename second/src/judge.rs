//! Judging the bus log of one service (document 02, A8), one record at a time.

use crate::faults::{self, Fault};
use crate::record::{Record, EOP, LAST, MEMORY_TO_MEMORY, READ, RECORD_LENGTH, TC, VERIFY, WRITE};
use crate::run::refuse_memory;
use crate::state::{Controller, Mode, Refusal};

/// What is said of a log that isn't refused.
#[derive(Clone, Copy, Debug, PartialEq, Eq)]
pub enum Verdict {
    Accepted {
        records: usize,
    },
    /// The byte at which "the first wrong record" begins, and "its address error as a signed
    /// number, -32,768 to 32,767".
    Wrong {
        at: usize,
        error: i32,
    },
}

/// A log that is being judged: state and memory "as the good records made" them so far.
struct Judging<'a> {
    now: Controller,
    memory: &'a mut [u8],
    /// Memory as it was before the log, only for the faults that need it.
    before: Option<Vec<u8>>,
}

/// A wrong record with its address error.
struct Wrong(i32);

impl Controller {
    /// "Given a state in service and a memory, accept exactly the logs whose every record is what
    /// the rules do next, taking device bytes and EOP from the log."
    pub fn judge(self, memory: &mut [u8], log: &[u8]) -> Result<(Controller, Verdict), Refusal> {
        self.refuse_judging(memory)?;
        let before = keeps_memory().then(|| memory.to_vec());
        let mut judging = Judging { now: self, memory, before };
        let verdict = judging.judge(log);
        judging.take_back(self, verdict);
        Ok((judging.now, verdict))
    }

    /// "Refusals 1, 7, 8 in that order."
    fn refuse_judging(self, memory: &[u8]) -> Result<(), Refusal> {
        match faults::chosen() {
            Some(Fault::JudgeEightFirst) => self.refuse_idle()?,
            Some(Fault::JudgeSevenFirst) => refuse_memory(memory)?,
            _ => {}
        }
        self.refuse_broken()?;
        refuse_memory(memory)?;
        if !faults::on(Fault::JudgeTakesIdle) {
            self.refuse_idle()?;
        }
        Ok(())
    }

    fn refuse_idle(self) -> Result<(), Refusal> {
        if !self.in_service() {
            return Err(Refusal::NoService);
        }
        Ok(())
    }
}

impl Judging<'_> {
    /// "An honest log that stops early is accepted", an empty one too.
    fn judge(&mut self, log: &[u8]) -> Verdict {
        let mut at = 0;
        while at < log.len() {
            if let Err(Wrong(error)) = self.judge_record(&log[at..]) {
                return Verdict::Wrong { at: place(at), error };
            }
            at += RECORD_LENGTH;
        }
        self.verdict_at_end(log.len(), at / RECORD_LENGTH)
    }

    /// Accepted, and nothing changes any more, but for three of the faults.
    fn verdict_at_end(&mut self, length: usize, records: usize) -> Verdict {
        let open = self.now.in_service();
        match faults::chosen() {
            Some(Fault::JudgeEmptyWrong) if records == 0 => Verdict::Wrong { at: 0, error: 0 },
            Some(Fault::JudgeEarlyWrong) if open => Verdict::Wrong { at: length, error: 0 },
            Some(Fault::JudgeEmptyDrops) if self.now.has_lost_its_line() => {
                self.now = self.now.with_service_ended();
                Verdict::Accepted { records }
            }
            _ => Verdict::Accepted { records },
        }
    }

    /// The record at the front of `rest`. "A cut record, one after the end of service, or one where
    /// the rules make no transfer (line dropped, cascade), counts as wrong with error 0."
    fn judge_record(&mut self, rest: &[u8]) -> Result<(), Wrong> {
        let Some(bytes) = rest.first_chunk() else {
            return self.now.judge_cut_record(rest);
        };
        let claimed = claimed_record(*bytes);
        if !self.now.in_service() {
            return self.now.judge_behind_end(claimed);
        }
        if !self.now.makes_a_transfer() {
            return self.judge_without_transfer(claimed);
        }
        let right = self.now.right_record(self.memory_asked(), claimed);
        if !agrees(claimed, right) {
            self.harm_by_wrong(claimed);
            return Err(Wrong(error_of(claimed, right)));
        }
        self.now = self.now.after_record(self.memory, claimed);
        Ok(())
    }

    /// A dropped line isn't applied: the service stays open, "as the good records made it".
    fn judge_without_transfer(&mut self, claimed: Record) -> Result<(), Wrong> {
        match faults::chosen() {
            Some(Fault::JudgeDropEnds) if self.now.has_lost_its_line() => {
                self.now = self.now.with_service_ended();
            }
            Some(Fault::JudgeStillHasError) => {
                return Err(Wrong(self.now.distance_from(claimed.first)));
            }
            _ => {}
        }
        Err(Wrong(0))
    }

    /// Where the bytes of reads are looked up: memory as it is now, but for one of the faults.
    fn memory_asked(&self) -> &[u8] {
        match &self.before {
            Some(before) if faults::on(Fault::JudgeOldData) => before,
            _ => self.memory,
        }
    }

    /// Nothing, but for two of the faults: a wrong record changes neither state nor memory.
    fn harm_by_wrong(&mut self, claimed: Record) {
        match faults::chosen() {
            Some(Fault::JudgeWrongMoves) => {
                self.now.after_record(self.memory, claimed);
            }
            Some(Fault::JudgeWrongSteps) => {
                self.now = self.now.after_record(&mut self.memory.to_vec(), claimed);
            }
            _ => {}
        }
    }

    /// Nothing, but for three of the faults: what the good records made stays.
    fn take_back(&mut self, first: Controller, verdict: Verdict) {
        let wrong = matches!(verdict, Verdict::Wrong { .. });
        let rolls_back = wrong && faults::on(Fault::JudgeRollsBack);
        if rolls_back || faults::on(Fault::JudgeStateStays) {
            self.now = first;
        }
        match &self.before {
            Some(before) if rolls_back || faults::on(Fault::JudgeMemoryStays) => {
                self.memory.copy_from_slice(before);
            }
            _ => {}
        }
    }
}

impl Controller {
    fn judge_cut_record(self, rest: &[u8]) -> Result<(), Wrong> {
        let goes_on = self.in_service() && self.makes_a_transfer();
        match (faults::chosen(), rest) {
            (Some(Fault::JudgeCutAccepted), _) => Ok(()),
            (Some(Fault::JudgeCutHasError), [_, _, low, high, ..]) if goes_on => {
                Err(Wrong(self.distance_from(u16::from_le_bytes([*low, *high]))))
            }
            _ => Err(Wrong(0)),
        }
    }

    fn judge_behind_end(self, claimed: Record) -> Result<(), Wrong> {
        match faults::chosen() {
            Some(Fault::JudgeBehindAccepted) => Ok(()),
            Some(Fault::JudgeBehindHasError) => Err(Wrong(self.distance_from(claimed.first))),
            _ => Err(Wrong(0)),
        }
    }

    /// Do the rules make a transfer now, or does a run stop by "dropped" or "cascade"? In
    /// memory-to-memory these steps "don't apply". Command bit 2 has no say in an open service.
    fn makes_a_transfer(self) -> bool {
        let number = usize::from(self.serving);
        let mode = self.channels[number].kind();
        let pair = self.is_memory_to_memory();
        let line = self.line_is_active(number);
        let right = match mode {
            Mode::Demand => pair || line,
            Mode::Cascade => pair,
            Mode::Single | Mode::Block => true,
        };
        match (faults::chosen(), mode) {
            (Some(Fault::JudgeDropUnasked), Mode::Demand) => true,
            (Some(Fault::JudgeCascadeAccepted), Mode::Cascade) => line || right,
            (Some(Fault::JudgePairDrops), Mode::Demand) => line,
            (Some(Fault::JudgePairCascades), Mode::Cascade) => false,
            (Some(Fault::JudgeAsksDisable), _) => right && self.command & 4 == 0,
            _ => right,
        }
    }

    /// "demand or cascade with the line inactive", outside memory-to-memory.
    fn has_lost_its_line(self) -> bool {
        let number = usize::from(self.serving);
        let needs_line = matches!(self.channels[number].kind(), Mode::Demand | Mode::Cascade);
        needs_line && !self.is_memory_to_memory() && !self.line_is_active(number)
    }

    /// "what the rules do next", with the claimed record's device byte and EOP. All addresses are
    /// those before their step.
    fn right_record(self, memory: &[u8], claimed: Record) -> Record {
        let first = self.channels[usize::from(self.serving)].current_address;
        let pair = self.is_memory_to_memory();
        let right = Record {
            channel: self.serving,
            kind: self.kind_of_service(),
            first,
            second: if pair { self.channels[1].current_address } else { 0 },
            data: self.right_data(memory[usize::from(first)], claimed.data),
            flags: self.right_flags(claimed.flags & EOP != 0),
        };
        match faults::chosen() {
            Some(Fault::JudgeAfterStep) => self.with_stepped_address(right),
            Some(Fault::JudgePairSwapped) if pair => {
                Record { first: right.second, second: right.first, ..right }
            }
            _ => right,
        }
    }

    /// "data byte (0 for verify)": of a write the device's, which is the log's; otherwise the byte
    /// that memory has at the first address.
    fn right_data(self, in_memory: u8, claimed: u8) -> u8 {
        match self.kind_of_service() {
            VERIFY => 0,
            WRITE if faults::on(Fault::JudgeWriteAsked) => in_memory,
            WRITE => claimed,
            _ => in_memory,
        }
    }

    fn right_flags(self, meets_eop: bool) -> u8 {
        let tc = self.passes_zero();
        let mut flags = 0;
        if self.tc_is_flagged(tc, meets_eop) {
            flags |= TC;
        }
        if meets_eop {
            flags |= EOP;
        }
        if self.ends_service(tc, meets_eop) {
            flags |= LAST;
        }
        flags
    }

    /// "the TC count passed 0": count N gives N+1 transfers.
    fn passes_zero(self) -> bool {
        let counting = match faults::chosen() {
            Some(Fault::JudgePairTcOfZero) if self.is_memory_to_memory() => 0,
            _ => self.counting_channel(),
        };
        let count = self.channels[counting].current_count;
        count == 0 || faults::on(Fault::JudgeCountOfN) && count == 1
    }

    /// Flag bit 0 tells of the count alone, in the Intel edition too.
    fn tc_is_flagged(self, tc: bool, meets_eop: bool) -> bool {
        match faults::chosen() {
            Some(Fault::JudgeIntelEopIsTc) => tc || meets_eop && self.is_intel(),
            Some(Fault::JudgeEopHidesTc) => tc && !meets_eop,
            _ => tc,
        }
    }

    /// "last of service": by TC or EOP, or, outside memory-to-memory, in single mode.
    fn ends_service(self, tc: bool, meets_eop: bool) -> bool {
        let single = self.channels[usize::from(self.serving)].kind() == Mode::Single;
        let plain_end = single && !self.is_memory_to_memory();
        match faults::chosen() {
            Some(Fault::JudgePairSingle) => tc || meets_eop || single,
            Some(Fault::JudgeSingleNotLast) => tc || meets_eop,
            Some(Fault::JudgeEopNotLast) => tc || plain_end,
            _ => tc || meets_eop || plain_end,
        }
    }

    /// One transfer of a run, with the log's device byte and EOP.
    fn after_record(self, memory: &mut [u8], record: Record) -> Controller {
        let meets_eop = record.flags & EOP != 0;
        let applied = meets_eop && !faults::on(Fault::JudgeEopUnapplied);
        let ran = self.run(memory, &[record.data], &mut [0], 1, u32::from(applied));
        let next = ran.map_or(self, |(next, ..)| next);
        self.harmed_by_good(next, meets_eop)
    }

    /// The next state as it is, but for some of the faults: a good record does all that a run does.
    fn harmed_by_good(self, mut next: Controller, meets_eop: bool) -> Controller {
        let held = self.is_memory_to_memory() && self.command & 2 != 0;
        let zero = self.channels[0];
        match faults::chosen() {
            Some(Fault::JudgeKeepsLatch) if next.in_service() => {
                (next.latch_full, next.latch) = (self.latch_full, self.latch);
            }
            Some(Fault::JudgeTemporaryStays) => next.temporary = self.temporary,
            Some(Fault::JudgeRequestStays) => next.request = self.request,
            Some(Fault::JudgeIntelEopKeepsTc) if meets_eop && self.is_intel() => next.tc = self.tc,
            Some(Fault::JudgeHoldSteps) if held => {
                next.channels[0].current_address = stepped(zero.current_address, zero.decrements());
            }
            Some(Fault::JudgeZeroCountStays) if self.is_memory_to_memory() => {
                next.channels[0].current_count = zero.current_count;
            }
            _ => {}
        }
        next
    }

    /// How far an address is from the one the serving channel has.
    fn distance_from(self, claimed: u16) -> i32 {
        address_error(claimed, self.channels[usize::from(self.serving)].current_address)
    }

    /// Only for the fault that asks the first address one step on.
    fn with_stepped_address(self, right: Record) -> Record {
        let down = self.channels[usize::from(self.serving)].decrements();
        Record { first: stepped(right.first, down), ..right }
    }
}

fn stepped(address: u16, down: bool) -> u16 {
    if down {
        return address.wrapping_sub(1);
    }
    address.wrapping_add(1)
}

/// "Addresses are low byte first."
fn claimed_record(bytes: [u8; RECORD_LENGTH]) -> Record {
    let mut claimed = Record::from_bytes(bytes);
    if faults::on(Fault::JudgeHighFirst) {
        claimed.first = claimed.first.swap_bytes();
        claimed.second = claimed.second.swap_bytes();
    }
    claimed
}

/// Every field is asked, and every bit of the flags, but for some of the faults.
fn agrees(claimed: Record, right: Record) -> bool {
    let mut asked = claimed;
    match (faults::chosen(), right.kind) {
        (Some(Fault::JudgeChannelUnasked), _) => asked.channel = right.channel,
        (Some(Fault::JudgeKindUnasked), _) => asked.kind = right.kind,
        (Some(Fault::JudgeSecondUnasked), _) => asked.second = right.second,
        (Some(Fault::JudgeSecondOfPair), VERIFY | WRITE | READ) => asked.second = right.second,
        (Some(Fault::JudgeVerifyUnasked), VERIFY) => asked.data = right.data,
        (Some(Fault::JudgeReadUnasked), READ) => asked.data = right.data,
        (Some(Fault::JudgePairUnasked), MEMORY_TO_MEMORY) => asked.data = right.data,
        (Some(Fault::JudgeTcUnasked), _) => asked.flags = asked.flags & !TC | right.flags & TC,
        (Some(Fault::JudgeLastUnasked), _) => {
            asked.flags = asked.flags & !LAST | right.flags & LAST;
        }
        (Some(Fault::JudgeHighUnasked), _) => asked.flags &= TC | EOP | LAST,
        _ => {}
    }
    asked == right
}

/// The error of a wrong record, whatever else in it is wrong; 0 where its first address is right.
fn error_of(claimed: Record, right: Record) -> i32 {
    let error = address_error(claimed.first, right.first);
    match faults::chosen() {
        Some(Fault::JudgeErrorOfSecond) if error == 0 => {
            address_error(claimed.second, right.second)
        }
        Some(Fault::JudgeErrorAlone) if (Record { first: right.first, ..claimed }) != right => 0,
        _ => error,
    }
}

/// "claimed minus right first address modulo 65,536", "-32,768 to 32,767".
fn address_error(claimed: u16, right: u16) -> i32 {
    let distance = i32::from(claimed.wrapping_sub(right));
    match faults::chosen() {
        Some(Fault::JudgeErrorUnsigned) => distance,
        Some(Fault::JudgeErrorReversed) => signed(i32::from(right.wrapping_sub(claimed))),
        Some(Fault::JudgeErrorOf8000) if distance == 0x8000 => distance,
        Some(Fault::JudgeErrorNotWrapped) => i32::from(claimed) - i32::from(right),
        _ => signed(distance),
    }
}

/// A distance of 0 to 65,535; from 32,768 on it is one of -32,768 to -1.
fn signed(distance: i32) -> i32 {
    if distance >= 0x8000 {
        return distance - 0x1_0000;
    }
    distance
}

/// "the part of the vendor's log that begins at the first wrong record": its place in bytes.
fn place(at: usize) -> usize {
    match faults::chosen() {
        Some(Fault::JudgePlaceInRecords) => at / RECORD_LENGTH,
        Some(Fault::JudgePlaceOf16Bits) => at & 0xFFFF,
        _ => at,
    }
}

/// Does the fault that is on need memory as it was before?
fn keeps_memory() -> bool {
    use Fault::{JudgeMemoryStays, JudgeOldData, JudgeRollsBack};
    matches!(faults::chosen(), Some(JudgeMemoryStays | JudgeOldData | JudgeRollsBack))
}
