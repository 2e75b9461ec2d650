//! A round of services (document 01, "A round"; document 02, A3).

use crate::faults::{self, Fault};
use crate::run::{refuse_memory, Stop, Tally};
use crate::state::{Controller, Refusal};

/// "A round begins up to k services (0 to 4,096)".
pub const MOST_SERVICES: u32 = 4_096;
/// "grant then run, limit 65,536, no EOP".
pub(crate) const LIMIT: u32 = 65_536;
pub(crate) const NO_EOP: u32 = 0;

/// How a round stops: a run that did not end, or k begun, or nobody entitled.
#[derive(Clone, Copy, Debug, PartialEq, Eq)]
pub enum RoundStop {
    Run(Stop),
    Done,
    Quiet,
}

impl RoundStop {
    pub fn word(self) -> &'static str {
        match self {
            RoundStop::Run(stop) => stop.word(),
            RoundStop::Done => "done",
            RoundStop::Quiet => "quiet",
        }
    }
}

/// "It gives services begun per channel, and the totals of transfers, device bytes used, device
/// bytes written and states."
#[derive(Clone, Copy, Debug, Default, PartialEq, Eq)]
pub struct RoundTally {
    pub services: [u32; 4],
    pub total: Tally,
}

impl Controller {
    /// "round 1, 2, 7, 3".
    pub fn round(
        self,
        memory: &mut [u8],
        input: &[u8],
        room: &mut [u8],
        k: u32,
    ) -> Result<(Controller, RoundStop, RoundTally), Refusal> {
        self.refuse_round(memory, k)?;
        let mut now = self;
        let mut tally = RoundTally::default();
        // "Before the first, k = 0 is "done" and comes before quiet."
        let mut stop = stop_between(now, &tally, k);
        while stop.is_none() {
            let (granted, channel) = now.grant()?;
            tally.services[channel] += 1;
            // "The device bytes not yet used are handed on to the next run, and so is the room
            // behind the last byte written."
            let input_left = &input[used_up(&tally)..];
            let room_left = &mut room[room_behind(&tally)..];
            let (next, run_stop, part) =
                granted.run(memory, input_left, room_left, LIMIT, NO_EOP)?;
            tally.total = sum(tally.total, part);
            if faults::on(Fault::QueueRestarts) || faults::on(Fault::RoomHandedBack) {
                keep_within(&mut tally.total, input.len(), room.len());
            }
            now = next;
            // "It stops, in this order after each run: not "ended" (its reason); k begun ("done");
            // nobody entitled ("quiet")."
            stop = match run_stop {
                Stop::Ended => stop_between(now, &tally, k),
                other => Some(RoundStop::Run(other)),
            };
        }
        Ok((now, stop.unwrap_or(RoundStop::Done), tally))
    }

    fn refuse_round(self, memory: &[u8], k: u32) -> Result<(), Refusal> {
        self.refuse_broken()?;
        if faults::on(Fault::MemoryBeforeNumber) {
            refuse_memory(memory)?;
        }
        if k > MOST_SERVICES {
            return Err(Refusal::TooLarge);
        }
        refuse_memory(memory)?;
        self.refuse_during_service()
    }
}

fn stop_between(now: Controller, tally: &RoundTally, k: u32) -> Option<RoundStop> {
    let quiet = now.first_entitled().is_none();
    if quiet && faults::on(Fault::QuietFirst) {
        return Some(RoundStop::Quiet);
    }
    let begun: u32 = tally.services.iter().sum();
    if begun == k {
        return Some(RoundStop::Done);
    }
    quiet.then_some(RoundStop::Quiet)
}

/// Only faults could count more bytes than there are.
pub(crate) fn keep_within(total: &mut Tally, input: usize, room: usize) {
    total.used = total.used.min(input);
    total.written = total.written.min(room);
}

fn used_up(tally: &RoundTally) -> usize {
    if faults::on(Fault::QueueRestarts) {
        return 0;
    }
    tally.total.used
}

fn room_behind(tally: &RoundTally) -> usize {
    if faults::on(Fault::RoomHandedBack) {
        return 0;
    }
    tally.total.written
}

pub(crate) fn sum(total: Tally, part: Tally) -> Tally {
    Tally {
        transfers: total.transfers + part.transfers,
        used: total.used + part.used,
        written: total.written + part.written,
        states: sum_of_states(total.states, part.states),
    }
}

/// Document 02, A3: "a long round now passes 32 bits".
fn sum_of_states(total: u64, part: u64) -> u64 {
    let most_of_32_bits = u64::from(u32::MAX);
    match faults::chosen() {
        Some(Fault::StatesCutTo32) => (total + part) & most_of_32_bits,
        Some(Fault::StatesStayAt32) => (total + part).min(most_of_32_bits),
        _ => total + part,
    }
}
