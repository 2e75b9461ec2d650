//! Who gets the board's bus, the run of the open service, and a round over both chips (document 02,
//! A9: "Memory is shared; one service at a time").

use crate::board::Board;
use crate::faults::{self, Fault};
use crate::round::{keep_within, sum, RoundStop, LIMIT, MOST_SERVICES, NO_EOP};
use crate::run::{refuse_memory, Stop, Tally};
use crate::state::{Controller, Refusal};

/// A round's tally, "with eight numbers of services": 0 to 3 are the first controller's channels.
#[derive(Clone, Copy, Debug, Default, PartialEq, Eq)]
pub struct BoardTally {
    pub services: [u32; 8],
    pub total: Tally,
}

impl Board {
    /// A controller wants the bus while one of its channels is entitled.
    fn wants_bus(self, chip: usize) -> bool {
        let now = self.chips[chip];
        if faults::on(Fault::BoardWantsByRequest) {
            return (0..4).any(|channel| now.requests(channel));
        }
        now.first_entitled().is_some()
    }

    /// "When both want the bus, the one not granted last gets it"; one alone gets it.
    pub fn next_on_bus(self) -> Option<usize> {
        let turn = self.whose_turn();
        if faults::on(Fault::BoardSixOfOne) {
            return self.wants_bus(turn).then_some(turn);
        }
        [turn, 1 - turn].into_iter().find(|&chip| self.wants_bus(chip))
    }

    fn whose_turn(self) -> usize {
        let other = usize::from(self.last == 0);
        match faults::chosen() {
            Some(Fault::BoardGrantsAgain) => 1 - other,
            Some(Fault::BoardFirstAlways) => 0,
            _ => other,
        }
    }

    /// Begin a service on the board: 1, 3, 6. Channels 0 to 3 are the first controller's, 4 to 7 the
    /// second's.
    pub fn grant(self) -> Result<(Board, usize), Refusal> {
        self.refuse_broken()?;
        if faults::on(Fault::BoardSixBeforeThree) {
            self.next_on_bus().ok_or(Refusal::NobodyEntitled)?;
        }
        if !faults::on(Fault::BoardGrantThreeOfOne) {
            self.refuse_during_service()?;
        }
        let chip = self.next_on_bus().ok_or(Refusal::NobodyEntitled)?;
        self.grant_to(chip)
    }

    /// The grant of the chip that gets the bus.
    fn grant_to(self, chip: usize) -> Result<(Board, usize), Refusal> {
        let (next, channel) = self.chips[chip].grant()?;
        let mut board = self.with_chip(chip, next);
        board.last = self.last_after(chip);
        if faults::on(Fault::BoardLowestOfBoth) && next.is_rotating() {
            board.chips[1 - chip].lowest = next.lowest;
        }
        Ok((board, 4 * chip + channel))
    }

    /// ""Granted last" turns at every grant, contested or not."
    fn last_after(self, chip: usize) -> u8 {
        let contested = self.wants_bus(0) && self.wants_bus(1);
        match faults::chosen() {
            Some(Fault::BoardTurnsIfContested) if !contested => self.last,
            Some(Fault::BoardTurnsBlindly) => u8::from(self.last == 0),
            Some(Fault::BoardNeverTurns | Fault::BoardTurnsAtEnd) => self.last,
            _ => chip as u8,
        }
    }

    /// The run of the open service, whichever chip's it is: 1, 7, 8.
    pub fn run(
        self,
        memory: &mut [u8],
        input: &[u8],
        room: &mut [u8],
        limit: u32,
        eop: u32,
    ) -> Result<(Board, Stop, Tally), Refusal> {
        if !faults::on(Fault::BoardRunUnchecked) {
            self.refuse_broken()?;
        }
        if faults::on(Fault::BoardEightFirst) {
            self.chip_to_run().ok_or(Refusal::NoService)?;
        }
        refuse_memory(memory)?;
        let chip = self.chip_to_run().ok_or(Refusal::NoService)?;
        let mut now = self.chips[chip];
        if faults::on(Fault::BoardWaitsOfFirst) {
            now.waits = self.chips[0].waits;
        }
        let mut apart = Vec::new();
        let memory = memory_of(chip, memory, &mut apart);
        let (mut next, stop, tally) = now.run(memory, input, room, limit, eop)?;
        if faults::on(Fault::BoardWaitsOfFirst) {
            next.waits = self.chips[chip].waits;
        }
        Ok((self.after_run(chip, next), stop, tally))
    }

    fn chip_to_run(self) -> Option<usize> {
        let granted_last = usize::from(self.last != 0);
        match faults::chosen() {
            Some(Fault::BoardRunsFirst) => self.chips[0].in_service().then_some(0),
            Some(Fault::BoardRunsLast) => {
                self.chips[granted_last].in_service().then_some(granted_last)
            }
            _ => self.chip_in_service(),
        }
    }

    /// A run leaves the other chip and the arbiter as they are.
    fn after_run(self, chip: usize, next: Controller) -> Board {
        let mut board = self.with_chip(chip, next);
        match faults::chosen() {
            Some(Fault::BoardTurnsAtEnd) if !next.in_service() => board.last = chip as u8,
            Some(Fault::BoardLimitTurns) if next.in_service() => board.last = 1 - chip as u8,
            _ => {}
        }
        board
    }

    /// Document 01's round over both chips: 1, 2, 7, 3.
    pub fn round(
        self,
        memory: &mut [u8],
        input: &[u8],
        room: &mut [u8],
        k: u32,
    ) -> Result<(Board, RoundStop, BoardTally), Refusal> {
        self.refuse_round(memory, k)?;
        let mut now = self;
        let mut tally = BoardTally::default();
        let mut stop = stop_between(now, &tally, k);
        while stop.is_none() {
            let (granted, channel) = now.grant_in_round(&tally)?;
            tally.services[place_of(channel)] += 1;
            // The device bytes not yet used and the room behind the last byte written are handed on
            // to the next run, of the same chip or the other.
            let turned = granted.last != now.last;
            let (used, written) = handed_on(&tally.total, turned);
            let (next, run_stop, part) =
                granted.run(memory, &input[used..], &mut room[written..], LIMIT, NO_EOP)?;
            tally.total = total_of(tally.total, part, channel);
            if faults::on(Fault::BoardQueueRestarts) || faults::on(Fault::BoardRoomRestarts) {
                keep_within(&mut tally.total, input.len(), room.len());
            }
            now = next;
            stop = match run_stop {
                Stop::Ended => stop_between(now, &tally, k),
                other => Some(RoundStop::Run(other)),
            };
        }
        if faults::on(Fault::BoardRoundKeepsLast) {
            now.last = self.last;
        }
        Ok((now, stop.unwrap_or(RoundStop::Done), tally))
    }

    fn refuse_round(self, memory: &[u8], k: u32) -> Result<(), Refusal> {
        self.refuse_broken()?;
        match faults::chosen() {
            Some(Fault::BoardRoundThreeFirst) => self.refuse_during_service()?,
            Some(Fault::BoardRoundSevenFirst) => refuse_memory(memory)?,
            _ => {}
        }
        let most = match faults::chosen() {
            Some(Fault::BoardKOf8192) => 2 * MOST_SERVICES,
            _ => MOST_SERVICES,
        };
        if k > most {
            return Err(Refusal::TooLarge);
        }
        refuse_memory(memory)?;
        match faults::chosen() {
            Some(Fault::BoardRoundThreeOfOne) => self.chips[0].refuse_during_service(),
            _ => self.refuse_during_service(),
        }
    }

    /// A round's grants are the board's own: the chips take turns in it as they do outside.
    fn grant_in_round(self, tally: &BoardTally) -> Result<(Board, usize), Refusal> {
        let last = usize::from(self.last != 0);
        let begun = begun_by(tally).iter().sum::<u32>() > 0;
        if faults::on(Fault::BoardRoundSticks) && begun && self.wants_bus(last) {
            return self.grant_to(last);
        }
        self.grant()
    }
}

/// "Before the first, k = 0 is "done" and comes before quiet." Quiet is where neither chip has
/// anybody entitled.
fn stop_between(now: Board, tally: &BoardTally, k: u32) -> Option<RoundStop> {
    let [first, second] = begun_by(tally);
    let begun = match faults::chosen() {
        Some(Fault::BoardKPerChip) => first.max(second),
        _ => first + second,
    };
    if begun == k {
        return Some(RoundStop::Done);
    }
    let quiet = match faults::chosen() {
        Some(Fault::BoardQuietOfOne) => !(now.wants_bus(0) && now.wants_bus(1)),
        _ => now.next_on_bus().is_none(),
    };
    quiet.then_some(RoundStop::Quiet)
}

/// The services begun by each chip.
fn begun_by(tally: &BoardTally) -> [u32; 2] {
    let (first, second) = tally.services.split_at(4);
    [first.iter().sum(), second.iter().sum()]
}

/// The place of a channel's number among the eight.
fn place_of(channel: usize) -> usize {
    match faults::chosen() {
        Some(Fault::BoardServicesOfFour) => channel % 4,
        Some(Fault::BoardServicesSwapped) => (channel + 4) % 8,
        Some(Fault::BoardServicesMixed) => channel % 4 * 2 + channel / 4,
        _ => channel,
    }
}

/// How many device bytes are used, and how many written, when a service begins.
fn handed_on(total: &Tally, turned: bool) -> (usize, usize) {
    match faults::chosen() {
        Some(Fault::BoardQueueRestarts) if turned => (0, total.written),
        Some(Fault::BoardRoomRestarts) if turned => (total.used, 0),
        _ => (total.used, total.written),
    }
}

/// Both chips' services count in the totals.
fn total_of(total: Tally, part: Tally, channel: usize) -> Tally {
    let second = channel > 3;
    let mut next = sum(total, part);
    match faults::chosen() {
        Some(Fault::BoardStatesOfFirst) if second => next.states = total.states,
        Some(Fault::BoardTransfersOfFirst) if second => next.transfers = total.transfers,
        Some(Fault::BoardStatesOfLast) => next.states = part.states,
        Some(Fault::BoardStatesCutTo32) => next.states &= u64::from(u32::MAX),
        _ => {}
    }
    next
}

/// The shared memory, but for one fault: there the second chip has a copy that is then lost.
fn memory_of<'a>(chip: usize, shared: &'a mut [u8], apart: &'a mut Vec<u8>) -> &'a mut [u8] {
    if faults::on(Fault::BoardMemoryApart) && chip == 1 {
        apart.extend_from_slice(shared);
        return apart;
    }
    shared
}
