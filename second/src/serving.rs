//! Who may be served, and the grant (document 01, "Who may be served").

use crate::faults::{self, Fault};
use crate::state::{Controller, Mode, Refusal};

impl Controller {
    /// "A line is active when its pin differs from command bit 6."
    pub fn line_is_active(self, channel: usize) -> bool {
        let pin = self.pins >> channel & 1;
        let active_low = self.command >> 6 & 1;
        pin != active_low
    }

    /// "its request bit is set and its mode is block (ruling: elsewhere the bit is kept and not
    /// counted)".
    fn request_bit_counts(self, channel: usize) -> bool {
        let set = self.request >> channel & 1 == 1;
        let block = self.channels[channel].kind() == Mode::Block;
        set && (block || faults::on(Fault::RequestCountsAnywhere))
    }

    /// "A channel requests when its line is active, or its request bit is set and its mode is
    /// block".
    pub fn requests(self, channel: usize) -> bool {
        self.line_is_active(channel) || self.request_bit_counts(channel)
    }

    /// "It is entitled when command bit 2 is 0 and either its line is active and its mask bit 0,
    /// or its request bit counts (software requests can't be masked)."
    pub fn is_entitled(self, channel: usize) -> bool {
        let enabled = self.command & 4 == 0 || faults::on(Fault::DisableIgnored);
        let masked = self.mask >> channel & 1 == 1;
        if faults::on(Fault::MaskStopsSoftware) {
            return enabled && !masked && self.requests(channel);
        }
        enabled && (self.line_is_active(channel) && !masked || self.request_bit_counts(channel))
    }

    /// "rotating" is command bit 4.
    pub fn is_rotating(self) -> bool {
        self.command & 0x10 != 0
    }

    /// "A grant takes the first entitled channel: fixed order 0, 1, 2, 3, or, rotating, from the
    /// one after the lowest, going round."
    pub fn first_entitled(self) -> Option<usize> {
        let first = self.asked_first();
        let right = (first..first + 4).map(|n| n % 4).find(|&channel| self.is_entitled(channel));
        match faults::chosen() {
            Some(Fault::GrantsZero) => Some(0),
            Some(Fault::NoneIsZero) => right.or(Some(0)),
            Some(Fault::OneEntryWrong) if self.is_at_the_wrong_entry() => Some(2),
            _ => right,
        }
    }

    /// Where the going round begins. It may be 4, which is channel 0 again.
    fn asked_first(self) -> usize {
        let lowest = usize::from(self.lowest);
        match (self.is_rotating(), faults::chosen()) {
            (true, Some(Fault::LowestAskedFirst)) => lowest,
            (true, _) => lowest + 1,
            (false, Some(Fault::FixedFromOne)) => 1,
            (false, _) => 0,
        }
    }

    /// Rotating, lowest 2, entitled exactly channels 1 and 2: the one place that a fault picks
    /// wrongly, as a table of 64 entries could have one wrong.
    fn is_at_the_wrong_entry(self) -> bool {
        let entitled = [0, 1, 2, 3].map(|channel| self.is_entitled(channel));
        self.is_rotating() && self.lowest == 2 && entitled == [false, true, true, false]
    }

    /// Begin a service. "grant 1, 3, 6".
    pub fn grant(self) -> Result<(Controller, usize), Refusal> {
        self.refuse_broken()?;
        self.refuse_during_service()?;
        let channel = self.first_entitled().ok_or(Refusal::NobodyEntitled)?;
        let mut next = self;
        // "Under rotation the granted channel becomes lowest at the grant; a fixed grant leaves
        // the lowest as it is".
        let turns = self.is_rotating() && !faults::on(Fault::RotationAtEnd);
        if turns || faults::on(Fault::FixedGrantTurns) {
            next.lowest = channel as u8;
        }
        next.in_service = 1;
        next.serving = channel as u8;
        // "The latch is emptied."
        next.latch_full = 0;
        next.latch = 0;
        if faults::on(Fault::LatchKept) {
            next.latch_full = 1;
            next.latch = (self.channels[channel].current_address >> 8) as u8;
        }
        Ok((next, channel))
    }
}
