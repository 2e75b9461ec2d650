//! The controller's state with its edition and waits, its 48 body bytes, its ranges, and the refusal
//! numbers (document 01, "The controller's state", "Refusal numbers" and "The stored sheet";
//! document 02, A2 and A3).

use crate::faults::{self, Fault};

/// "Body, 48 bytes".
pub const BODY_LENGTH: usize = 48;
/// "edition, waits, the 48 body bytes".
pub const FULL_LENGTH: usize = 2 + BODY_LENGTH;
/// "memory not of 65,536 bytes" is refusal 7.
pub const MEMORY_LENGTH: usize = 65_536;

/// The edition "ours".
pub const AM9517A: u8 = 0;
/// The edition of "Intel 8237A parts".
pub const INTEL: u8 = 1;

/// Why an operation is refused; the number is document 01's.
#[derive(Clone, Copy, Debug, PartialEq, Eq)]
#[repr(u8)]
pub enum Refusal {
    /// "the state breaks a range of the sheet section"; an edition over 1 is one of these.
    BrokenState = 1,
    /// "register number over 15, pins over 15, or more than 4,096 services asked for"
    TooLarge = 2,
    /// "register access, grant or round during a service"
    DuringService = 3,
    /// "read of 9, A, B, C, E, F, or write of E"; document 02, A2: in the Intel edition it "no
    /// longer covers that write".
    IllegalRegister = 4,
    /// "mode byte with bits 3-2 = 11 and bits 7-6 not 11"
    IllegalMode = 5,
    /// "grant with no entitled channel"
    NobodyEntitled = 6,
    /// "memory not of 65,536 bytes"
    MemoryLength = 7,
    /// "run with no service open"
    NoService = 8,
    /// "slice under 56 bytes for a sheet"; document 02, A5: 58 in form 2, and "source or target too
    /// short" in converting.
    ShortSlice = 9,
    /// "10 end mark"
    EndMark = 10,
    /// "11 first two trailer bytes"
    Form = 11,
    /// "12 distance"
    Distance = 12,
    /// "13 sum"
    Sum = 13,
    /// "14 range"
    Range = 14,
    /// Document 02, A2: "Form 1 has no place for the edition: writing such a state is refusal 15";
    /// A3: "A state with waits can't go into form 1: refusal 15."; A5: "Converting back is
    /// allowed exactly when both are 0, else refusal 15".
    NoPlace = 15,
}

impl Refusal {
    pub fn number(self) -> u8 {
        self as u8
    }
}

/// Bits 7-6 of a mode: "00 demand, 01 single, 10 block, 11 cascade".
#[derive(Clone, Copy, Debug, PartialEq, Eq)]
pub enum Mode {
    Demand,
    Single,
    Block,
    Cascade,
}

/// Bits 3-2 of a mode: "00 verify, 01 write (device to memory), 10 read, ignored in cascade".
#[derive(Clone, Copy, Debug, PartialEq, Eq)]
pub enum Type {
    Verify,
    Write,
    Read,
    /// 11: only a cascade channel may hold it, and there it is ignored.
    None,
}

/// "each with base address, current address, base count, current count (16 bits each) and a mode
/// byte".
#[derive(Clone, Copy, Debug, PartialEq, Eq)]
pub struct Channel {
    pub base_address: u16,
    pub current_address: u16,
    pub base_count: u16,
    pub current_count: u16,
    pub mode: u8,
}

impl Channel {
    const ZERO: Channel =
        Channel { base_address: 0, current_address: 0, base_count: 0, current_count: 0, mode: 0 };

    pub fn kind(self) -> Mode {
        match self.mode >> 6 {
            0 => Mode::Demand,
            1 => Mode::Single,
            2 => Mode::Block,
            _ => Mode::Cascade,
        }
    }

    pub fn transfer_type(self) -> Type {
        match (self.mode >> 2) & 3 {
            0 => Type::Verify,
            1 => Type::Write,
            2 => Type::Read,
            _ => Type::None,
        }
    }

    /// "4 autoinitialize"
    pub fn autoinitializes(self) -> bool {
        self.mode & 0x10 != 0
    }

    /// "5 decrement"
    pub fn decrements(self) -> bool {
        self.mode & 0x20 != 0
    }
}

/// "mode byte with bits 3-2 = 11 and bits 7-6 not 11"
pub fn mode_is_refused(byte: u8) -> bool {
    if faults::on(Fault::CascadeTypeRefused) {
        return byte & 0x0C == 0x0C;
    }
    byte & 0x0C == 0x0C && byte & 0xC0 != 0xC0
}

/// The whole state. Every field is as wide as its place in the body, so that an edition, waits and
/// any 48 bytes are a state; those that break a range are refused by every operation (1).
#[derive(Clone, Copy, Debug, PartialEq, Eq)]
pub struct Controller {
    /// "chosen when a state is made and kept in it through reset"
    pub edition: u8,
    /// "a byte of wait states"; any value will do, so it breaks no range.
    pub waits: u8,
    pub channels: [Channel; 4],
    pub command: u8,
    pub tc: u8,
    pub request: u8,
    pub mask: u8,
    pub temporary: u8,
    pub flip_flop: u8,
    pub pins: u8,
    pub lowest: u8,
    pub in_service: u8,
    pub serving: u8,
    pub latch_full: u8,
    pub latch: u8,
}

impl Controller {
    /// A fresh Am9517A.
    pub fn fresh() -> Controller {
        Controller::fresh_of(AM9517A)
    }

    /// "A fresh state is all zero but for the mask (15) and lowest channel (3)." Its edition is
    /// "chosen when a state is made".
    pub fn fresh_of(edition: u8) -> Controller {
        Controller {
            edition,
            waits: 0,
            channels: [Channel::ZERO; 4],
            command: 0,
            tc: 0,
            request: 0,
            mask: 15,
            temporary: 0,
            flip_flop: 0,
            pins: 0,
            lowest: 3,
            in_service: 0,
            serving: 0,
            latch_full: 0,
            latch: 0,
        }
    }

    /// "Reset clears command, TC bits, request bits, temporary byte and flip-flop, sets all mask
    /// bits and ends any service (000); lowest becomes 3; addresses, counts, modes and pins stay".
    pub fn reset(self) -> Result<Controller, Refusal> {
        self.refuse_broken()?;
        let mut next = self.cleared();
        match faults::chosen() {
            Some(Fault::ResetDropsEdition) => next.edition = AM9517A,
            Some(Fault::ResetClearsWaits) => next.waits = 0,
            _ => {}
        }
        Ok(next)
    }

    /// What reset and master clear do. The edition is "kept in it through reset", and the waits are
    /// "unchanged by reset".
    pub fn cleared(self) -> Controller {
        let mut next = self.with_service_ended();
        next.command = 0;
        next.tc = 0;
        next.request = 0;
        next.temporary = 0;
        next.flip_flop = 0;
        next.mask = 15;
        if !faults::on(Fault::ResetKeepsLowest) {
            next.lowest = 3;
        }
        next
    }

    /// "However a service ends, the serving channel, the latch and its full mark become zero."
    pub fn with_service_ended(self) -> Controller {
        Controller { in_service: 0, serving: 0, latch_full: 0, latch: 0, ..self }
    }

    /// "four pin levels"; pins may change during a service, so only 1 and 2 refuse.
    pub fn set_pins(self, pins: u32) -> Result<Controller, Refusal> {
        self.refuse_broken()?;
        match u8::try_from(pins) {
            Ok(levels) if levels <= 15 => Ok(Controller { pins: levels, ..self }),
            _ => Err(Refusal::TooLarge),
        }
    }

    /// "a byte of wait states, set by its own call when idle (refusals 1, 3)": a byte has no value
    /// too large.
    pub fn set_waits(self, waits: u8) -> Result<Controller, Refusal> {
        if faults::on(Fault::WaitsThreeFirst) {
            self.refuse_during_service()?;
        }
        if !faults::on(Fault::WaitsOverBroken) {
            self.refuse_broken()?;
        }
        if !faults::on(Fault::WaitsInService) {
            self.refuse_during_service()?;
        }
        Ok(Controller { waits, ..self })
    }

    /// Is it of the Intel edition?
    pub fn is_intel(self) -> bool {
        if faults::on(Fault::EditionTwoIsIntel) {
            return self.edition != AM9517A;
        }
        self.edition == INTEL
    }

    pub fn in_service(self) -> bool {
        self.in_service != 0
    }

    pub fn refuse_broken(self) -> Result<(), Refusal> {
        if !self.ranges_hold() || faults::on(Fault::RefusesAlways) {
            return Err(Refusal::BrokenState);
        }
        Ok(())
    }

    pub fn refuse_during_service(self) -> Result<(), Refusal> {
        if self.in_service() {
            return Err(Refusal::DuringService);
        }
        Ok(())
    }

    /// The paragraph "Ranges" of the sheet section, clause by clause.
    pub fn ranges_hold(self) -> bool {
        // "mode bits 1-0 zero and not refused by 5"
        let modes = self.channels.iter().all(|c| c.mode & 3 == 0 && !mode_is_refused(c.mode));
        // "37, 38, 39, 42 at most 15"
        let fours = self.tc <= 15 && self.request <= 15 && self.mask <= 15 && self.pins <= 15;
        // "41, 44, 46 at most 1"
        let marks = self.flip_flop <= 1 && self.in_service <= 1 && self.latch_full <= 1;
        // "43, 45 at most 3"
        let numbers = self.lowest <= 3 && self.serving <= 3;
        // "idle means 45, 46, 47 zero"
        let idle =
            self.in_service != 0 || (self.serving == 0 && self.latch_full == 0 && self.latch == 0);
        // "46 zero means 47 zero"
        let latch = self.latch_full != 0 || self.latch == 0;
        modes && fours && marks && numbers && idle && latch && self.edition_holds()
    }

    /// The editions are two: 0 and 1.
    fn edition_holds(self) -> bool {
        match faults::chosen() {
            Some(Fault::EditionUnchecked) => true,
            Some(Fault::EditionTwoIsIntel) => self.edition <= 2,
            _ => self.edition <= INTEL,
        }
    }

    /// The 48 body bytes, "numbers low byte first".
    pub fn body(self) -> [u8; BODY_LENGTH] {
        let mut body = [0; BODY_LENGTH];
        for (number, channel) in self.channels.iter().enumerate() {
            let at = 9 * number;
            put_word(&mut body, at, channel.base_address);
            put_word(&mut body, at + 2, channel.current_address);
            put_word(&mut body, at + 4, channel.base_count);
            put_word(&mut body, at + 6, channel.current_count);
            body[at + 8] = channel.mode;
        }
        body[36] = self.command;
        body[37] = self.tc;
        body[38] = self.request;
        body[39] = self.mask;
        body[40] = self.temporary;
        body[41] = self.flip_flop;
        body[42] = self.pins;
        body[43] = self.lowest;
        body[44] = self.in_service;
        body[45] = self.serving;
        body[46] = self.latch_full;
        body[47] = self.latch;
        body
    }

    /// The Am9517A state without waits that these 48 bytes stand for, with no range check.
    pub fn from_body(body: &[u8; BODY_LENGTH]) -> Controller {
        let mut channels = [Channel::ZERO; 4];
        for (number, channel) in channels.iter_mut().enumerate() {
            let at = 9 * number;
            channel.base_address = word(body, at);
            channel.current_address = word(body, at + 2);
            channel.base_count = word(body, at + 4);
            channel.current_count = word(body, at + 6);
            channel.mode = body[at + 8];
        }
        Controller {
            edition: AM9517A,
            waits: 0,
            channels,
            command: body[36],
            tc: body[37],
            request: body[38],
            mask: body[39],
            temporary: body[40],
            flip_flop: body[41],
            pins: body[42],
            lowest: body[43],
            in_service: body[44],
            serving: body[45],
            latch_full: body[46],
            latch: body[47],
        }
    }

    /// "edition, waits, the 48 body bytes".
    pub fn full(self) -> [u8; FULL_LENGTH] {
        let mut full = [0; FULL_LENGTH];
        full[0] = self.edition;
        full[1] = self.waits;
        full[2..].copy_from_slice(&self.body());
        full
    }

    /// The state these 50 bytes stand for, with no range check.
    pub fn from_full(full: &[u8; FULL_LENGTH]) -> Controller {
        let mut body = [0; BODY_LENGTH];
        body.copy_from_slice(&full[2..]);
        Controller { edition: full[0], waits: full[1], ..Controller::from_body(&body) }
    }
}

fn word(bytes: &[u8], at: usize) -> u16 {
    u16::from_le_bytes([bytes[at], bytes[at + 1]])
}

fn put_word(bytes: &mut [u8], at: usize, value: u16) {
    let [low, high] = value.to_le_bytes();
    bytes[at] = low;
    bytes[at + 1] = high;
}
