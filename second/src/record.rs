//! The bus log of a service (document 02, A8): its records, and honest logs, made by the model's own
//! run one transfer at a time.

use crate::run::Stop;
use crate::state::{Controller, Refusal, Type};

/// "A record has 8 bytes".
pub const RECORD_LENGTH: usize = 8;

/// "kind (0 verify, 1 write, 2 read, 3 memory-to-memory)"
pub const VERIFY: u8 = 0;
pub const WRITE: u8 = 1;
pub const READ: u8 = 2;
pub const MEMORY_TO_MEMORY: u8 = 3;

/// "flags, bit 0 TC (the TC count passed 0), bit 1 external EOP, bit 2 last of service, others 0".
pub const TC: u8 = 1;
pub const EOP: u8 = 2;
pub const LAST: u8 = 4;

/// One transfer on the bus. Any 8 bytes are a record, an honest one or not.
#[derive(Clone, Copy, Debug, PartialEq, Eq)]
pub struct Record {
    pub channel: u8,
    pub kind: u8,
    /// The address of the serving channel, before its step.
    pub first: u16,
    /// "second address (channel 1's in memory-to-memory, else 0)"
    pub second: u16,
    /// "data byte (0 for verify)"
    pub data: u8,
    pub flags: u8,
}

impl Record {
    /// "Addresses are low byte first."
    pub fn from_bytes(bytes: [u8; RECORD_LENGTH]) -> Record {
        let [channel, kind, first_low, first_high, second_low, second_high, data, flags] = bytes;
        let first = u16::from_le_bytes([first_low, first_high]);
        let second = u16::from_le_bytes([second_low, second_high]);
        Record { channel, kind, first, second, data, flags }
    }

    pub fn to_bytes(self) -> [u8; RECORD_LENGTH] {
        let Record { channel, kind, first, second, data, flags } = self;
        let [first_low, first_high] = first.to_le_bytes();
        let [second_low, second_high] = second.to_le_bytes();
        [channel, kind, first_low, first_high, second_low, second_high, data, flags]
    }
}

impl Controller {
    /// The kind of the open service's transfers. A cascade channel makes none.
    pub fn kind_of_service(self) -> u8 {
        if self.is_memory_to_memory() {
            return MEMORY_TO_MEMORY;
        }
        match self.channels[usize::from(self.serving)].transfer_type() {
            Type::Verify | Type::None => VERIFY,
            Type::Write => WRITE,
            Type::Read => READ,
        }
    }

    /// The channel whose count is "the TC count": the serving one, channel 1 in memory-to-memory.
    pub fn counting_channel(self) -> usize {
        if self.is_memory_to_memory() {
            return 1;
        }
        usize::from(self.serving)
    }

    /// Run the open service as [`Controller::run`] does, with room enough, and record each transfer.
    pub fn recorded_run(
        self,
        memory: &mut [u8],
        input: &[u8],
        limit: u32,
        eop: u32,
    ) -> Result<(Controller, Stop, Vec<u8>), Refusal> {
        let mut now = self;
        let mut log = Vec::new();
        let mut left = input;
        for transfer in 1..=limit {
            let meets_eop = transfer == eop;
            let mut room = [0];
            let (next, stop, tally) = now.run(memory, left, &mut room, 1, u32::from(meets_eop))?;
            if tally.transfers == 0 {
                return Ok((next, stop, log));
            }
            let data = now.byte_moved(next, left, room);
            log.extend(now.record_of(next, data, meets_eop).to_bytes());
            left = &left[tally.used..];
            now = next;
            if stop == Stop::Ended {
                return Ok((now, stop, log));
            }
        }
        // What stops the run behind its last transfer, or before the first where the limit is 0.
        let (next, stop, _) = now.run(memory, left, &mut [], 0, 0)?;
        Ok((next, stop, log))
    }

    /// "data byte (0 for verify)": the byte that went from this state to the next.
    fn byte_moved(self, next: Controller, input: &[u8], room: [u8; 1]) -> u8 {
        match self.kind_of_service() {
            WRITE => input[0],
            READ => room[0],
            MEMORY_TO_MEMORY => next.temporary,
            _ => 0,
        }
    }

    /// The record of the transfer that led from this state to the next.
    fn record_of(self, next: Controller, data: u8, meets_eop: bool) -> Record {
        let pair = self.is_memory_to_memory();
        let mut flags = 0;
        if self.channels[self.counting_channel()].current_count == 0 {
            flags |= TC;
        }
        if meets_eop {
            flags |= EOP;
        }
        if !next.in_service() {
            flags |= LAST;
        }
        Record {
            channel: self.serving,
            kind: self.kind_of_service(),
            first: self.channels[usize::from(self.serving)].current_address,
            second: if pair { self.channels[1].current_address } else { 0 },
            data,
            flags,
        }
    }
}
