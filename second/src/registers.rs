//! Register writes and reads (document 01, "Registers (000, figure 4)"; document 02, A2).

use crate::faults::{self, Fault};
use crate::state::{mode_is_refused, Channel, Controller, Refusal, AM9517A};

impl Controller {
    /// Write `byte` to a register. "When several hold: write 1, 2, 3, 4, 5".
    pub fn write(self, register: u32, byte: u8) -> Result<Controller, Refusal> {
        self.refuse_broken()?;
        if register > 15 {
            return Err(Refusal::TooLarge);
        }
        if !self.passes_in_service(register) {
            self.refuse_during_service()?;
        }
        match register {
            0..=7 => Ok(self.write_half(register as usize, byte)),
            8 => Ok(Controller { command: byte, ..self }),
            9 => Ok(Controller { request: with_bit(self.request, byte), ..self }),
            0xA => Ok(Controller { mask: with_bit(self.mask, byte), ..self }),
            0xB => self.write_mode(byte),
            // "C write clears the flip-flop."
            0xC => Ok(Controller { flip_flop: 0, ..self }),
            0xD => Ok(self.master_clear()),
            0xE => self.clear_mask(byte),
            // "F write: bits 3-0 become the mask."
            _ => Ok(Controller { mask: byte & 15, ..self }),
        }
    }

    /// Read a register. "read 1, 2, 3, 4".
    pub fn read(self, register: u32) -> Result<(Controller, u8), Refusal> {
        self.refuse_broken()?;
        if register > 15 {
            return Err(Refusal::TooLarge);
        }
        self.refuse_during_service()?;
        let (mut next, byte) = match register {
            0..=7 => self.read_half(register as usize),
            8 => self.read_status(),
            // "D read: temporary byte."
            0xD => (self, self.temporary),
            0xE if self.is_intel() && faults::on(Fault::IntelReadsE) => (self, self.mask),
            // "read of 9, A, B, C, E, F"
            _ => return Err(Refusal::IllegalRegister),
        };
        if faults::on(Fault::AnyReadClearsTc) {
            next.tc = 0;
        }
        Ok((next, byte))
    }

    /// "0 to 7: even is channel n/2's address, odd its count. The flip-flop picks low (0) or high
    /// (1) byte and turns over after each access. A write sets that byte of base and current".
    fn write_half(self, register: usize, byte: u8) -> Controller {
        let mut next = self;
        let channel = &mut next.channels[register / 2];
        let high = self.flip_flop == 1;
        let (base, current) = if register & 1 == 0 {
            (&mut channel.base_address, &mut channel.current_address)
        } else {
            (&mut channel.base_count, &mut channel.current_count)
        };
        *current = with_half(*current, high, byte);
        if !faults::on(Fault::WritesCurrentOnly) {
            *base = with_half(*base, high, byte);
        }
        next.flip_flop = 1 - self.flip_flop;
        next
    }

    /// "a read gives current."
    fn read_half(self, register: usize) -> (Controller, u8) {
        let channel: Channel = self.channels[register / 2];
        let word = if register & 1 == 0 { channel.current_address } else { channel.current_count };
        let [low, high] = word.to_le_bytes();
        let byte = if self.flip_flop == 1 { high } else { low };
        if faults::on(Fault::ReadsKeepFlipFlop) {
            return (self, byte);
        }
        (Controller { flip_flop: 1 - self.flip_flop, ..self }, byte)
    }

    /// "8 read: status. Bits 0-3 the TC bits, cleared by this read; bits 4-7 the requesting
    /// channels, masked or not."
    fn read_status(self) -> (Controller, u8) {
        let mut byte = self.tc;
        for channel in 0..4 {
            let hidden = self.command & 4 != 0 && faults::on(Fault::StatusWhenEnabled);
            if self.requests(channel) && !hidden {
                byte |= 0x10 << channel;
            }
        }
        (Controller { tc: 0, ..self }, byte)
    }

    /// "D write: master clear, as reset."
    fn master_clear(self) -> Controller {
        let mut next = self.cleared();
        match faults::chosen() {
            Some(Fault::MasterClearDropsEdition) => next.edition = AM9517A,
            Some(Fault::MasterClearClearsWaits) => next.waits = 0,
            _ => {}
        }
        next
    }

    /// Document 02, A2, of the Intel edition: "There, a write of register E clears all four mask
    /// bits"; "Refusal 4 no longer covers that write there." The byte has no say: such commands "do
    /// not depend on any specific bit pattern on the data bus" (001).
    fn clear_mask(self, byte: u8) -> Result<Controller, Refusal> {
        if !self.has_clear_mask() {
            return Err(Refusal::IllegalRegister);
        }
        let mut next = Controller { mask: 0, ..self };
        match faults::chosen() {
            Some(Fault::ETakesByte) => next.mask = byte & 15,
            Some(Fault::ESetsMask) => next.mask = 15,
            Some(Fault::EClearsOne) => next.mask = self.mask & !(1 << (byte & 3)),
            Some(Fault::ETurnsFlipFlop) => next.flip_flop = 1 - self.flip_flop,
            Some(Fault::EClearsFlipFlop) => next.flip_flop = 0,
            _ => {}
        }
        Ok(next)
    }

    fn has_clear_mask(self) -> bool {
        match faults::chosen() {
            Some(Fault::IntelRefusesE) => false,
            Some(Fault::BothTakeE) => true,
            _ => self.is_intel(),
        }
    }

    /// Never so, but for one of the faults.
    fn passes_in_service(self, register: u32) -> bool {
        register == 0xE && self.is_intel() && faults::on(Fault::EInService)
    }

    /// "B write: mode of channel (bits 1-0); stored with these two bits zero."
    fn write_mode(self, byte: u8) -> Result<Controller, Refusal> {
        if mode_is_refused(byte) {
            return Err(Refusal::IllegalMode);
        }
        let mut next = self;
        next.channels[usize::from(byte & 3)].mode = byte & !3;
        Ok(next)
    }
}

/// "request bit of channel (bits 1-0) becomes bit 2", and "the same for the mask bit".
fn with_bit(bits: u8, byte: u8) -> u8 {
    let bit = 1 << (byte & 3);
    if byte & 4 != 0 {
        bits | bit
    } else {
        bits & !bit
    }
}

fn with_half(word: u16, high: bool, byte: u8) -> u16 {
    let [low_byte, high_byte] = word.to_le_bytes();
    if high {
        u16::from_le_bytes([low_byte, byte])
    } else {
        u16::from_le_bytes([byte, high_byte])
    }
}
