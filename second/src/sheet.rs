//! The stored sheet in its two forms, and the way from one to the other (document 01, "The stored
//! sheet"; document 02, A2, A3 and A5).

use crate::faults::{self, Fault};
use crate::state::{Controller, Refusal, AM9517A, BODY_LENGTH, FULL_LENGTH};

/// "Trailer, 8 bytes".
pub const TRAILER_LENGTH: usize = 8;

/// A form is its number and the length of its body: the last bytes of edition, waits, 48 bytes.
#[derive(Clone, Copy, Debug, PartialEq, Eq)]
pub enum Form {
    /// "Body, 48 bytes"; edition and waits have no place in it.
    One,
    /// "Form 2 has a 50-byte body: edition (0 or 1), waits, then the 48 bytes of form 1".
    Two,
}

impl Form {
    pub fn number(self) -> u8 {
        match self {
            Form::One => 1,
            Form::Two => 2,
        }
    }

    pub fn body_length(self) -> usize {
        match self {
            Form::One => BODY_LENGTH,
            Form::Two => FULL_LENGTH,
        }
    }

    /// "Form 1 is the last 56 bytes of a lent slice"; form 2 "58 bytes".
    pub fn length(self) -> usize {
        self.body_length() + TRAILER_LENGTH
    }

    /// "9 slice under 56 bytes for a sheet", "with 58 in refusal 9".
    fn refuse_short(self, slice: &[u8]) -> Result<(), Refusal> {
        if slice.len() < self.length() {
            return Err(Refusal::ShortSlice);
        }
        Ok(())
    }

    /// "Trailer, 8 bytes: 01, 00, distance back from trailer to body (30h, 00), sum of the body
    /// bytes (2 bytes), 44h, 4Dh."; "the trailer says form 2 and distance 50".
    fn trailer(self, body: &[u8]) -> [u8; TRAILER_LENGTH] {
        let distance = match faults::chosen() {
            Some(Fault::TwoSaysDistance48) => BODY_LENGTH as u8,
            _ => self.body_length() as u8,
        };
        let [sum_low, sum_high] = sum_of(body).to_le_bytes();
        [self.number(), 0x00, distance, 0x00, sum_low, sum_high, 0x44, 0x4D]
    }

    /// The whole sheet of these edition, waits and 48 bytes, whatever they are.
    pub fn sheet(self, full: &[u8; FULL_LENGTH]) -> Vec<u8> {
        let mut body = full[FULL_LENGTH - self.body_length()..].to_vec();
        if faults::on(Fault::TwoHasWaitsFirst) && self == Form::Two {
            body.swap(0, 1);
        }
        let trailer = self.trailer(&body);
        [&body[..], &trailer[..]].concat()
    }

    /// The sheet into the end of a slice that is long enough; "the rest isn't touched".
    fn put(self, full: &[u8; FULL_LENGTH], slice: &mut [u8]) {
        let start = slice.len() - self.length();
        slice[start..].copy_from_slice(&self.sheet(full));
    }

    /// Edition, waits and 48 bytes of the sheet at the end of the slice, refused by 9 to 13: "10 end
    /// mark; 11 first two trailer bytes; 12 distance; 13 sum". Range is not asked yet.
    fn take(self, slice: &[u8]) -> Result<[u8; FULL_LENGTH], Refusal> {
        if faults::on(Fault::RefusesAlways) {
            return Err(Refusal::ShortSlice);
        }
        if faults::on(Fault::TwoReadFrom56) && matches!(slice.len(), 56 | 57) {
            return self.take(&[&[0; 2], slice].concat());
        }
        self.refuse_short(slice)?;
        let sheet = &slice[slice.len() - self.length()..];
        let (body, trailer) = sheet.split_at(self.body_length());
        let right = self.trailer(body);
        let mut order =
            [(6, Refusal::EndMark), (0, Refusal::Form), (2, Refusal::Distance), (4, Refusal::Sum)];
        if faults::on(Fault::SumBeforeDistance) {
            order.swap(2, 3);
        }
        for (at, refusal) in order {
            if trailer[at..at + 2] != right[at..at + 2] {
                return Err(refusal);
            }
        }
        Ok(with_what_is_missing(body))
    }

    /// "14 range", in form 2 "the edition's range" too.
    fn refuse_range(self, full: &[u8; FULL_LENGTH]) -> Result<(), Refusal> {
        let mut read = Controller::from_full(full);
        if faults::on(Fault::TwoEditionUnchecked) && self == Form::Two {
            read.edition = AM9517A;
        }
        if !read.ranges_hold() {
            return Err(Refusal::Range);
        }
        Ok(())
    }

    /// Has it a place for edition and waits?
    fn holds_all(self) -> bool {
        self == Form::Two && !faults::on(Fault::TwoHasNoPlace)
    }
}

/// "Old sheets convert with edition 0 and waits 0", and read so.
fn with_what_is_missing(body: &[u8]) -> [u8; FULL_LENGTH] {
    let mut full = [0; FULL_LENGTH];
    full[FULL_LENGTH - body.len()..].copy_from_slice(body);
    full
}

/// "sum of the body bytes (2 bytes)": 50 bytes of at most 255 fit.
fn sum_of(body: &[u8]) -> u16 {
    let summed = match faults::chosen() {
        Some(Fault::SumOf47) => &body[..body.len() - 1],
        Some(Fault::TwoSums48) => &body[body.len() - BODY_LENGTH..],
        _ => body,
    };
    summed.iter().map(|&byte| u16::from(byte)).sum()
}

/// The sheet at the end of `source` into the end of `target`. "Either way the order is 9 (source or
/// target too short), 10 to 14, then 15."
pub fn convert(from: Form, source: &[u8], to: Form, target: &mut [u8]) -> Result<(), Refusal> {
    let short_target = to.refuse_short(target);
    if !faults::on(Fault::TargetNineLast) {
        short_target?;
    }
    let full = from.take(source)?;
    let read = Controller::from_full(&full);
    if faults::on(Fault::BackFifteenFirst) {
        read.refuse_without_place(to)?;
    }
    if !faults::on(Fault::ConvertsAnyRange) {
        from.refuse_range(&full)?;
    }
    // "Converting back is allowed exactly when both are 0, else refusal 15".
    match faults::chosen() {
        Some(Fault::BackDropsWaits) => read.refuse_edition(to)?,
        Some(Fault::BackDropsEdition) => read.refuse_waits(to)?,
        _ => read.refuse_without_place(to)?,
    }
    short_target?;
    if faults::on(Fault::ConvertsToFront) {
        to.put(&full, &mut target[..to.length()]);
        return Ok(());
    }
    to.put(&full, target);
    Ok(())
}

impl Controller {
    /// Write a sheet. "sheet writing 1, 9"; document 02, A2: "writing such a state is refusal 15,
    /// after 1 and 9".
    pub fn write_sheet(self, form: Form, slice: &mut [u8]) -> Result<(), Refusal> {
        let short = form.refuse_short(slice);
        match faults::chosen() {
            Some(Fault::FifteenBeforeOne) if short.is_ok() => self.refuse_without_place(form)?,
            Some(Fault::WaitsBeforeOne) if short.is_ok() => self.refuse_waits(form)?,
            _ => {}
        }
        self.refuse_broken()?;
        match faults::chosen() {
            Some(Fault::FifteenBeforeNine) => self.refuse_without_place(form)?,
            Some(Fault::WaitsBeforeNine) => self.refuse_waits(form)?,
            _ => {}
        }
        short?;
        self.refuse_without_place(form)?;
        form.put(&self.full(), slice);
        Ok(())
    }

    /// "Form 1 has no place for the edition", nor for waits.
    fn refuse_without_place(self, form: Form) -> Result<(), Refusal> {
        if faults::on(Fault::FifteenNeedsBoth) && !(self.is_intel() && self.waits != 0) {
            return Ok(());
        }
        self.refuse_edition(form)?;
        self.refuse_waits(form)
    }

    fn refuse_edition(self, form: Form) -> Result<(), Refusal> {
        if self.is_intel() && !form.holds_all() && !faults::on(Fault::IntelSheetWritten) {
            return Err(Refusal::NoPlace);
        }
        Ok(())
    }

    /// Document 02, A3: "A state with waits can't go into form 1: refusal 15."
    fn refuse_waits(self, form: Form) -> Result<(), Refusal> {
        if self.waits != 0 && !form.holds_all() && !faults::on(Fault::WaitsSheetWritten) {
            return Err(Refusal::NoPlace);
        }
        Ok(())
    }

    /// Read a sheet: "sheet reading 9 to 14 in order". One of form 1 gives an Am9517A without waits.
    pub fn read_sheet(form: Form, slice: &[u8]) -> Result<Controller, Refusal> {
        if faults::on(Fault::OneReadsTwo) && Form::Two.take(slice).is_ok() && form == Form::One {
            return Controller::read_sheet(Form::Two, slice);
        }
        let full = form.take(slice)?;
        form.refuse_range(&full)?;
        Ok(Controller::from_full(&full))
    }
}
