//! Document 02, A5: "Sheets of form 2, and back."

use crate::*;
use second::sheet::convert;
use second::state::{Refusal, AM9517A, INTEL};

/// An idle state and one in service, with these edition and waits.
fn states(edition: u8, waits: u8) -> [Controller; 2] {
    let mut idle = with_channel(0, 0x1234, 0x5678, 0x98);
    set_channel(&mut idle, 3, 0xFEDC, 0xFFFF, 0xFC);
    let idle = Controller { edition, waits, command: 0xFF, temporary: 0xA5, pins: 9, ..idle };
    [idle, Controller { latch_full: 1, latch: 0xFE, ..serving(idle, 3) }]
}

fn sheet(form: Form, state: Controller, length: usize) -> Vec<u8> {
    let mut slice = vec![0xEE; length];
    state.write_sheet(form, &mut slice).unwrap();
    slice
}

/// A sheet with the right sum for these 50 bytes, whatever they are.
fn sheet_of_any(form: Form, state: Controller) -> Vec<u8> {
    form.sheet(&state.full())
}

fn forward(source: &[u8], length: usize) -> Result<Vec<u8>, Refusal> {
    converted(Form::One, source, Form::Two, length)
}

fn back(source: &[u8], length: usize) -> Result<Vec<u8>, Refusal> {
    converted(Form::Two, source, Form::One, length)
}

/// The target after the conversion; refused, it is "untouched".
fn converted(from: Form, source: &[u8], to: Form, length: usize) -> Result<Vec<u8>, Refusal> {
    let mut target = vec![0xEE; length];
    let done = convert(from, source, to, &mut target);
    if done.is_err() {
        assert_eq!(target, vec![0xEE; length]);
    }
    done.map(|()| target)
}

/// "edition (0 or 1), waits, then the 48 bytes of form 1; the trailer says form 2 and distance 50,
/// so 58 bytes", byte by byte.
#[test]
fn the_58_bytes() {
    let now = Controller { waits: 0xFF, ..Controller::fresh_of(INTEL) };
    let mut wanted = vec![0xEE; 3];
    wanted.extend([1, 0xFF]);
    wanted.extend(now.body());
    wanted.extend([0x02, 0x00, 0x32, 0x00, 0x12, 0x01, 0x44, 0x4D]);
    assert_eq!(sheet(Form::Two, now, 61), wanted);
    assert_eq!(Controller::read_sheet(Form::Two, &wanted), Ok(now));
    assert_eq!((Form::One.length(), Form::Two.length()), (56, 58));
}

#[test]
fn every_edition_and_all_waits_are_stored_and_read() {
    for edition in [AM9517A, INTEL] {
        for waits in 0..=255 {
            for now in states(edition, waits) {
                let slice = sheet(Form::Two, now, 60);
                assert_eq!(slice[..2], [0xEE; 2]);
                assert_eq!(slice[2..52], now.full());
                let sum: u32 = slice[2..52].iter().map(|&byte| u32::from(byte)).sum();
                assert_eq!(u32::from(slice[56]) + 256 * u32::from(slice[57]), sum);
                assert_eq!(Controller::read_sheet(Form::Two, &slice), Ok(now));
            }
        }
    }
}

/// "Reading and writing form 2 keep 01's order, with 58 in refusal 9": 1, 9, and never 15.
#[test]
fn writing_is_refused_in_order() {
    for (edition, waits) in [(AM9517A, 0), (INTEL, 0), (AM9517A, 1), (INTEL, 255)] {
        for now in states(edition, waits) {
            for length in [0, 8, 56, 57, 58, 59] {
                let mut slice = vec![0xEE; length];
                let wanted = if length < 58 { Err(Refusal::ShortSlice) } else { Ok(()) };
                assert_eq!(now.write_sheet(Form::Two, &mut slice), wanted);
                let mut slice = vec![0xEE; length];
                for broken in [Controller { tc: 16, ..now }, Controller { edition: 2, ..now }] {
                    let refused = broken.write_sheet(Form::Two, &mut slice);
                    assert_eq!(refused, Err(Refusal::BrokenState));
                }
                assert_eq!(slice, vec![0xEE; length]);
            }
        }
    }
}

/// The sheet with these places of its 58 bytes changed, and its sum left.
fn changed(places: &[usize]) -> Result<Controller, Refusal> {
    let mut slice = sheet(Form::Two, states(INTEL, 7)[1], 60);
    for place in places {
        slice[2 + place] ^= 0x55;
    }
    Controller::read_sheet(Form::Two, &slice)
}

#[test]
fn reading_is_refused_in_order() {
    assert_eq!(changed(&[]), Ok(states(INTEL, 7)[1]));
    assert_eq!(changed(&[56, 50, 52, 54, 0]), Err(Refusal::EndMark));
    assert_eq!(changed(&[57]), Err(Refusal::EndMark));
    assert_eq!(changed(&[50, 52, 54, 0]), Err(Refusal::Form));
    assert_eq!(changed(&[51]), Err(Refusal::Form));
    assert_eq!(changed(&[52, 54, 0]), Err(Refusal::Distance));
    assert_eq!(changed(&[53]), Err(Refusal::Distance));
    for place in (0..50).chain(54..56) {
        assert_eq!(changed(&[place]), Err(Refusal::Sum), "{place}");
    }
    let whole = sheet(Form::Two, states(INTEL, 7)[1], 58);
    for length in 0..58 {
        let short = &whole[58 - length..];
        assert_eq!(Controller::read_sheet(Form::Two, short), Err(Refusal::ShortSlice));
    }
}

/// "the edition's range under 14"; the waits have none, and the 48 bytes have theirs.
#[test]
fn ranges_are_refused_last() {
    for edition in 0..=255 {
        for now in states(edition, 9) {
            let read = Controller::read_sheet(Form::Two, &sheet_of_any(Form::Two, now));
            let wanted = if edition < 2 { Ok(now) } else { Err(Refusal::Range) };
            assert_eq!(read, wanted);
        }
    }
    let broken = Controller { flip_flop: 2, ..states(INTEL, 9)[0] };
    let read = Controller::read_sheet(Form::Two, &sheet_of_any(Form::Two, broken));
    assert_eq!(read, Err(Refusal::Range));
}

/// "A form 1 reader answers 11 to a form 2 sheet"; a form 2 reader, to one of form 1 that has two
/// bytes before it.
#[test]
fn each_reader_refuses_the_other_form() {
    for now in states(AM9517A, 0) {
        let two = sheet(Form::Two, now, 58);
        assert_eq!(Controller::read_sheet(Form::One, &two), Err(Refusal::Form));
        assert_eq!(forward(&two, 58), Err(Refusal::Form));
        for (length, wanted) in
            [(56, Refusal::ShortSlice), (57, Refusal::ShortSlice), (58, Refusal::Form)]
        {
            let one = sheet(Form::One, now, length);
            assert_eq!(Controller::read_sheet(Form::Two, &one), Err(wanted));
            assert_eq!(back(&one, 56), Err(wanted));
        }
    }
}

/// "Old sheets convert with edition 0 and waits 0"; "Forward and back gives the same bytes."
#[test]
fn forward_and_back() {
    for now in states(AM9517A, 0) {
        for (before, length) in [(0, 58), (0, 59), (1, 58), (44, 200)] {
            let old = sheet(Form::One, now, 56 + before);
            let new = forward(&old, length).unwrap();
            assert_eq!(new, sheet(Form::Two, now, length));
            assert_eq!(Controller::read_sheet(Form::Two, &new), Ok(now));
            assert_eq!(back(&new, old.len()), Ok(old));
        }
    }
}

/// "Converting back is allowed exactly when both are 0, else refusal 15, target untouched."
#[test]
fn back_without_edition_and_waits_only() {
    for edition in [AM9517A, INTEL] {
        for waits in 0..=255 {
            for now in states(edition, waits) {
                let got = back(&sheet(Form::Two, now, 58), 57);
                if (edition, waits) == (AM9517A, 0) {
                    assert_eq!(got, Ok(sheet(Form::One, now, 57)));
                } else {
                    assert_eq!(got, Err(Refusal::NoPlace));
                }
            }
        }
    }
}

/// "Either way the order is 9 (source or target too short), 10 to 14, then 15."
#[test]
fn converting_is_refused_in_order() {
    let now = states(AM9517A, 0)[1];
    for (from, to) in [(Form::One, Form::Two), (Form::Two, Form::One)] {
        let [source, target] = [from.length(), to.length()];
        let right = sheet(from, now, source);
        for bad in [vec![0; source], right.clone()] {
            let short = Err(Refusal::ShortSlice);
            assert_eq!(converted(from, &bad, to, target - 1), short);
            assert_eq!(converted(from, &bad, to, 0), short);
            assert_eq!(converted(from, &bad[1..], to, target), short);
            assert_eq!(converted(from, &[], to, 0), short);
        }
        for (at, wanted) in [
            (6, Refusal::EndMark),
            (7, Refusal::EndMark),
            (0, Refusal::Form),
            (1, Refusal::Form),
            (2, Refusal::Distance),
            (3, Refusal::Distance),
            (4, Refusal::Sum),
            (5, Refusal::Sum),
        ] {
            let mut bad = right.clone();
            bad[from.body_length() + at] ^= 0x55;
            assert_eq!(converted(from, &bad, to, target), Err(wanted));
        }
        let broken = sheet_of_any(from, Controller { lowest: 4, ..now });
        assert_eq!(converted(from, &broken, to, target), Err(Refusal::Range));
    }
}

/// Where 15 would hold as well, all others come before it.
#[test]
fn back_is_refused_by_15_last() {
    for (edition, waits) in [(INTEL, 0), (AM9517A, 1), (INTEL, 255)] {
        let now = states(edition, waits)[0];
        let right = sheet(Form::Two, now, 58);
        assert_eq!(back(&right, 56), Err(Refusal::NoPlace));
        assert_eq!(back(&right, 55), Err(Refusal::ShortSlice));
        assert_eq!(back(&right[1..], 56), Err(Refusal::ShortSlice));
        for (at, wanted) in [
            (57, Refusal::EndMark),
            (51, Refusal::Form),
            (53, Refusal::Distance),
            (54, Refusal::Sum),
        ] {
            let mut bad = right.clone();
            bad[at] ^= 0x55;
            assert_eq!(back(&bad, 56), Err(wanted));
        }
        for broken in [Controller { mask: 16, ..now }, Controller { edition: 2, ..now }] {
            let sheet = sheet_of_any(Form::Two, broken);
            assert_eq!(back(&sheet, 56), Err(Refusal::Range));
        }
    }
}
