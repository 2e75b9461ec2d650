//! "Refusal numbers": each number, and the order when several hold.

use crate::*;
use second::state::Refusal;

fn broken() -> Controller {
    Controller { tc: 16, ..Controller::fresh() }
}

fn open() -> Controller {
    serving(Controller::fresh(), 0)
}

#[test]
fn refusal_1_goes_before_all_others() {
    let broken_open = Controller { in_service: 1, ..broken() };
    for now in [broken(), broken_open] {
        assert_eq!(now.write(16, 0), Err(Refusal::BrokenState));
        assert_eq!(now.read(16), Err(Refusal::BrokenState));
        assert_eq!(now.set_pins(16), Err(Refusal::BrokenState));
        assert_eq!(now.reset(), Err(Refusal::BrokenState));
        assert_eq!(now.grant(), Err(Refusal::BrokenState));
        assert_eq!(now.run(&mut [], &[], &mut [], 1, 0), Err(Refusal::BrokenState));
        assert_eq!(now.round(&mut [], &[], &mut [], 5_000), Err(Refusal::BrokenState));
        assert_eq!(now.write_sheet(Form::One, &mut []), Err(Refusal::BrokenState));
    }
}

/// Each range just kept and just broken, by body byte.
#[test]
fn refusal_1_for_each_range() {
    let idle = Controller::fresh().body();
    let mut serving = open().body();
    serving[46] = 1;
    let cases: [(&[u8; 48], usize, u8, bool); 34] = [
        (&idle, 8, 0x04, true),
        (&idle, 8, 0x01, false),
        (&idle, 17, 0x02, false),
        (&idle, 26, 0x0C, false),
        (&idle, 35, 0x4C, false),
        (&idle, 8, 0x8C, false),
        (&idle, 8, 0xCC, true),
        (&idle, 8, 0xCE, false),
        (&idle, 37, 15, true),
        (&idle, 37, 16, false),
        (&idle, 38, 15, true),
        (&idle, 38, 16, false),
        (&idle, 39, 0, true),
        (&idle, 39, 16, false),
        (&idle, 41, 1, true),
        (&idle, 41, 2, false),
        (&idle, 42, 15, true),
        (&idle, 42, 16, false),
        (&idle, 43, 2, true),
        (&idle, 43, 4, false),
        (&idle, 44, 1, true),
        (&idle, 44, 2, false),
        (&idle, 45, 1, false),
        (&idle, 46, 1, false),
        (&idle, 47, 1, false),
        (&serving, 45, 3, true),
        (&serving, 45, 4, false),
        (&serving, 46, 0, true),
        (&serving, 46, 2, false),
        (&serving, 47, 0xFF, true),
        (&serving, 44, 0, false),
        (&idle, 36, 0xFF, true),
        (&idle, 40, 0xFF, true),
        (&idle, 0, 0xFF, true),
    ];
    for (body, at, byte, holds) in cases {
        let mut changed = *body;
        changed[at] = byte;
        let now = Controller::from_body(&changed);
        assert_eq!(now.body(), changed);
        assert_eq!(now.ranges_hold(), holds, "byte {at} = {byte:#x}");
        assert_eq!(now.reset().is_ok(), holds);
    }
    let mut full = serving;
    full[46] = 0;
    full[47] = 1;
    assert!(!Controller::from_body(&full).ranges_hold());
}

#[test]
fn refusal_2() {
    let now = Controller::fresh();
    assert_eq!(now.write(16, 0xFF), Err(Refusal::TooLarge));
    assert_eq!(open().read(u32::MAX), Err(Refusal::TooLarge));
    assert!(now.set_pins(15).is_ok());
    assert_eq!(now.set_pins(16), Err(Refusal::TooLarge));
    assert_eq!(now.set_pins(0x100), Err(Refusal::TooLarge));
    assert_eq!(open().round(&mut [], &[], &mut [], 4_097), Err(Refusal::TooLarge));
}

#[test]
fn refusal_3_goes_before_4_5_and_6() {
    assert_eq!(open().write(0xE, 0), Err(Refusal::DuringService));
    assert_eq!(open().write(0xB, 0x0C), Err(Refusal::DuringService));
    assert_eq!(open().write(0xD, 0), Err(Refusal::DuringService));
    assert_eq!(open().read(0xF), Err(Refusal::DuringService));
    assert_eq!(open().grant(), Err(Refusal::DuringService));
    let round = |memory: &mut [u8]| open().round(memory, &[], &mut [], 0);
    assert_eq!(round(&mut memory()), Err(Refusal::DuringService));
    assert_eq!(round(&mut [0; 9]), Err(Refusal::MemoryLength));
}

#[test]
fn refusal_4() {
    let now = Controller::fresh();
    for register in 0..16 {
        let illegal = [9, 0xA, 0xB, 0xC, 0xE, 0xF].contains(&register);
        assert_eq!(now.read(register) == Err(Refusal::IllegalRegister), illegal);
        let written = now.write(register, 0);
        assert_eq!(written == Err(Refusal::IllegalRegister), register == 0xE);
    }
}

#[test]
fn refusal_5() {
    let now = Controller::fresh();
    for byte in 0..=255u8 {
        let refused = byte & 0x0C == 0x0C && byte >> 6 != 3;
        assert_eq!(now.write(0xB, byte) == Err(Refusal::IllegalMode), refused);
    }
}

#[test]
fn refusal_6() {
    let now = Controller::fresh();
    assert_eq!(now.grant(), Err(Refusal::NobodyEntitled));
    let masked = Controller { pins: 15, ..now };
    assert_eq!(masked.grant(), Err(Refusal::NobodyEntitled));
    let disabled = Controller { mask: 0, command: 4, ..masked };
    assert_eq!(disabled.grant(), Err(Refusal::NobodyEntitled));
}

#[test]
fn refusal_7_goes_before_8() {
    let now = Controller::fresh();
    assert_eq!(now.run(&mut [0; 65_537], &[], &mut [], 1, 0), Err(Refusal::MemoryLength));
    assert_eq!(now.round(&mut [], &[], &mut [], 0), Err(Refusal::MemoryLength));
}

#[test]
fn refusal_8() {
    let now = Controller::fresh();
    assert_eq!(now.run(&mut memory(), &[], &mut [], 1, 0), Err(Refusal::NoService));
}

#[test]
fn refusal_9() {
    assert_eq!(Controller::fresh().write_sheet(Form::One, &mut []), Err(Refusal::ShortSlice));
    assert_eq!(Controller::read_sheet(Form::One, &[0; 55]), Err(Refusal::ShortSlice));
}

fn sheet() -> Vec<u8> {
    let mut slice = vec![0xEE; 60];
    Controller::fresh().write_sheet(Form::One, &mut slice).unwrap();
    slice
}

fn changed(places: &[usize]) -> Result<Controller, Refusal> {
    let mut slice = sheet();
    for place in places {
        slice[4 + place] ^= 0x55;
    }
    Controller::read_sheet(Form::One, &slice)
}

#[test]
fn refusals_10_to_13_in_order() {
    assert_eq!(Controller::read_sheet(Form::One, &sheet()), Ok(Controller::fresh()));
    assert_eq!(changed(&[54, 48, 50, 52, 37]), Err(Refusal::EndMark));
    assert_eq!(changed(&[55]), Err(Refusal::EndMark));
    assert_eq!(changed(&[48, 50, 52, 37]), Err(Refusal::Form));
    assert_eq!(changed(&[49]), Err(Refusal::Form));
    assert_eq!(changed(&[50, 52, 37]), Err(Refusal::Distance));
    assert_eq!(changed(&[51]), Err(Refusal::Distance));
    assert_eq!(changed(&[52, 37]), Err(Refusal::Sum));
    assert_eq!(changed(&[53]), Err(Refusal::Sum));
    assert_eq!(changed(&[37]), Err(Refusal::Sum));
}

#[test]
fn refusal_14() {
    let mut slice = sheet();
    slice[4 + 37] = 16;
    slice[4 + 52] += 16;
    assert_eq!(Controller::read_sheet(Form::One, &slice), Err(Refusal::Range));
}
