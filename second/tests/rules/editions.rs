//! Document 02, A2: "The Intel sheet."

use crate::*;
use second::round::RoundStop;
use second::state::{Refusal, AM9517A, FULL_LENGTH, INTEL};

const EDITIONS: [u8; 2] = [AM9517A, INTEL];
const NO_EDITIONS: [u8; 4] = [2, 3, 0x80, 0xFF];

fn of(edition: u8, controller: Controller) -> Controller {
    Controller { edition, ..controller }
}

/// An idle state in which every field is something else than fresh.
fn full_of_values(edition: u8) -> Controller {
    let mut now = Controller::fresh_of(edition);
    for number in 0..4 {
        let mode = [DEMAND, SINGLE, READ_BLOCK, CASCADE | AUTOINITIALIZE][number];
        set_channel(&mut now, number, 0x1234 * (number as u16 + 1), 7 + number as u16, mode);
    }
    now.command = 0x33;
    now.tc = 9;
    now.request = 6;
    now.mask = 5;
    now.temporary = 0xA5;
    now.flip_flop = 1;
    now.pins = 3;
    now.lowest = 1;
    now
}

/// "chosen when a state is made"
#[test]
fn a_fresh_state_of_each_edition() {
    assert_eq!(Controller::fresh(), Controller::fresh_of(AM9517A));
    assert_eq!(Controller::fresh().edition, 0);
    let intel = Controller::fresh_of(INTEL);
    assert_eq!(intel, Controller { edition: 1, ..Controller::fresh() });
    assert_eq!(intel.body(), Controller::fresh().body());
}

/// "a write of register E clears all four mask bits", whatever the byte, and changes nothing else.
#[test]
fn intel_e_clears_all_four_mask_bits() {
    for mask in 0..16 {
        for flip_flop in 0..2 {
            let now = Controller { mask, flip_flop, ..full_of_values(INTEL) };
            for byte in 0..=255 {
                assert_eq!(now.write(0xE, byte), Ok(Controller { mask: 0, ..now }));
            }
        }
    }
}

#[test]
fn am9517a_e_is_refused_by_4() {
    for mask in 0..16 {
        let now = Controller { mask, ..full_of_values(AM9517A) };
        for byte in 0..=255 {
            assert_eq!(now.write(0xE, byte), Err(Refusal::IllegalRegister));
        }
    }
}

/// "write 1, 2, 3, 4, 5": what comes before 4 still does.
#[test]
fn order_of_refusals_on_a_write_of_e() {
    for edition in EDITIONS {
        let idle = Controller::fresh_of(edition);
        let open = serving(idle, 2);
        let broken = Controller { lowest: 4, ..open };
        assert_eq!(broken.write(0xE, 0), Err(Refusal::BrokenState));
        assert_eq!(open.write(0x1E, 0), Err(Refusal::TooLarge));
        assert_eq!(idle.write(0x1E, 0), Err(Refusal::TooLarge));
        assert_eq!(open.write(0xE, 0), Err(Refusal::DuringService));
        assert_eq!(open.write(0xE, 0xFF), Err(Refusal::DuringService));
    }
    for edition in NO_EDITIONS {
        assert_eq!(Controller::fresh_of(edition).write(0xE, 0), Err(Refusal::BrokenState));
    }
}

/// "Refusal 4 no longer covers that write there": the read it covers in both.
#[test]
fn a_read_of_e_is_refused_in_both() {
    for edition in EDITIONS {
        let idle = full_of_values(edition);
        assert_eq!(idle.read(0xE), Err(Refusal::IllegalRegister));
        assert_eq!(serving(idle, 0).read(0xE), Err(Refusal::DuringService));
        assert_eq!(idle.read(0x1E), Err(Refusal::TooLarge));
        assert_eq!(Controller { tc: 16, ..idle }.read(0xE), Err(Refusal::BrokenState));
    }
}

/// 001: "clears the mask bits of all four channels, enabling them to accept DMA requests".
#[test]
fn e_lets_the_lines_in() {
    let masked = Controller { pins: 12, ..Controller::fresh_of(INTEL) };
    assert_eq!(masked.grant(), Err(Refusal::NobodyEntitled));
    let open = masked.write(0xE, 0xFF).unwrap();
    assert_eq!(open.grant().unwrap().1, 2);
}

/// "What both editions share": all other registers, pins, grants.
#[test]
fn other_registers_know_no_edition() {
    let [ours, intel] = EDITIONS.map(full_of_values);
    for register in (0..20).filter(|&register| register != 0xE) {
        for byte in 0..=255 {
            let wanted = ours.write(register, byte).map(|next| of(INTEL, next));
            assert_eq!(intel.write(register, byte), wanted);
        }
        let wanted = ours.read(register).map(|(next, byte)| (of(INTEL, next), byte));
        assert_eq!(intel.read(register), wanted);
    }
    for pins in 0..20 {
        let wanted = ours.set_pins(pins).map(|next| of(INTEL, next));
        assert_eq!(intel.set_pins(pins), wanted);
    }
    let (next, channel) = ours.grant().unwrap();
    assert_eq!(intel.grant(), Ok((of(INTEL, next), channel)));
}

/// The serving channel's line active, no bit of mask or TC set, all request bits.
fn open(edition: u8, number: u8, count: u16, mode: u8) -> Controller {
    let mut open = with_channel(usize::from(number), 0x1234, count, mode);
    open.pins = 1 << number;
    open.mask = 0;
    open.request = 15;
    of(edition, serving(open, number))
}

/// P7 in both editions: "count 9, block, EOP at transfer 2: count 7, TC clear, mask set".
#[test]
fn p7_has_its_tc_bit_in_intel() {
    for (edition, tc) in [(AM9517A, 0), (INTEL, 1)] {
        let (next, stop, got) = plain_run(open(edition, 0, 9, VERIFY_BLOCK), 99, 2);
        assert_eq!((stop, got.transfers), (Stop::Ended, 2));
        assert_eq!((next.channels[0].current_count, next.tc, next.mask), (7, tc, 1));
        assert_eq!(next.edition, edition);
    }
}

/// EOP alone, in each mode that transfers, of each channel, with autoinitialize and without.
#[test]
fn eop_alone() {
    for (edition, number) in EDITIONS.into_iter().flat_map(|e| (0..4).map(move |n| (e, n))) {
        let bit = 1 << number;
        for mode in [DEMAND, SINGLE, VERIFY_BLOCK] {
            let (next, stop, got) = plain_run(open(edition, number, 9, mode), 99, 1);
            let channel = next.channels[usize::from(number)];
            assert_eq!((stop, got.transfers, channel.current_count), (Stop::Ended, 1, 8));
            assert_eq!((next.tc, next.mask, next.request), (edition * bit, bit, 15 - bit));
            let again = open(edition, number, 9, mode | AUTOINITIALIZE);
            let (next, stop, got) = plain_run(again, 99, 1);
            assert_eq!((stop, got.transfers), (Stop::Ended, 1));
            assert_eq!(next.channels, again.channels);
            assert_eq!((next.tc, next.mask, next.request), (edition * bit, 0, 15 - bit));
        }
    }
}

/// Writes and reads as well as verify.
#[test]
fn eop_alone_with_bytes_moving() {
    for edition in EDITIONS {
        let write = open(edition, 3, 9, WRITE_BLOCK);
        let (next, stop, got) = write.run(&mut memory(), &[1, 2, 3], &mut [], 99, 3).unwrap();
        assert_eq!((stop, got, next.tc), (Stop::Ended, tally(3, 3, 0, 10), 8 * edition));
        let read = open(edition, 3, 9, READ_BLOCK);
        let (next, stop, got) = read.run(&mut memory(), &[], &mut [0; 3], 99, 3).unwrap();
        assert_eq!((stop, got, next.tc), (Stop::Ended, tally(3, 0, 3, 10), 8 * edition));
        // One byte fewer, and the transfer that would have met EOP isn't made.
        let (next, stop, _) = read.run(&mut memory(), &[], &mut [0; 2], 99, 3).unwrap();
        assert_eq!((stop, next.tc, next.mask), (Stop::Short, 0, 0));
    }
}

#[test]
fn eop_together_with_tc() {
    for edition in EDITIONS {
        for mode in [DEMAND, SINGLE, VERIFY_BLOCK] {
            let (next, stop, _) = plain_run(open(edition, 2, 0, mode), 9, 1);
            assert_eq!((stop, next.tc, next.mask, next.request), (Stop::Ended, 4, 4, 11));
            let (next, stop, _) = plain_run(open(edition, 2, 0, mode | AUTOINITIALIZE), 9, 1);
            assert_eq!((stop, next.tc, next.mask, next.request), (Stop::Ended, 4, 0, 11));
        }
    }
}

/// No EOP, or one the call doesn't come to: TC alone sets the bit.
#[test]
fn no_eop_met() {
    for edition in EDITIONS {
        for eop in [0, 4, u32::MAX] {
            let (next, stop, _) = plain_run(open(edition, 1, 2, VERIFY_BLOCK), 99, eop);
            assert_eq!((stop, next.tc), (Stop::Ended, 2));
            let (next, stop, _) = plain_run(open(edition, 1, 9, VERIFY_BLOCK), 3, eop);
            assert_eq!((stop, next.tc, next.mask), (Stop::Limit, 0, 0));
        }
        // A single service's plain end is no EOP.
        for eop in [0, 2] {
            let (next, stop, got) = plain_run(open(edition, 1, 9, SINGLE), 99, eop);
            assert_eq!((stop, got.transfers), (Stop::Ended, 1));
            assert_eq!((next.tc, next.mask, next.request), (0, 0, 15));
        }
    }
}

/// "dropped" and "cascade" come before the transfer that would meet EOP.
#[test]
fn eop_without_a_transfer() {
    for edition in EDITIONS {
        for mode in [DEMAND, CASCADE] {
            let dropped = Controller { pins: 0, ..open(edition, 2, 9, mode) };
            let (next, stop, _) = plain_run(dropped, 9, 1);
            assert_eq!((stop, next.tc, next.mask), (Stop::Dropped, 0, 0));
        }
        let cascade = open(edition, 2, 9, CASCADE);
        assert_eq!(plain_run(cascade, 9, 1), (cascade, Stop::Cascade, tally(0, 0, 0, 0)));
        let block = open(edition, 2, 9, VERIFY_BLOCK);
        assert_eq!(plain_run(block, 0, 1), (block, Stop::Limit, tally(0, 0, 0, 0)));
    }
}

/// "counted from 1" in each call, in both editions.
#[test]
fn eop_in_a_later_call() {
    for edition in EDITIONS {
        let (cut, stop, _) = plain_run(open(edition, 0, 9, VERIFY_BLOCK), 3, 4);
        assert_eq!((stop, cut.tc, cut.edition), (Stop::Limit, 0, edition));
        let (next, stop, got) = plain_run(cut, 99, 2);
        assert_eq!((stop, got.transfers, next.tc), (Stop::Ended, 2, edition));
    }
}

/// TC bits of other channels, and one set before, stay.
#[test]
fn other_tc_bits_stay() {
    for edition in EDITIONS {
        for tc in 0..16 {
            let now = Controller { tc, ..open(edition, 2, 9, VERIFY_BLOCK) };
            assert_eq!(plain_run(now, 9, 1).0.tc, tc | (4 * edition));
        }
    }
}

/// What a driver sees: the status byte.
#[test]
fn the_status_tells_of_eop_in_intel() {
    for edition in EDITIONS {
        let (next, ..) = plain_run(open(edition, 3, 9, VERIFY_BLOCK), 9, 1);
        let (next, status) = Controller { pins: 0, request: 0, ..next }.read(8).unwrap();
        assert_eq!((status, next.tc), (8 * edition, 0));
    }
}

/// Memory-to-memory with these modes, TC bits clear, no mask.
fn pair(edition: u8, zero_mode: u8, one_mode: u8) -> Controller {
    let mut now = with_channel(0, 0x100, 20, zero_mode);
    set_channel(&mut now, 1, 0x4000, 4, one_mode);
    now.command = 1;
    now.mask = 0;
    now.request = 15;
    of(edition, serving(now, 0))
}

/// "(channel 1 in memory-to-memory)": in every mode of both channels.
#[test]
fn eop_in_memory_to_memory() {
    let modes = [DEMAND, SINGLE, VERIFY_BLOCK, CASCADE];
    for edition in EDITIONS {
        for (zero, one) in modes.into_iter().flat_map(|z| modes.map(|o| (z, o))) {
            for (zero, one) in [(zero, one), (zero | AUTOINITIALIZE, one)] {
                let (next, stop, got) = plain_run(pair(edition, zero, one), 99, 3);
                assert_eq!((stop, got), (Stop::Ended, tally(3, 0, 0, 24)));
                assert_eq!((next.tc, next.mask, next.request), (2 * edition, 2, 12));
                assert_eq!(next.channels[0].current_count, 17);
                assert_eq!(next.channels[1].current_count, 1);
                let again = pair(edition, zero, one | AUTOINITIALIZE);
                let (next, stop, _) = plain_run(again, 99, 3);
                assert_eq!((stop, next.tc, next.mask), (Stop::Ended, 2 * edition, 0));
                assert_eq!(next.channels[1], again.channels[1]);
            }
        }
    }
}

#[test]
fn eop_with_tc_in_memory_to_memory() {
    for edition in EDITIONS {
        for (eop, transfers) in [(0, 5), (5, 5), (6, 5)] {
            let (next, stop, got) = plain_run(pair(edition, SINGLE, SINGLE), 99, eop);
            assert_eq!((stop, got.transfers, next.tc), (Stop::Ended, transfers, 2));
        }
        for tc in 0..16 {
            let now = Controller { tc, ..pair(edition, SINGLE, SINGLE) };
            assert_eq!(plain_run(now, 99, 1).0.tc, tc | (2 * edition));
        }
    }
}

/// Channel 0's count passing 0 on the transfer that meets EOP is still no TC of channel 0.
#[test]
fn eop_where_channel_0_passes_0() {
    for edition in EDITIONS {
        for mode in [VERIFY_BLOCK, VERIFY_BLOCK | AUTOINITIALIZE] {
            let mut now = pair(edition, mode, VERIFY_BLOCK);
            now.channels[0].current_count = 2;
            let (next, stop, _) = plain_run(now, 99, 3);
            assert_eq!((stop, next.tc, next.mask), (Stop::Ended, 2 * edition, 2));
            let left = if mode & AUTOINITIALIZE == 0 { 0xFFFF } else { 20 };
            assert_eq!(next.channels[0].current_count, left);
        }
    }
}

/// Under command bit 0, channels 1, 2 and 3 are served in the ordinary way.
#[test]
fn eop_of_another_channel_under_command_bit_0() {
    for edition in EDITIONS {
        for number in 1..4 {
            let now = Controller { command: 1, ..open(edition, number, 9, VERIFY_BLOCK) };
            assert_eq!(plain_run(now, 99, 2).0.tc, edition << number);
        }
    }
}

/// But for the TC bit, a run is the same in both: state, memory, room, counts.
#[test]
fn runs_share_all_else() {
    for eop in 0..8 {
        for mode in [WRITE_BLOCK, READ_BLOCK, SINGLE | 4, DEMAND | 8, DECREMENT | 0x94] {
            let run = |edition| {
                let mut memory: Vec<u8> = (0..65_536).map(|place| place as u8).collect();
                let mut room = [0xEE; 9];
                let now = open(edition, 1, 5, mode);
                let got = now.run(&mut memory, &[9, 8, 7, 6, 5, 4, 3], &mut room, 7, eop).unwrap();
                (of(AM9517A, Controller { tc: 0, ..got.0 }), got.1, got.2, memory, room)
            };
            assert!(run(AM9517A) == run(INTEL));
        }
    }
}

/// A round has no EOP, so it is the same in both.
#[test]
fn rounds_are_the_same() {
    let run = |edition| {
        let mut now = of(edition, with_channel(0, 0, 3, VERIFY_BLOCK));
        set_channel(&mut now, 1, 0x4000, 2, SINGLE | AUTOINITIALIZE);
        now.mask = 0;
        now.pins = 3;
        now.round(&mut memory(), &[], &mut [], 9).unwrap()
    };
    let (next, stop, got) = run(AM9517A);
    assert_eq!((stop, got.services, next.tc), (RoundStop::Done, [1, 8, 0, 0], 3));
    assert_eq!(run(INTEL), (of(INTEL, next), stop, got));
}

/// "kept in it through reset"; master clear is "as reset".
#[test]
fn reset_and_master_clear_keep_the_edition() {
    for edition in EDITIONS {
        let now = full_of_values(edition);
        let next = now.reset().unwrap();
        let channels = now.channels;
        assert_eq!(next, Controller { channels, pins: 3, ..Controller::fresh_of(edition) });
        for byte in [0, 1, 0xFF] {
            assert_eq!(now.write(0xD, byte), Ok(next));
        }
        assert_eq!(serving(now, 2).reset(), Ok(next));
        assert_eq!(serving(now, 2).write(0xD, 0), Err(Refusal::DuringService));
    }
}

/// An Intel state stays one through all operations that make the next state.
#[test]
fn every_operation_keeps_the_edition() {
    for edition in EDITIONS {
        let now = full_of_values(edition);
        for register in (0..16).filter(|&register| register != 0xE) {
            assert_eq!(now.write(register, 0x80).unwrap().edition, edition);
        }
        for register in [0, 7, 8, 0xD] {
            assert_eq!(now.read(register).unwrap().0.edition, edition);
        }
        assert_eq!(now.set_pins(15).unwrap().edition, edition);
        let round = now.round(&mut memory(), &[], &mut [], 2).unwrap();
        assert_eq!(round.0.edition, edition);
        let granted = now.grant().unwrap().0;
        assert_eq!(granted.edition, edition);
        assert_eq!(plain_run(granted, 1, 0).0.edition, edition);
    }
}

/// An edition over 1 breaks a range: refusal 1 in every operation, before all others.
#[test]
fn no_other_edition() {
    for edition in NO_EDITIONS {
        for now in [Controller::fresh_of(edition), serving(Controller::fresh_of(edition), 1)] {
            assert!(!now.ranges_hold());
            for register in 0..17 {
                assert_eq!(now.write(register, 0), Err(Refusal::BrokenState));
                assert_eq!(now.read(register), Err(Refusal::BrokenState));
                assert_eq!(now.set_pins(register), Err(Refusal::BrokenState));
            }
            assert_eq!(now.reset(), Err(Refusal::BrokenState));
            assert_eq!(now.grant(), Err(Refusal::BrokenState));
            assert_eq!(now.run(&mut memory(), &[], &mut [], 1, 0), Err(Refusal::BrokenState));
            assert_eq!(now.run(&mut [], &[], &mut [], 1, 1), Err(Refusal::BrokenState));
            assert_eq!(now.round(&mut memory(), &[], &mut [], 0), Err(Refusal::BrokenState));
            assert_eq!(now.round(&mut [], &[], &mut [], 5_000), Err(Refusal::BrokenState));
            assert_eq!(now.write_sheet(Form::One, &mut [0; 55]), Err(Refusal::BrokenState));
            assert_eq!(now.write_sheet(Form::One, &mut [0; 56]), Err(Refusal::BrokenState));
        }
    }
}

/// "writing such a state is refusal 15, after 1 and 9".
#[test]
fn sheets_are_refused_in_order() {
    for now in [full_of_values(INTEL), serving(full_of_values(INTEL), 3)] {
        for length in [0, 55, 56, 57, 200] {
            let mut slice = vec![0xEE; length];
            let wanted = if length < 56 { Refusal::ShortSlice } else { Refusal::NoPlace };
            assert_eq!(now.write_sheet(Form::One, &mut slice), Err(wanted));
            let broken = Controller { flip_flop: 2, ..now };
            assert_eq!(broken.write_sheet(Form::One, &mut slice), Err(Refusal::BrokenState));
            assert_eq!(slice, vec![0xEE; length]);
        }
    }
    assert_eq!(Refusal::NoPlace.number(), 15);
    assert_eq!(
        full_of_values(AM9517A).write_sheet(Form::One, &mut [0; 55]),
        Err(Refusal::ShortSlice)
    );
    assert_eq!(full_of_values(AM9517A).write_sheet(Form::One, &mut [0; 56]), Ok(()));
}

/// "the sheet's round trip is for Am9517A states"; what is read is one.
#[test]
fn a_sheet_read_is_an_am9517a() {
    let now = full_of_values(AM9517A);
    let mut slice = [0; 56];
    now.write_sheet(Form::One, &mut slice).unwrap();
    assert_eq!(Controller::read_sheet(Form::One, &slice), Ok(now));
    // The body's own bytes say nothing of the edition: those of an Intel state are the same.
    assert_eq!(slice[..48], full_of_values(INTEL).body());
}

#[test]
fn fifty_bytes() {
    for edition in [0, 1, 2, 0xFF] {
        let now = full_of_values(edition);
        let full = now.full();
        assert_eq!((full.len(), full[0], full[1]), (FULL_LENGTH, edition, 0));
        assert_eq!(full[2..], now.body());
        assert_eq!(Controller::from_full(&full), now);
    }
}
