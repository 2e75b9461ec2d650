//! Document 02, A3: "Slow memory cards."

use crate::*;
use second::round::RoundStop;
use second::state::{Refusal, AM9517A, FULL_LENGTH, INTEL};

/// Waits at the ends of a byte, and where a half of it is full.
const WAITS: [u8; 8] = [0, 1, 2, 15, 127, 128, 254, 255];
const COMPRESSED: u8 = 8;
const PAIR: u8 = 1;
const HOLD: u8 = 2;

fn waiting(waits: u8, controller: Controller) -> Controller {
    Controller { waits, ..controller }
}

/// An idle state in which no field but the waits is fresh.
fn full_of_values(edition: u8) -> Controller {
    let mut now = Controller::fresh_of(edition);
    for number in 0..4 {
        let mode = [DEMAND, SINGLE, READ_BLOCK, CASCADE | AUTOINITIALIZE][number];
        set_channel(&mut now, number, 0x1234 * (number as u16 + 1), 7 + number as u16, mode);
    }
    Controller {
        command: 0x32,
        tc: 9,
        request: 6,
        mask: 5,
        temporary: 0xA5,
        flip_flop: 1,
        pins: 3,
        lowest: 1,
        ..now
    }
}

/// "The state gains a byte of wait states": 0 when fresh.
#[test]
fn a_fresh_state_has_no_waits() {
    for edition in [AM9517A, INTEL] {
        assert_eq!(Controller::fresh_of(edition).waits, 0);
    }
}

/// "set by its own call": any byte over any byte, and nothing else changes.
#[test]
fn the_call_sets_any_byte() {
    for edition in [AM9517A, INTEL] {
        for now in [Controller::fresh_of(edition), full_of_values(edition)] {
            for before in WAITS {
                for waits in 0..=255 {
                    let next = waiting(before, now).set_waits(waits);
                    assert_eq!(next, Ok(Controller { waits, ..now }));
                }
            }
        }
    }
}

/// "when idle (refusals 1, 3)": during a service it is refused, for the waits it has, too.
#[test]
fn the_call_is_refused_during_a_service() {
    for number in 0..4 {
        let open = serving(full_of_values(INTEL), number);
        for waits in WAITS {
            let now = Controller { waits: 2, latch_full: 1, latch: 9, ..open };
            assert_eq!(now.set_waits(waits), Err(Refusal::DuringService));
            assert_eq!(open.set_waits(waits), Err(Refusal::DuringService));
        }
    }
}

/// 1 comes before 3; each kind of broken range will do.
#[test]
fn the_call_is_refused_in_a_broken_state() {
    let idle = full_of_values(AM9517A);
    let mut mode = idle;
    mode.channels[3].mode = 0x4C;
    let broken = [
        mode,
        Controller { edition: 2, ..idle },
        Controller { tc: 16, ..idle },
        Controller { request: 16, ..idle },
        Controller { mask: 16, ..idle },
        Controller { pins: 16, ..idle },
        Controller { flip_flop: 2, ..idle },
        Controller { lowest: 4, ..idle },
    ];
    for now in broken {
        for now in [now, serving(now, 1)] {
            assert_eq!(now.set_waits(0), Err(Refusal::BrokenState));
            assert_eq!(now.set_waits(255), Err(Refusal::BrokenState));
        }
    }
    let only_idle = [
        Controller { serving: 1, ..idle },
        Controller { latch_full: 1, ..idle },
        Controller { latch: 1, ..idle },
        Controller { in_service: 2, ..idle },
    ];
    for now in only_idle {
        assert_eq!(now.set_waits(7), Err(Refusal::BrokenState));
    }
}

/// No value of the byte breaks a range: waits are no cause of refusal 1.
#[test]
fn no_waits_break_a_range() {
    for waits in 0..=255 {
        for now in [Controller::fresh(), serving(Controller::fresh_of(INTEL), 2)] {
            assert!(waiting(waits, now).ranges_hold());
        }
        assert!(!waiting(waits, Controller { edition: 2, ..Controller::fresh() }).ranges_hold());
    }
}

/// "unchanged by reset"; master clear is "as reset".
#[test]
fn reset_and_master_clear_keep_the_waits() {
    for edition in [AM9517A, INTEL] {
        for waits in WAITS {
            let now = waiting(waits, full_of_values(edition));
            let fresh = Controller::fresh_of(edition);
            let wanted = Controller { channels: now.channels, pins: 3, waits, ..fresh };
            assert_eq!(now.reset(), Ok(wanted));
            assert_eq!(serving(now, 2).reset(), Ok(wanted));
            for byte in [0, 1, 0xFF] {
                assert_eq!(now.write(0xD, byte), Ok(wanted));
            }
        }
    }
}

/// Registers, pins and grants do what they do without waits, and leave them.
#[test]
fn other_operations_know_no_waits() {
    for edition in [AM9517A, INTEL] {
        let fast = full_of_values(edition);
        let slow = waiting(200, fast);
        for register in 0..18 {
            for byte in 0..=255 {
                let wanted = fast.write(register, byte).map(|next| waiting(200, next));
                assert_eq!(slow.write(register, byte), wanted);
            }
            let wanted = fast.read(register).map(|(next, byte)| (waiting(200, next), byte));
            assert_eq!(slow.read(register), wanted);
            let wanted = fast.set_pins(register).map(|next| waiting(200, next));
            assert_eq!(slow.set_pins(register), wanted);
        }
        let (next, channel) = fast.grant().unwrap();
        assert_eq!(slow.grant(), Ok((waiting(200, next), channel)));
    }
}

/// Ten transfers from 12FEh on: S1 on the first and on the carry.
fn ten(number: u8, mode: u8) -> Controller {
    let mut open = with_channel(usize::from(number), 0x12FE, 9, mode);
    open.pins = 1 << number;
    open.mask = 0;
    serving(open, number)
}

/// The states of a run with enough device bytes and room.
fn states_of(open: Controller, limit: u32, eop: u32) -> (Stop, u64, u64) {
    let got = open.run(&mut memory(), &[7; 20], &mut [0; 20], limit, eop).unwrap();
    (got.1, got.2.transfers, got.2.states)
}

/// "Each transfer costs that many states more": verify, write and read, normal and compressed, in
/// each mode, of each channel, in both editions.
#[test]
fn each_transfer_waits() {
    for waits in WAITS {
        let all = 10 * u64::from(waits);
        for (number, edition) in (0..4).flat_map(|n| [(n, AM9517A), (n, INTEL)]) {
            for kind in [DEMAND, VERIFY_BLOCK] {
                for bits in [0, 4, 8, DECREMENT, 4 | AUTOINITIALIZE, 8 | DECREMENT] {
                    let mut open = ten(number, kind | bits);
                    open.edition = edition;
                    open.waits = waits;
                    // Downwards there is no carry, and one S1 only.
                    let s1 = if bits & DECREMENT == 0 { 2 } else { 1 };
                    assert_eq!(states_of(open, 99, 0), (Stop::Ended, 10, 30 + s1 + all));
                    open.command = COMPRESSED;
                    assert_eq!(states_of(open, 99, 0), (Stop::Ended, 10, 20 + s1 + all));
                }
            }
        }
    }
}

/// A single service is one transfer, its waits are counted once.
#[test]
fn a_single_transfer_waits() {
    for waits in WAITS {
        for transfer in [0, 4, 8] {
            let open = waiting(waits, ten(3, SINGLE | transfer));
            assert_eq!(states_of(open, 99, 0), (Stop::Ended, 1, 4 + u64::from(waits)));
        }
    }
}

/// P1 to P3 with waits of 5.
#[test]
fn the_proved_cases_with_waits() {
    for (address, count, mode, states) in [
        (0x1234, 0, WRITE_BLOCK, 4 + 5),
        (0xFFFE, 3, WRITE_BLOCK, 14 + 20),
        (0x0001, 2, WRITE_BLOCK | DECREMENT, 11 + 15),
    ] {
        let open = waiting(5, serving(with_channel(0, address, count, mode), 0));
        let transfers = u64::from(count) + 1;
        assert_eq!(states_of(open, 99, 0), (Stop::Ended, transfers, states));
    }
    let mut open = waiting(5, serving(with_channel(0, 0xFFFE, 3, WRITE_BLOCK), 0));
    open.command = COMPRESSED;
    assert_eq!(states_of(open, 99, 0), (Stop::Ended, 4, 10 + 20));
}

/// A transfer that isn't made costs nothing: "limit", "short", "dropped" and "cascade".
#[test]
fn no_transfer_no_waits() {
    let slow = |mode| waiting(255, ten(1, mode));
    assert_eq!(states_of(slow(VERIFY_BLOCK), 0, 1), (Stop::Limit, 0, 0));
    assert_eq!(states_of(slow(CASCADE), 9, 1), (Stop::Cascade, 0, 0));
    for mode in [DEMAND, CASCADE] {
        let dropped = Controller { pins: 0, ..slow(mode) };
        assert_eq!(states_of(dropped, 9, 1), (Stop::Dropped, 0, 0));
    }
    for mode in [WRITE_BLOCK, READ_BLOCK] {
        let (next, stop, got) = plain_run(slow(mode), 9, 1);
        assert_eq!((next, stop, got), (slow(mode), Stop::Short, tally(0, 0, 0, 0)));
    }
}

/// What is made before a stop counts, and EOP changes nothing in that.
#[test]
fn waits_up_to_a_stop() {
    let slow = |mode| waiting(100, ten(1, mode));
    assert_eq!(states_of(slow(VERIFY_BLOCK), 4, 0), (Stop::Limit, 4, 14 + 400));
    assert_eq!(states_of(slow(VERIFY_BLOCK), 9, 2), (Stop::Ended, 2, 7 + 200));
    let (_, stop, got) = slow(WRITE_BLOCK).run(&mut memory(), &[1; 3], &mut [], 9, 0).unwrap();
    assert_eq!((stop, got), (Stop::Short, tally(3, 3, 0, 11 + 300)));
    let (_, stop, got) = slow(READ_BLOCK).run(&mut memory(), &[], &mut [0; 3], 9, 0).unwrap();
    assert_eq!((stop, got), (Stop::Short, tally(3, 0, 3, 11 + 300)));
}

/// Cut at each place, the parts' states make the whole's.
#[test]
fn cut_anywhere() {
    for first in 0..10 {
        let open = waiting(9, ten(2, VERIFY_BLOCK));
        let (cut, stop, one) = plain_run(open, first, 0);
        assert_eq!((stop, cut.waits), (Stop::Limit, 9));
        let (next, stop, other) = plain_run(cut, 99, 0);
        assert_eq!((stop, next.waits), (Stop::Ended, 9));
        assert_eq!(one.states + other.states, 32 + 90);
    }
}

/// Memory-to-memory, five transfers.
fn pair(zero_mode: u8, one_mode: u8, command: u8) -> Controller {
    let mut open = with_channel(0, 0x10FE, 20, zero_mode);
    set_channel(&mut open, 1, 0x40FE, 4, one_mode);
    serving(Controller { command: PAIR | command, mask: 0, ..open }, 0)
}

/// "memory-to-memory twice that": whatever mode, hold, timing and edition.
#[test]
fn memory_to_memory_waits_twice() {
    for waits in WAITS {
        let each = 8 + 2 * u64::from(waits);
        for command in [0, HOLD, COMPRESSED, HOLD | COMPRESSED] {
            for mode in [DEMAND, SINGLE, VERIFY_BLOCK, READ_BLOCK | AUTOINITIALIZE, CASCADE] {
                for edition in [AM9517A, INTEL] {
                    let open = Controller { edition, waits, ..pair(mode, mode, command) };
                    let (next, stop, got) = plain_run(open, 99, 0);
                    assert_eq!((stop, got), (Stop::Ended, tally(5, 0, 0, 5 * each)));
                    assert_eq!((next.waits, next.edition), (waits, edition));
                    assert_eq!(plain_run(open, 3, 0).2.states, 3 * each);
                    assert_eq!(plain_run(open, 99, 2).2.states, 2 * each);
                }
            }
        }
    }
}

/// With command bit 0 set, a service of channel 1 is an ordinary one and waits once.
#[test]
fn channel_1_alone_waits_once() {
    let open = Controller { serving: 1, waits: 50, ..pair(VERIFY_BLOCK, VERIFY_BLOCK, 0) };
    assert_eq!(plain_run(open, 99, 0).2.states, 15 + 2 + 5 * 50);
}

/// P4 with waits: "three bytes, 24 states", and six times the waits.
#[test]
fn p4_with_waits() {
    let mut open = waiting(1, pair(VERIFY_BLOCK, VERIFY_BLOCK, 0));
    open.channels[1].current_count = 2;
    assert_eq!(plain_run(open, 99, 0).2, tally(3, 0, 0, 24 + 6));
}

/// But for the states, a run with waits is the run without: state, memory, room, counts.
#[test]
fn runs_share_all_else() {
    for mode in [WRITE_BLOCK, READ_BLOCK, SINGLE | 4, DEMAND | 8, VERIFY_BLOCK | DECREMENT] {
        for (command, eop) in [(0, 0), (COMPRESSED, 3), (PAIR, 0), (PAIR | HOLD, 2)] {
            let run = |waits| {
                let mut memory: Vec<u8> = (0..65_536).map(|place| place as u8).collect();
                let mut room = [0xEE; 9];
                let mut open = waiting(waits, ten(0, mode));
                open.command = command;
                open.channels[1].current_count = 3;
                let (next, stop, got) =
                    open.run(&mut memory, &[9, 8, 7, 6, 5], &mut room, 7, eop).unwrap();
                assert_eq!(next.waits, waits);
                (
                    waiting(0, next),
                    stop,
                    tally(got.transfers, got.used, got.written, 0),
                    memory,
                    room,
                )
            };
            assert!(run(0) == run(255));
        }
    }
}

/// "The counts of a run and a round change with it": a round of services of all kinds.
#[test]
fn a_round_waits() {
    for waits in WAITS {
        let mut now = waiting(waits, with_channel(0, 0x10, 3, VERIFY_BLOCK));
        set_channel(&mut now, 1, 0x20, 2, WRITE_BLOCK);
        set_channel(&mut now, 2, 0x30, 1, READ_BLOCK);
        set_channel(&mut now, 3, 0x40, 9, SINGLE | AUTOINITIALIZE);
        now.mask = 0;
        now.pins = 15;
        let (next, stop, got) = now.round(&mut memory(), &[1; 3], &mut [0; 2], 5).unwrap();
        assert_eq!((stop, got.services, next.waits), (RoundStop::Done, [1, 1, 1, 2], waits));
        let fast = (12 + 1) + (9 + 1) + (6 + 1) + 2 * 4;
        assert_eq!(got.total, tally(11, 3, 2, fast + 11 * u64::from(waits)));
    }
}

/// A round's total of memory-to-memory and ordinary services.
#[test]
fn a_round_of_both_kinds() {
    let mut now = pair(VERIFY_BLOCK, VERIFY_BLOCK | AUTOINITIALIZE, 0);
    set_channel(&mut now, 2, 0x30, 1, VERIFY_BLOCK);
    let now = Controller { in_service: 0, pins: 5, command: 0x11, waits: 60, ..now };
    let (_, stop, got) = now.round(&mut memory(), &[], &mut [], 3).unwrap();
    assert_eq!((stop, got.services), (RoundStop::Done, [2, 0, 1, 0]));
    assert_eq!(got.total, tally(12, 0, 0, 2 * 5 * (8 + 120) + 7 + 2 * 60));
}

/// The longest runs: 65,536 transfers of the most waits.
#[test]
fn the_longest_runs() {
    let open = waiting(255, serving(with_channel(0, 0, 0xFFFF, VERIFY_BLOCK), 0));
    assert_eq!(plain_run(open, 65_536, 0).2.states, 196_864 + 255 * 65_536);
    let mut open = waiting(255, pair(VERIFY_BLOCK, VERIFY_BLOCK, 0));
    open.channels[1].current_count = 0xFFFF;
    let (_, stop, got) = plain_run(open, 65_536, 0);
    assert_eq!((stop, got), (Stop::Ended, tally(65_536, 0, 0, 33_947_648)));
}

/// "A state with waits can't go into form 1: refusal 15", in either edition, idle or in service,
/// after 1 and 9.
#[test]
fn sheets_are_refused_in_order() {
    for edition in [AM9517A, INTEL] {
        for now in [full_of_values(edition), serving(full_of_values(edition), 3)] {
            for waits in WAITS.into_iter().filter(|&waits| waits != 0) {
                let now = waiting(waits, now);
                for length in [0, 55, 56, 57, 200] {
                    let mut slice = vec![0xEE; length];
                    let wanted = if length < 56 { Refusal::ShortSlice } else { Refusal::NoPlace };
                    assert_eq!(now.write_sheet(Form::One, &mut slice), Err(wanted));
                    let broken = Controller { flip_flop: 2, ..now };
                    assert_eq!(
                        broken.write_sheet(Form::One, &mut slice),
                        Err(Refusal::BrokenState)
                    );
                    assert_eq!(slice, vec![0xEE; length]);
                }
            }
        }
    }
}

/// Waits set back to 0, the state goes into form 1 again.
#[test]
fn without_waits_the_sheet_is_written() {
    let fast = full_of_values(AM9517A);
    let slow = fast.set_waits(9).unwrap();
    assert_eq!(slow.write_sheet(Form::One, &mut [0; 56]), Err(Refusal::NoPlace));
    let mut slice = [0; 56];
    assert_eq!(slow.set_waits(0).unwrap().write_sheet(Form::One, &mut slice), Ok(()));
    assert_eq!(Controller::read_sheet(Form::One, &slice), Ok(fast));
}

/// A sheet of form 1 reads as edition 0, waits 0: its bytes say nothing of either.
#[test]
fn a_sheet_read_has_no_waits() {
    let now = full_of_values(AM9517A);
    assert_eq!(waiting(255, now).body(), now.body());
    let read = Controller::from_body(&waiting(255, full_of_values(INTEL)).body());
    assert_eq!((read.edition, read.waits), (AM9517A, 0));
}

#[test]
fn fifty_bytes() {
    for edition in [0, 1, 2, 0xFF] {
        for waits in WAITS {
            let now = waiting(waits, full_of_values(edition));
            let full = now.full();
            assert_eq!((full.len(), full[0], full[1]), (FULL_LENGTH, edition, waits));
            assert_eq!(full[2..], now.body());
            assert_eq!(Controller::from_full(&full), now);
        }
    }
}
