//! Other sentences of document 01.

use crate::*;
use second::round::RoundStop;

#[test]
fn flip_flop_turns_on_reads_and_writes_of_0_to_7_only() {
    let now = Controller::fresh().write(0, 1).unwrap();
    assert_eq!(now.flip_flop, 1);
    assert_eq!(now.read(8).unwrap().0.flip_flop, 1);
    assert_eq!(now.read(7).unwrap().0.flip_flop, 0);
    assert_eq!(now.write(0xC, 9).unwrap().flip_flop, 0);
}

#[test]
fn reset_keeps_addresses_counts_modes_and_pins() {
    let mut now = serving(with_channel(3, 5, 6, READ_BLOCK), 3);
    now.pins = 9;
    now.lowest = 0;
    now.command = 0xFF;
    now.temporary = 7;
    now.request = 15;
    now.tc = 15;
    now.mask = 0;
    let next = now.reset().unwrap();
    let wanted = Controller { pins: 9, ..with_channel(3, 5, 6, READ_BLOCK) };
    assert_eq!(next, wanted);
    assert_eq!(next.write(0xD, 0), Ok(wanted));
}

#[test]
fn single_bits_of_request_and_mask() {
    let now = Controller::fresh().write(9, 0xFF).unwrap().write(0xA, 0xFA).unwrap();
    assert_eq!((now.request, now.mask), (8, 0b1011));
    let now = now.write(9, 3).unwrap().write(0xF, 0xF5).unwrap();
    assert_eq!((now.request, now.mask), (0, 5));
}

#[test]
fn a_mode_is_stored_with_its_low_bits_zero() {
    let now = Controller::fresh().write(0xB, 0xFE).unwrap();
    assert_eq!(now.channels[2].mode, 0xFC);
}

#[test]
fn demand_drops_when_its_line_goes_and_nothing_else_changes() {
    let mut open = serving(with_channel(1, 0x20, 9, DEMAND), 1);
    open.pins = 2;
    open.request = 2;
    open.mask = 0;
    let (cut, stop, got) = plain_run(open, 4, 0);
    assert_eq!((stop, got.states, cut.latch_full), (Stop::Limit, 13, 1));
    let (next, stop, got) = plain_run(cut.set_pins(0).unwrap(), 0, 0);
    assert_eq!((stop, got), (Stop::Dropped, tally(0, 0, 0, 0)));
    assert_eq!((next.request, next.mask, next.tc), (2, 0, 0));
    assert_eq!((next.in_service, next.serving, next.latch_full, next.latch), (0, 0, 0, 0));
}

#[test]
fn cascade_stays_open_while_its_line_is_active() {
    let mut open = serving(with_channel(2, 0x20, 9, CASCADE | 0x0C), 2);
    open.pins = 4;
    assert_eq!(plain_run(open, 0, 1), (open, Stop::Cascade, tally(0, 0, 0, 0)));
    let low = Controller { command: 0x40, ..open };
    assert_eq!(plain_run(low, 9, 0).1, Stop::Dropped);
}

#[test]
fn limit_comes_before_short_and_short_stays_open() {
    let write = serving(with_channel(0, 0, 9, WRITE_BLOCK), 0);
    assert_eq!(plain_run(write, 0, 0).1, Stop::Limit);
    assert_eq!(plain_run(write, 1, 0), (write, Stop::Short, tally(0, 0, 0, 0)));
    let read = serving(with_channel(0, 0, 9, READ_BLOCK), 0);
    let mut room = [9; 2];
    let (next, stop, got) = read.run(&mut memory(), &[], &mut room, 100, 0).unwrap();
    assert_eq!((stop, got, room), (Stop::Short, tally(2, 0, 2, 7), [0, 0]));
    assert!(next.in_service());
}

#[test]
fn a_resumed_service_keeps_its_latch_and_counts_eop_anew() {
    let open = serving(with_channel(0, 0xFE, 9, VERIFY_BLOCK), 0);
    let (open, _, got) = plain_run(open, 2, 0);
    assert_eq!((got.states, open.latch), (7, 0));
    let (next, stop, got) = plain_run(open, 9, 2);
    assert_eq!((stop, got), (Stop::Ended, tally(2, 0, 0, 7)));
    assert_eq!(next.channels[0].current_count, 5);
}

#[test]
fn eop_together_with_tc_sets_tc() {
    let open = serving(with_channel(0, 0, 2, VERIFY_BLOCK), 0);
    assert_eq!(plain_run(open, 9, 3).0.tc, 1);
    assert_eq!(plain_run(open, 9, 4).0.tc, 1);
}

#[test]
fn a_single_service_ends_without_touching_request_or_mask() {
    let mut open = serving(with_channel(0, 0, 2, SINGLE), 0);
    open.mask = 0;
    open.request = 1;
    let (next, stop, got) = plain_run(open, 9, 0);
    assert_eq!((stop, got.transfers), (Stop::Ended, 1));
    assert_eq!((next.mask, next.request, next.tc), (0, 1, 0));
}

#[test]
fn memory_to_memory_with_hold_fills_and_restores_channel_1_only() {
    let mut open = serving(with_channel(0, 0x40, 9, CASCADE | AUTOINITIALIZE), 0);
    set_channel(&mut open, 1, 0x51, 3, AUTOINITIALIZE | DECREMENT);
    open.command = 0x0B;
    open.request = 15;
    open.mask = 0;
    let mut memory = memory();
    memory[0x40] = 0xA5;
    let (next, stop, got) = open.run(&mut memory, &[], &mut [], 100, 0).unwrap();
    assert_eq!((stop, got), (Stop::Ended, tally(4, 0, 0, 32)));
    assert_eq!(memory[0x4E..0x52], [0xA5; 4]);
    let mut channels = open.channels;
    channels[0].current_count = 5;
    assert_eq!(next.channels, channels);
    assert_eq!((next.request, next.mask, next.tc, next.temporary), (12, 0, 2, 0xA5));
}

#[test]
fn memory_to_memory_goes_byte_by_byte_over_itself() {
    let mut open = serving(with_channel(0, 0x40, 3, SINGLE), 0);
    set_channel(&mut open, 1, 0x41, 3, DEMAND);
    open.command = 1;
    open.mask = 0;
    let mut memory = memory();
    memory[0x40..0x44].copy_from_slice(&[1, 2, 3, 4]);
    let (next, ..) = open.run(&mut memory, &[], &mut [], 100, 0).unwrap();
    assert_eq!(memory[0x40..0x46], [1, 1, 1, 1, 1, 0]);
    assert_eq!((next.mask, next.channels[0].current_address), (2, 0x44));
}

/// "latch unused": neither filled nor emptied before the service ends.
#[test]
fn memory_to_memory_leaves_the_latch() {
    let mut open = serving(with_channel(0, 0x1240, 9, READ_BLOCK), 0);
    open.command = 1;
    open.channels[1].current_count = 1;
    assert_eq!(plain_run(open, 1, 0).0.latch_full, 0);
    let latched = Controller { latch_full: 1, latch: 0x77, ..open };
    let (cut, ..) = plain_run(latched, 1, 0);
    assert_eq!((cut.latch_full, cut.latch), (1, 0x77));
    let (next, ..) = plain_run(cut, 1, 0);
    assert_eq!((next.in_service, next.latch_full, next.latch), (0, 0, 0));
}

#[test]
fn address_hold_is_for_memory_to_memory_only() {
    let open = Controller { command: 2, ..serving(with_channel(0, 0x40, 3, VERIFY_BLOCK), 0) };
    assert_eq!(plain_run(open, 2, 0).0.channels[0].current_address, 0x42);
}

/// "bits 4-7 the requesting channels, masked or not", disabled or not.
#[test]
fn a_disabled_chip_shows_who_requests() {
    for command in [0, 4] {
        let now = Controller { command, pins: 5, ..Controller::fresh() };
        assert_eq!(now.read(8).unwrap().1, 0x50);
    }
}

#[test]
fn memory_to_memory_is_channel_0_only() {
    let mut open = serving(with_channel(1, 0x40, 3, SINGLE), 1);
    open.command = 1;
    assert_eq!(plain_run(open, 9, 0).2, tally(1, 0, 0, 4));
}

#[test]
fn a_round_hands_on_bytes_and_room() {
    let mut now = with_channel(0, 0x40, 1, READ_BLOCK);
    set_channel(&mut now, 1, 0x60, 1, WRITE_BLOCK);
    set_channel(&mut now, 2, 0x50, 1, READ_BLOCK);
    set_channel(&mut now, 3, 0x70, 1, WRITE_BLOCK);
    now.pins = 15;
    now.mask = 0;
    let mut memory = memory();
    memory[0x40..0x42].copy_from_slice(&[1, 2]);
    memory[0x50..0x52].copy_from_slice(&[3, 4]);
    let mut room = [0xEE; 5];
    let (next, stop, got) = now.round(&mut memory, &[5, 6, 7, 8, 9], &mut room, 9).unwrap();
    assert_eq!((stop, got.services), (RoundStop::Quiet, [1, 1, 1, 1]));
    assert_eq!(got.total, tally(8, 4, 4, 28));
    assert_eq!(room, [1, 2, 3, 4, 0xEE]);
    assert_eq!((memory[0x60], memory[0x61], memory[0x70], memory[0x71]), (5, 6, 7, 8));
    assert_eq!(next.mask, 15);
}

#[test]
fn a_round_stops_in_order() {
    let idle = Controller::fresh();
    let round = |now: Controller, k| now.round(&mut memory(), &[], &mut [], k).unwrap();
    assert_eq!(round(idle, 0).1, RoundStop::Done);
    assert_eq!(round(idle, 1).1, RoundStop::Quiet);
    let once = Controller { request: 1, ..with_channel(0, 0, 0, VERIFY_BLOCK) };
    assert_eq!(round(once, 1).1, RoundStop::Done);
    assert_eq!(round(once, 2).1, RoundStop::Quiet);
    let short = Controller { request: 1, ..with_channel(0, 0, 0, WRITE_BLOCK) };
    let (open, stop, got) = round(short, 1);
    assert_eq!((stop, got.services), (RoundStop::Run(Stop::Short), [1, 0, 0, 0]));
    assert!(open.in_service());
    let cascade = Controller { pins: 8, mask: 0, ..with_channel(3, 0, 0, CASCADE) };
    assert_eq!(round(cascade, 5).1, RoundStop::Run(Stop::Cascade));
}

#[test]
fn a_sheet_touches_only_the_last_56_bytes() {
    let mut now = serving(with_channel(3, 0xFFFF, 0xFFFF, 0xFC), 3);
    now.latch_full = 1;
    now.latch = 0xFF;
    let mut slice = [0xEE; 100];
    now.write_sheet(Form::One, &mut slice).unwrap();
    assert_eq!(slice[..44], [0xEE; 44]);
    let sum: u32 = slice[44..92].iter().map(|&byte| u32::from(byte)).sum();
    assert_eq!(u32::from(slice[96]) + 256 * u32::from(slice[97]), sum);
    assert_eq!(Controller::read_sheet(Form::One, &slice), Ok(now));
}
