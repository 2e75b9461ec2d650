//! Document 02, A1: "Channel 0 counts too."

use crate::*;
use second::round::RoundStop;
use second::state::Channel;

const PAIR: u8 = 1;
const HOLD: u8 = 2;
/// The source's place, which holds 1, 2, 3 and so on.
const A: u16 = 0x100;
const TARGET: u16 = 0x4000;

/// A service of memory-to-memory: channel 0 reads from `A` on, channel 1 writes to `TARGET`.
fn pair(zero_count: u16, zero_mode: u8, one_count: u16) -> Controller {
    let mut open = serving(with_channel(0, A, zero_count, VERIFY_BLOCK | zero_mode), 0);
    set_channel(&mut open, 1, TARGET, one_count, VERIFY_BLOCK);
    Controller { command: PAIR, mask: 0, ..open }
}

/// Memory in which each byte of the source, up and down from `A`, tells its place.
fn source() -> Vec<u8> {
    let mut memory = memory();
    for place in 0..0xFF {
        memory[usize::from(A) + place] = place as u8 + 1;
    }
    for place in 1..0x40 {
        memory[usize::from(A) - place] = 0xFF - place as u8;
    }
    memory
}

/// A run, and the bytes it laid.
fn lay(open: Controller, limit: u32, eop: u32) -> (Controller, Stop, Vec<u8>) {
    let mut memory = source();
    let (next, stop, got) = open.run(&mut memory, &[], &mut [], limit, eop).unwrap();
    assert_eq!((got.used, got.written, got.states), (0, 0, 8 * got.transfers));
    let start = usize::from(open.channels[1].current_address);
    (next, stop, memory[start..start + got.transfers as usize].to_vec())
}

fn registers(channel: Channel) -> (u16, u16) {
    (channel.current_address, channel.current_count)
}

/// "Channel 0's count steps down with every transfer".
#[test]
fn the_count_steps_with_every_transfer() {
    let mut open = pair(7, 0, 2);
    for (transfers, left) in [(1, 6), (2, 5)] {
        let (next, stop, _) = lay(open, 1, 0);
        assert_eq!(stop, Stop::Limit);
        assert_eq!(registers(next.channels[0]), (A + transfers, left));
        open = next;
    }
    let (next, stop, _) = lay(open, 0, 0);
    assert_eq!((next, stop), (open, Stop::Limit));
    let (next, stop, _) = lay(open, 1, 0);
    assert_eq!((stop, registers(next.channels[0])), (Stop::Ended, (A + 3, 4)));
}

/// "also under address hold"
#[test]
fn the_count_steps_under_hold() {
    let open = Controller { command: PAIR | HOLD, ..pair(7, 0, 2) };
    let (next, stop, laid) = lay(open, 9, 0);
    assert_eq!((stop, laid), (Stop::Ended, vec![1, 1, 1]));
    assert_eq!(registers(next.channels[0]), (A, 4));
}

/// "restores channel 0's current registers if that channel has autoinitialize"; "the address steps
/// first and the restore wins".
#[test]
fn a_pattern_of_two_bytes() {
    let (next, stop, laid) = lay(pair(1, AUTOINITIALIZE, 3), 9, 0);
    assert_eq!((stop, laid), (Stop::Ended, vec![1, 2, 1, 2]));
    assert_eq!(registers(next.channels[0]), (A, 1));
    assert_eq!(registers(next.channels[1]), (TARGET + 4, 0xFFFF));
    let (next, _, laid) = lay(pair(1, AUTOINITIALIZE, 4), 9, 0);
    assert_eq!(laid, [1, 2, 1, 2, 1]);
    assert_eq!(registers(next.channels[0]), (A + 1, 0));
}

#[test]
fn a_pattern_downwards() {
    let (next, _, laid) = lay(pair(2, AUTOINITIALIZE | DECREMENT, 3), 9, 0);
    assert_eq!(laid, [1, 0xFE, 0xFD, 1]);
    assert_eq!(registers(next.channels[0]), (A - 1, 1));
}

#[test]
fn a_pattern_of_one_byte() {
    let (next, _, laid) = lay(pair(0, AUTOINITIALIZE, 3), 9, 0);
    assert_eq!(laid, [1, 1, 1, 1]);
    assert_eq!(registers(next.channels[0]), (A, 0));
}

/// The first time goes by the current registers, each later one by base.
#[test]
fn base_and_current_apart() {
    let mut open = pair(1, AUTOINITIALIZE, 5);
    open.channels[0].base_address = A + 0x20;
    open.channels[0].base_count = 2;
    let (next, _, laid) = lay(open, 9, 0);
    assert_eq!(laid, [1, 2, 0x21, 0x22, 0x23, 0x21]);
    assert_eq!(registers(next.channels[0]), (A + 0x21, 1));
    assert_eq!(next.channels[0].base_address, A + 0x20);
    assert_eq!(next.channels[0].base_count, 2);
}

/// Under hold the current address is held until the restore, the base address from then on.
#[test]
fn the_restore_moves_a_held_address() {
    let mut open = pair(1, AUTOINITIALIZE, 3);
    open.command = PAIR | HOLD;
    open.channels[0].base_address = A + 0x20;
    let (next, stop, laid) = lay(open, 9, 0);
    assert_eq!((stop, laid), (Stop::Ended, vec![1, 1, 0x21, 0x21]));
    assert_eq!(registers(next.channels[0]), (A + 0x20, 1));
}

#[test]
fn over_both_ends_of_the_address_space() {
    for (mode, start, places) in [(0, 0xFFFF, [0xFFFF, 0, 1]), (DECREMENT, 0, [0, 0xFFFF, 0xFFFE])]
    {
        let mut open = pair(2, AUTOINITIALIZE | mode, 6);
        open.channels[0].base_address = start;
        open.channels[0].current_address = start;
        let mut memory = memory();
        for (place, byte) in places.into_iter().zip(7..) {
            memory[place] = byte;
        }
        let (next, ..) = open.run(&mut memory, &[], &mut [], 99, 0).unwrap();
        assert_eq!(memory[0x4000..0x4008], [7, 8, 9, 7, 8, 9, 7, 0]);
        assert_eq!(registers(next.channels[0]), (places[1] as u16, 1));
    }
}

/// Bytes are read before they are written, so a pattern may be laid over its own source.
#[test]
fn a_pattern_over_itself() {
    let mut open = pair(1, AUTOINITIALIZE, 4);
    open.channels[1].current_address = A + 1;
    let mut memory = source();
    open.run(&mut memory, &[], &mut [], 99, 0).unwrap();
    assert_eq!(memory[0x100..0x107], [1, 1, 1, 1, 1, 1, 7]);
    open.channels[1].current_address = A;
    open.channels[0].base_address = A + 2;
    let mut memory = source();
    open.run(&mut memory, &[], &mut [], 99, 0).unwrap();
    assert_eq!(memory[0x100..0x106], [1, 2, 3, 4, 3, 6]);
}

/// Without autoinitialize the count goes on from FFFFh.
#[test]
fn no_restore_without_autoinitialize() {
    let mut open = pair(0, 0, 5);
    open.channels[0].base_address = 0;
    open.channels[0].base_count = 9;
    // Channel 1's own bit has no say.
    open.channels[1].mode |= AUTOINITIALIZE;
    let (next, stop, _) = lay(open, 1, 0);
    assert_eq!((stop, registers(next.channels[0])), (Stop::Limit, (A + 1, 0xFFFF)));
    let (next, stop, laid) = lay(next, 9, 0);
    assert_eq!((stop, laid), (Stop::Ended, vec![2, 3, 4, 5, 6]));
    assert_eq!(registers(next.channels[0]), (A + 6, 0xFFFA));
    assert_eq!(registers(next.channels[1]), (TARGET, 5));
}

/// "it neither ends the service nor sets TC bit 0", and masks nobody; request bit 0 waits for the
/// end as well.
#[test]
fn passing_0_is_no_tc() {
    for mode in [0, AUTOINITIALIZE] {
        let open = Controller { request: 3, ..pair(1, mode, 9) };
        let (next, stop, laid) = lay(open, 4, 0);
        assert_eq!((stop, laid.len()), (Stop::Limit, 4));
        assert_eq!((next.tc, next.mask, next.request, next.in_service), (0, 0, 3, 1));
        let (next, stop, laid) = lay(next, 99, 0);
        assert_eq!((stop, laid.len()), (Stop::Ended, 6));
        assert_eq!((next.tc, next.mask, next.request), (2, 2, 0));
        // Bits that were set before stay so, too.
        let (next, ..) = lay(Controller { tc: 9, mask: 1, ..open }, 4, 0);
        assert_eq!((next.tc, next.mask), (9, 1));
    }
}

/// Channel 0 is restored by its own count alone.
#[test]
fn tc_and_eop_do_not_restore_channel_0() {
    let mut open = pair(9, AUTOINITIALIZE, 3);
    open.channels[1].mode |= AUTOINITIALIZE;
    for (eop, transfers, tc) in [(0, 4, 2), (2, 2, 0), (4, 4, 2)] {
        let (next, stop, laid) = lay(open, 99, eop);
        assert_eq!((stop, laid.len(), next.tc), (Stop::Ended, transfers.into(), tc));
        assert_eq!(registers(next.channels[0]), (A + transfers, 9 - transfers));
        assert_eq!(registers(next.channels[1]), (TARGET, 3));
    }
}

/// The last transfer counts like others: its passing restores, with channel 1's TC and with EOP.
#[test]
fn the_transfer_that_ends_the_service_restores() {
    let mut open = pair(3, AUTOINITIALIZE, 3);
    open.channels[0].base_address = 0x1234;
    open.channels[0].base_count = 0x5678;
    let (next, stop, _) = lay(open, 99, 0);
    assert_eq!((stop, next.tc, next.mask), (Stop::Ended, 2, 2));
    assert_eq!(registers(next.channels[0]), (0x1234, 0x5678));
    open.channels[1].current_count = 20;
    let (next, stop, _) = lay(open, 99, 4);
    assert_eq!((stop, next.tc, next.mask), (Stop::Ended, 0, 2));
    assert_eq!(registers(next.channels[0]), (0x1234, 0x5678));
    // One transfer earlier the count reads 0, and nothing is restored yet.
    let (next, ..) = lay(open, 99, 3);
    assert_eq!(registers(next.channels[0]), (A + 3, 0));
}

/// Mode bits 7-6 don't matter: "a service of channel 0 is this, whatever its mode".
#[test]
fn each_mode_of_channel_0_restores() {
    for kind in [DEMAND, SINGLE, VERIFY_BLOCK, CASCADE] {
        let mut open = pair(1, AUTOINITIALIZE, 3);
        open.channels[0].mode = kind | AUTOINITIALIZE;
        let (next, stop, laid) = lay(open, 99, 0);
        assert_eq!((stop, laid), (Stop::Ended, vec![1, 2, 1, 2]));
        assert_eq!(registers(next.channels[0]), (A, 1));
    }
}

/// Cut at every place, a service does what it does uncut.
#[test]
fn cut_anywhere() {
    for command in [PAIR, PAIR | HOLD] {
        let mut open = pair(4, AUTOINITIALIZE, 11);
        open.command = command;
        open.channels[0].base_address = A + 0x30;
        open.channels[0].base_count = 2;
        let mut whole = source();
        let wanted = open.run(&mut whole, &[], &mut [], 99, 0).unwrap().0;
        for first in 0..12 {
            let mut memory = source();
            let (cut, stop, _) = open.run(&mut memory, &[], &mut [], first, 0).unwrap();
            assert_eq!(stop, Stop::Limit);
            let (next, stop, got) = cut.run(&mut memory, &[], &mut [], 99, 0).unwrap();
            assert_eq!((stop, got.transfers), (Stop::Ended, u64::from(12 - first)));
            assert!(next == wanted && memory == whole);
        }
    }
}

/// The longest service: 65,536 transfers.
#[test]
fn over_all_of_memory() {
    // 65,536 is 21,845 times three and one.
    let mut open = pair(2, AUTOINITIALIZE, 0xFFFF);
    open.channels[1].current_address = A + 3;
    let mut memory = source();
    let (next, stop, got) = open.run(&mut memory, &[], &mut [], 65_536, 0).unwrap();
    assert_eq!((stop, got), (Stop::Ended, tally(65_536, 0, 0, 524_288)));
    assert_eq!(registers(next.channels[0]), (A + 1, 1));
    let place = |n: usize| (usize::from(A) + 3 + n) % 65_536;
    assert!((0..65_533).all(|n| usize::from(memory[place(n)]) == n % 3 + 1));
    // The last three come down on the source, which the very last reads anew.
    assert_eq!(memory[0x100..0x103], [2, 3, 2]);
    // Without autoinitialize, and with a base count of FFFFh, the count comes round.
    for mode in [0, AUTOINITIALIZE] {
        let (next, stop, _) = plain_run(pair(0xFFFF, mode, 0xFFFF), 65_536, 0);
        assert_eq!((stop, next.tc, next.mask), (Stop::Ended, 2, 2));
        assert_eq!(registers(next.channels[0]), (A, 0xFFFF));
    }
    let (next, ..) = plain_run(pair(0, 0, 0xFFFF), 65_536, 0);
    assert_eq!(registers(next.channels[0]), (A, 0));
}

/// Each service of a round goes on where the one before left channel 0.
#[test]
fn a_round_goes_on_with_the_pattern() {
    let mut idle = pair(2, AUTOINITIALIZE, 3);
    idle.in_service = 0;
    idle.pins = 1;
    idle.channels[1].mode |= AUTOINITIALIZE;
    let mut memory = source();
    let (next, stop, got) = idle.round(&mut memory, &[], &mut [], 2).unwrap();
    assert_eq!((stop, got.services), (RoundStop::Done, [2, 0, 0, 0]));
    assert_eq!(got.total, tally(8, 0, 0, 64));
    assert_eq!(memory[0x4000..0x4005], [2, 3, 1, 2, 0]);
    assert_eq!(registers(next.channels[0]), (A + 2, 0));
}

/// The copy loop of the request reads the count by registers, after the service.
#[test]
fn the_count_is_read_through_registers() {
    let mut now = Controller::fresh();
    for (register, byte) in
        [(0, 0), (0, 1), (1, 9), (1, 0), (2, 0), (2, 0x40), (3, 3), (3, 0), (0xB, 0x80), (8, 1)]
    {
        now = now.write(register, byte).unwrap();
    }
    let (open, channel) = now.write(9, 4).unwrap().grant().unwrap();
    assert_eq!(channel, 0);
    let (next, stop, _) = plain_run(open, 99, 0);
    assert_eq!(stop, Stop::Ended);
    let (next, low) = next.read(1).unwrap();
    let (next, high) = next.read(1).unwrap();
    assert_eq!((low, high), (5, 0));
    assert_eq!(next.read(8).unwrap().1, 2);
}

/// "from 0 to FFFFh"
#[test]
fn count_0_reads_ffff_after_one_transfer() {
    let (next, stop, laid) = lay(pair(0, 0, 0), 99, 0);
    assert_eq!((stop, laid), (Stop::Ended, vec![1]));
    let (next, low) = next.read(1).unwrap();
    let (next, high) = next.read(1).unwrap();
    assert_eq!((low, high), (0xFF, 0xFF));
    assert_eq!((next.read(8).unwrap().1, next.mask), (2, 2));
}

/// Outside memory-to-memory nothing has changed: channel 1 alone leaves channel 0's count.
#[test]
fn a_service_of_channel_1_leaves_channel_0() {
    let mut open = pair(0, AUTOINITIALIZE, 3);
    open.channels[0].base_count = 9;
    open.serving = 1;
    let (next, stop, _) = plain_run(open, 99, 0);
    assert_eq!((stop, next.channels[0]), (Stop::Ended, open.channels[0]));
}
