//! "Cases": P1 to P9 and the others.

use crate::*;
use second::round::RoundStop;
use second::state::Refusal;

#[test]
fn p1_one_byte_written() {
    let open = serving(with_channel(0, 0x1234, 0, WRITE_BLOCK), 0);
    let open = Controller { mask: 0, ..open };
    let mut memory = memory();
    let (next, stop, got) = open.run(&mut memory, &[0x5A], &mut [], 100, 0).unwrap();
    assert_eq!((stop, got), (Stop::Ended, tally(1, 1, 0, 4)));
    assert_eq!(memory[0x1234], 0x5A);
    assert_eq!(memory.iter().filter(|&&byte| byte != 0).count(), 1);
    assert_eq!(next.channels[0].current_address, 0x1235);
    assert_eq!(next.channels[0].current_count, 0xFFFF);
    assert_eq!((next.tc, next.mask, next.in_service), (1, 1, 0));
}

#[test]
fn p1_through_registers_and_grant() {
    let mut now = Controller::fresh();
    for (register, byte) in [(0, 0x34), (0, 0x12), (1, 0), (1, 0), (0xB, 0x84), (9, 4)] {
        now = now.write(register, byte).unwrap();
    }
    let (open, channel) = now.grant().unwrap();
    assert_eq!(channel, 0);
    let (next, stop, got) = open.run(&mut memory(), &[0x5A], &mut [], 1, 0).unwrap();
    assert_eq!((stop, got), (Stop::Ended, tally(1, 1, 0, 4)));
    assert_eq!((next.request, next.mask, next.tc), (0, 15, 1));
}

#[test]
fn p2_up_over_the_end() {
    for (command, states) in [(0, 14), (8, 10)] {
        let open = serving(with_channel(1, 0xFFFE, 3, WRITE_BLOCK), 1);
        let open = Controller { command, ..open };
        let mut memory = memory();
        let (_, stop, got) = open.run(&mut memory, &[1, 2, 3, 4], &mut [], 9, 0).unwrap();
        assert_eq!((stop, got), (Stop::Ended, tally(4, 4, 0, states)));
        assert_eq!([memory[0xFFFE], memory[0xFFFF], memory[0], memory[1]], [1, 2, 3, 4]);
    }
}

#[test]
fn p3_down_over_the_start() {
    let open = serving(with_channel(2, 1, 2, WRITE_BLOCK | DECREMENT), 2);
    let mut memory = memory();
    let (_, stop, got) = open.run(&mut memory, &[1, 2, 3], &mut [], 9, 0).unwrap();
    assert_eq!((stop, got), (Stop::Ended, tally(3, 3, 0, 11)));
    assert_eq!([memory[1], memory[0], memory[0xFFFF]], [1, 2, 3]);
}

/// Channel 0's count is three less afterwards: document 02, A1.
#[test]
fn p4_memory_to_memory() {
    let mut open = serving(with_channel(0, 0x100, 7, VERIFY_BLOCK), 0);
    set_channel(&mut open, 1, 0x200, 2, VERIFY_BLOCK);
    open.command = 1;
    let mut memory = memory();
    memory[0x100..0x104].copy_from_slice(&[7, 8, 9, 10]);
    let (next, stop, got) = open.run(&mut memory, &[], &mut [], 9, 0).unwrap();
    assert_eq!((stop, got), (Stop::Ended, tally(3, 0, 0, 24)));
    assert_eq!(memory[0x200..0x204], [7, 8, 9, 0]);
    assert_eq!((next.temporary, next.tc, next.channels[0].current_count), (9, 2, 4));
}

fn grants(mut now: Controller, times: usize) -> Vec<usize> {
    let mut order = Vec::new();
    for _ in 0..times {
        let (open, channel) = now.grant().unwrap();
        order.push(channel);
        now = plain_run(open, 65_536, 0).0;
    }
    order
}

fn four_singles() -> Controller {
    let mut now = Controller::fresh();
    for number in 0..4 {
        set_channel(&mut now, number, 0, 9, SINGLE);
    }
    Controller { command: 0x10, mask: 0, ..now }
}

#[test]
fn p5_rotation_of_four() {
    assert_eq!(grants(Controller { pins: 15, ..four_singles() }, 5), [0, 1, 2, 3, 0]);
}

#[test]
fn p6_rotation_of_two() {
    let held = Controller { pins: 0b1010, lowest: 1, ..four_singles() };
    assert_eq!(grants(held, 3), [3, 1, 3]);
}

#[test]
fn p7_external_eop() {
    let open = serving(with_channel(3, 0, 9, VERIFY_BLOCK), 3);
    let open = Controller { mask: 0, ..open };
    let (next, stop, got) = plain_run(open, 100, 2);
    assert_eq!((stop, got.transfers), (Stop::Ended, 2));
    assert_eq!((next.channels[3].current_count, next.tc, next.mask), (7, 0, 8));
}

#[test]
fn p8_autoinitialize() {
    let open = serving(with_channel(0, 0x10, 0, VERIFY_BLOCK | AUTOINITIALIZE), 0);
    let open = Controller { mask: 0, ..open };
    let (next, ..) = plain_run(open, 100, 0);
    assert_eq!((next.channels[0].current_count, next.tc, next.mask), (0, 1, 0));
    assert_eq!(next.channels[0].current_address, 0x10);
}

#[test]
fn p9_active_low_status() {
    let now = Controller { command: 0x40, ..Controller::fresh() };
    assert_eq!(now.read(8), Ok((now, 0xF0)));
}

#[test]
fn count_ffff_moves_65536() {
    for (address, states) in [(0, 196_864), (1, 196_865)] {
        let open = serving(with_channel(0, address, 0xFFFF, VERIFY_BLOCK), 0);
        let (next, stop, got) = plain_run(open, 65_536, 0);
        assert_eq!((stop, got), (Stop::Ended, tally(65_536, 0, 0, states)));
        assert_eq!(next.channels[0].current_address, address);
    }
}

#[test]
fn registers_15_and_16() {
    let now = Controller::fresh();
    assert!(now.write(15, 0).is_ok());
    assert_eq!(now.write(16, 0), Err(Refusal::TooLarge));
    assert_eq!(now.read(15), Err(Refusal::IllegalRegister));
}

#[test]
fn rounds_of_4096_and_4097() {
    let held = with_channel(0, 0, 0, VERIFY_BLOCK | AUTOINITIALIZE);
    let held = Controller { mask: 0, pins: 1, ..held };
    let (_, stop, got) = held.round(&mut memory(), &[], &mut [], 4_096).unwrap();
    assert_eq!((stop, got.services), (RoundStop::Done, [4_096, 0, 0, 0]));
    assert_eq!(got.total, tally(4_096, 0, 0, 16_384));
    let refused = held.round(&mut memory(), &[], &mut [], 4_097);
    assert_eq!(refused, Err(Refusal::TooLarge));
}

#[test]
fn slices_of_55_and_56() {
    let now = Controller::fresh();
    assert_eq!(now.write_sheet(Form::One, &mut [0; 55]), Err(Refusal::ShortSlice));
    let mut slice = [0; 56];
    now.write_sheet(Form::One, &mut slice).unwrap();
    let mut fresh = [0; 56];
    fresh[39] = 0x0F;
    fresh[43] = 3;
    fresh[48..].copy_from_slice(&[1, 0, 0x30, 0, 0x12, 0, 0x44, 0x4D]);
    assert_eq!(slice, fresh);
    assert_eq!(Controller::read_sheet(Form::One, &slice), Ok(now));
    assert_eq!(Controller::read_sheet(Form::One, &slice[1..]), Err(Refusal::ShortSlice));
}

#[test]
fn memories_of_65535_65536_and_65537() {
    let open = serving(with_channel(0, 0, 0, VERIFY_BLOCK), 0);
    for (length, accepted) in [(65_535, false), (65_536, true), (65_537, false)] {
        let mut memory = vec![0; length];
        assert_eq!(open.run(&mut memory, &[], &mut [], 1, 0).is_ok(), accepted);
        let idle = Controller::fresh();
        assert_eq!(idle.round(&mut memory, &[], &mut [], 1).is_ok(), accepted);
    }
}
