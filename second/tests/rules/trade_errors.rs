//! "Errors this trade makes": one test for each.

use crate::*;
use second::state::Refusal;

/// "Stopping when the count reads 0, one byte early."
#[test]
fn the_transfer_at_count_0_is_made() {
    let open = serving(with_channel(0, 0, 1, WRITE_BLOCK), 0);
    let (next, stop, got) = open.run(&mut memory(), &[1, 2, 3], &mut [], 1, 0).unwrap();
    assert_eq!((stop, got.transfers, next.channels[0].current_count), (Stop::Limit, 1, 0));
    let (next, stop, got) = next.run(&mut memory(), &[2, 3], &mut [], 9, 0).unwrap();
    assert_eq!((stop, got.transfers, next.channels[0].current_count), (Stop::Ended, 1, 0xFFFF));
}

/// "Adding S1 only on a carry, so that a new service has none."
#[test]
fn each_new_service_has_its_s1() {
    let mut now = with_channel(0, 0x1000, 9, SINGLE);
    now.mask = 0;
    now.pins = 1;
    for _ in 0..3 {
        let (open, _) = now.grant().unwrap();
        let (next, _, got) = plain_run(open, 9, 0);
        assert_eq!(got.states, 4);
        now = next;
    }
}

/// "Clearing TC bits on any read."
#[test]
fn only_the_status_read_clears_tc() {
    let now = Controller { tc: 15, ..Controller::fresh() };
    for register in [0, 1, 2, 3, 4, 5, 6, 7, 0xD] {
        assert_eq!(now.read(register).unwrap().0.tc, 15);
    }
    let (next, byte) = now.read(8).unwrap();
    assert_eq!((next.tc, byte), (0, 0x0F));
}

/// "Writing only the current register."
#[test]
fn a_write_sets_base_and_current() {
    let mut now = Controller::fresh();
    for register in 0..8 {
        now = now.write(register, 0x30 + register as u8).unwrap();
        now = now.write(register, 0x70 + register as u8).unwrap();
    }
    for (number, channel) in now.channels.iter().enumerate() {
        let address = 0x7030 + 0x202 * number as u16;
        assert_eq!((channel.base_address, channel.current_address), (address, address));
        let count = address + 0x101;
        assert_eq!((channel.base_count, channel.current_count), (count, count));
    }
}

/// "Turning the rotation at the end of a service and forgetting it after "limit"."
#[test]
fn rotation_turns_at_the_grant() {
    let mut now = with_channel(1, 0, 9, VERIFY_BLOCK);
    now.command = 0x10;
    now.mask = 0;
    now.pins = 2;
    let (open, _) = now.grant().unwrap();
    assert_eq!(open.lowest, 1);
    let (open, stop, _) = plain_run(open, 3, 0);
    assert_eq!((stop, open.lowest), (Stop::Limit, 1));
    let (next, stop, _) = plain_run(open, 100, 0);
    assert_eq!((stop, next.lowest), (Stop::Ended, 1));
}

/// "Letting the mask stop a software request."
#[test]
fn the_mask_stops_no_software_request() {
    let now = with_channel(2, 0, 0, VERIFY_BLOCK).write(9, 0b110).unwrap();
    assert_eq!(now.mask, 15);
    assert_eq!(now.grant().unwrap().1, 2);
    let elsewhere = with_channel(2, 0, 0, SINGLE).write(9, 0b110).unwrap();
    assert_eq!(elsewhere.request, 4);
    assert_eq!(elsewhere.grant(), Err(Refusal::NobodyEntitled));
    assert_eq!(elsewhere.read(8).unwrap().1, 0);
}
