//! Document 02, A8: the records of a log, as the model's own run makes them, byte by byte.

use crate::*;
use second::record::{Record, RECORD_LENGTH};
use second::state::{AM9517A, INTEL};
use std::sync::OnceLock;

const PAIR: u8 = 1;
const HOLD: u8 = 2;

/// Memory in which neighbouring places differ.
pub fn marked_memory() -> Vec<u8> {
    static MARKED: OnceLock<Vec<u8>> = OnceLock::new();
    let mark = |place| (place * 7 + place / 256 + 3) as u8;
    MARKED.get_or_init(|| (0..65_536).map(mark).collect()).clone()
}

pub const BYTES: [u8; 8] = [0xA1, 0xB2, 0xC3, 0xD4, 0xE5, 0xF6, 0x17, 0x28];

/// The log of a run over `marked_memory`, with device bytes `BYTES`.
pub fn log_of(open: Controller, limit: u32, eop: u32) -> Vec<u8> {
    open.recorded_run(&mut marked_memory(), &BYTES, limit, eop).unwrap().2
}

fn open(number: u8, address: u16, count: u16, mode: u8) -> Controller {
    let mut open = serving(with_channel(usize::from(number), address, count, mode), number);
    open.pins = 1 << number;
    open
}

fn pair(mode: u8, command: u8) -> Controller {
    let mut open = open(0, 0x12FF, 0, mode);
    set_channel(&mut open, 1, 0x4000, 2, mode);
    Controller { command: PAIR | command, pins: 0, ..open }
}

fn check(open: Controller, eop: u32, records: &[[u8; 8]]) {
    for edition in [AM9517A, INTEL] {
        let open = Controller { edition, ..open };
        assert_eq!(log_of(open, 9, eop), records.concat());
    }
}

/// "serving channel; kind (0 verify, ..); address; second address (.. else 0); data byte (0 for
/// verify); flags"; "Addresses are low byte first."
#[test]
fn a_verify() {
    let over_the_end = [
        [3, 0, 0xFE, 0xFF, 0, 0, 0, 0],
        [3, 0, 0xFF, 0xFF, 0, 0, 0, 0],
        [3, 0, 0x00, 0x00, 0, 0, 0, 5],
    ];
    check(open(3, 0xFFFE, 2, VERIFY_BLOCK), 0, &over_the_end);
    check(open(3, 0xFFFE, 2, VERIFY_BLOCK | AUTOINITIALIZE), 0, &over_the_end);
}

#[test]
fn a_write() {
    check(
        open(1, 0x1300, 2, WRITE_BLOCK | DECREMENT),
        0,
        &[
            [1, 1, 0x00, 0x13, 0, 0, 0xA1, 0],
            [1, 1, 0xFF, 0x12, 0, 0, 0xB2, 0],
            [1, 1, 0xFE, 0x12, 0, 0, 0xC3, 5],
        ],
    );
}

#[test]
fn a_read() {
    let [first, second] = [0x56FF, 0x5700].map(|place| marked_memory()[place]);
    assert_ne!(first, second);
    check(
        open(2, 0x56FF, 1, DEMAND | 8),
        0,
        &[[2, 2, 0xFF, 0x56, 0, 0, first, 0], [2, 2, 0x00, 0x57, 0, 0, second, 5]],
    );
}

/// "second address (channel 1's in memory-to-memory, else 0)"; channel 0's count, which passes 0 at
/// the first, is not the TC count.
#[test]
fn memory_to_memory() {
    let data = [0x12FF, 0x1300, 0x1301].map(|place| marked_memory()[place]);
    for mode in [DEMAND, SINGLE, VERIFY_BLOCK, WRITE_BLOCK, READ_BLOCK, CASCADE | 0x0C] {
        check(
            pair(mode, 0),
            0,
            &[
                [0, 3, 0xFF, 0x12, 0x00, 0x40, data[0], 0],
                [0, 3, 0x00, 0x13, 0x01, 0x40, data[1], 0],
                [0, 3, 0x01, 0x13, 0x02, 0x40, data[2], 5],
            ],
        );
        let held = [0, 1, 2].map(|n| [0, 3, 0xFF, 0x12, n, 0x40, data[0], [0, 0, 5][n as usize]]);
        check(pair(mode, HOLD), 0, &held);
    }
}

/// With command bit 0 set, channel 1's own service is an ordinary one.
#[test]
fn channel_1_beside_memory_to_memory() {
    let one = Controller { command: PAIR, ..open(1, 0x20, 0, WRITE_BLOCK) };
    check(one, 0, &[[1, 1, 0x20, 0, 0, 0, 0xA1, 5]]);
}

/// "bit 0 TC (the TC count passed 0), bit 1 external EOP, bit 2 last of service, others 0": in both
/// editions bit 0 is of the count alone.
#[test]
fn flags() {
    let last_flags = |open: Controller, eop: u32, records: usize| -> [u8; 2] {
        [AM9517A, INTEL].map(|edition| {
            let log = log_of(Controller { edition, ..open }, 9, eop);
            assert_eq!(log.len(), RECORD_LENGTH * records);
            let before = &log[..log.len() - RECORD_LENGTH];
            assert!(before.chunks(RECORD_LENGTH).all(|record| record[7] == 0));
            log[log.len() - 1]
        })
    };
    for mode in [DEMAND, VERIFY_BLOCK, READ_BLOCK | AUTOINITIALIZE] {
        let three = open(2, 0, 2, mode);
        assert_eq!(last_flags(three, 0, 3), [5, 5]);
        assert_eq!(last_flags(three, 1, 1), [6, 6]);
        assert_eq!(last_flags(three, 2, 2), [6, 6]);
        assert_eq!(last_flags(three, 3, 3), [7, 7]);
        assert_eq!(last_flags(three, 4, 3), [5, 5]);
    }
    assert_eq!(last_flags(open(2, 0, 2, SINGLE), 0, 1), [4, 4]);
    assert_eq!(last_flags(open(2, 0, 2, SINGLE), 1, 1), [6, 6]);
    assert_eq!(last_flags(open(2, 0, 0, SINGLE), 0, 1), [5, 5]);
    assert_eq!(last_flags(open(2, 0, 0, SINGLE), 1, 1), [7, 7]);
    for mode in [SINGLE, VERIFY_BLOCK] {
        assert_eq!(last_flags(pair(mode, 0), 0, 3), [5, 5]);
        assert_eq!(last_flags(pair(mode, 0), 2, 2), [6, 6]);
        assert_eq!(last_flags(pair(mode, 0), 3, 3), [7, 7]);
    }
}

/// The 8 bytes and back.
#[test]
fn bytes_of_a_record() {
    let record =
        Record { channel: 9, kind: 8, first: 0x1234, second: 0x5678, data: 7, flags: 0xFF };
    assert_eq!(record.to_bytes(), [9, 8, 0x34, 0x12, 0x78, 0x56, 7, 0xFF]);
    assert_eq!(Record::from_bytes(record.to_bytes()), record);
}

/// Recorded or not, a run is the same: state, memory, stop, and a record for each transfer.
#[test]
fn recording_changes_nothing() {
    let opens = [
        open(3, 0xFFFE, 5, VERIFY_BLOCK),
        open(0, 0xFFFE, 5, WRITE_BLOCK | AUTOINITIALIZE),
        open(1, 0x0001, 5, DEMAND | 8 | DECREMENT),
        open(2, 0x0001, 5, SINGLE | 4),
        open(2, 0x0001, 5, CASCADE),
        Controller { pins: 0, ..open(1, 0x0001, 5, DEMAND) },
        pair(READ_BLOCK | AUTOINITIALIZE, 0),
        pair(SINGLE | DECREMENT, HOLD),
    ];
    for open in opens {
        for (limit, eop, bytes) in
            [(0, 0, 8), (0, 1, 0), (2, 0, 8), (9, 0, 3), (9, 2, 8), (9, 0, 8)]
        {
            let (mut one, mut other) = (marked_memory(), marked_memory());
            let room = &mut [0; 20];
            let wanted = open.run(&mut one, &BYTES[..bytes], room, limit, eop).unwrap();
            let got = open.recorded_run(&mut other, &BYTES[..bytes], limit, eop).unwrap();
            assert_eq!((got.0, got.1), (wanted.0, wanted.1));
            assert_eq!(got.2.len() as u64, 8 * wanted.2.transfers);
            assert!(one == other);
        }
    }
}
