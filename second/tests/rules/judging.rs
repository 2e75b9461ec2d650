//! Document 02, A8: "Judging other replicas' logs."

use crate::records::{log_of, marked_memory, BYTES};
use crate::*;
use second::judge::Verdict;
use second::record::{EOP, RECORD_LENGTH};
use second::state::{Refusal, AM9517A, INTEL};

const PAIR: u8 = 1;
const HOLD: u8 = 2;
const DISABLE: u8 = 4;

fn accepted(records: usize) -> Verdict {
    Verdict::Accepted { records }
}

fn wrong(at: usize, error: i32) -> Verdict {
    Verdict::Wrong { at, error }
}

/// The verdict over `marked_memory`, and the state left.
fn judged(open: Controller, log: &[u8]) -> (Controller, Verdict) {
    open.judge(&mut marked_memory(), log).unwrap()
}

fn verdict(open: Controller, log: &[u8]) -> Verdict {
    judged(open, log).1
}

/// A service with its line active, and nothing else in the way.
fn open(number: u8, address: u16, count: u16, mode: u8) -> Controller {
    let mut open = serving(with_channel(usize::from(number), address, count, mode), number);
    open.pins = 1 << number;
    open
}

fn pair(mode: u8, command: u8) -> Controller {
    let mut open = open(0, 0x00FE, 2, mode);
    set_channel(&mut open, 1, 0x0100, 3, mode);
    Controller { command: PAIR | command, pins: 0, mask: 0, request: 15, ..open }
}

/// Services of four transfers in each mode, of each type, up and down over both ends of the address
/// space, with autoinitialize and without; and of memory-to-memory over itself.
fn services() -> Vec<Controller> {
    let mut all = Vec::new();
    for (kind, bits) in [DEMAND, SINGLE, VERIFY_BLOCK].iter().flat_map(|&kind| {
        [0, AUTOINITIALIZE, DECREMENT, AUTOINITIALIZE | DECREMENT].map(|bits| (kind, bits))
    }) {
        for (number, transfer) in [(0, 0), (1, 4), (2, 8), (3, 4), (0, 8)] {
            all.push(open(number, 0xFFFE, 3, kind | transfer | bits));
            all.push(open(number, 0x0001, 3, kind | transfer | bits));
        }
        for command in [0, HOLD] {
            all.push(pair(kind | bits, command));
            all.push(pair(CASCADE | bits, command));
        }
    }
    let mut apart = open(2, 0x0100, 3, WRITE_BLOCK | AUTOINITIALIZE);
    apart.channels[2].base_address = 0x7777;
    apart.channels[2].base_count = 0x55;
    all.push(apart);
    let intel: Vec<_> =
        all.iter().map(|&now| Controller { edition: INTEL, waits: 9, ..now }).collect();
    [all, intel].concat()
}

/// A vendor reads a count of 11 as eleven transfers and flags the eleventh as the last.
#[test]
fn a_count_of_11_read_as_eleven_transfers() {
    for mode in [VERIFY_BLOCK, WRITE_BLOCK, READ_BLOCK, DEMAND] {
        let open = open(1, 0x2000, 11, mode);
        let honest = open.recorded_run(&mut marked_memory(), &[7; 20], 11, 0).unwrap().2;
        let mut log = honest.clone();
        log[87] = 5;
        let (next, said) = judged(open, &log);
        assert_eq!(said, wrong(80, 0));
        assert_eq!(next.channels[1].current_count, 1);
        let (next, said) = judged(open, &honest);
        assert_eq!(said, accepted(11));
        assert_eq!((next.channels[1].current_count, next.in_service), (0, 1));
    }
}

/// "accept exactly the logs whose every record is what the rules do next"; "An honest log that stops
/// early is accepted"; "Memory is left as the good records made it; state by the same rule".
#[test]
fn honest_logs_are_accepted() {
    for open in services() {
        for (limit, eop) in (0..=5).flat_map(|limit| (0..=5).map(move |eop| (limit, eop))) {
            let mut ran = marked_memory();
            let run = open.run(&mut ran, &BYTES, &mut [0; 8], limit, eop).unwrap();
            let log = log_of(open, limit, eop);
            let mut memory = marked_memory();
            let (next, said) = open.judge(&mut memory, &log).unwrap();
            assert_eq!((next, said), (run.0, accepted(run.2.transfers as usize)));
            assert!(memory == ran);
        }
    }
}

/// "An empty log" is one that stops before its first record: accepted in every open service.
#[test]
fn an_empty_log_is_accepted() {
    let dropped = Controller { pins: 0, ..open(2, 5, 3, DEMAND) };
    for open in [services(), vec![dropped, open(2, 5, 3, CASCADE)]].concat() {
        assert_eq!(judged(open, &[]), (open, accepted(0)));
    }
}

/// One log in several parts is what it is in one.
#[test]
fn logs_in_parts() {
    for open in services() {
        let log = log_of(open, 9, 0);
        let whole = judged(open, &log).0;
        for cut in (0..=log.len()).step_by(RECORD_LENGTH) {
            let mut memory = marked_memory();
            let (next, said) = open.judge(&mut memory, &log[..cut]).unwrap();
            assert_eq!(said, accepted(cut / RECORD_LENGTH));
            let rest = next.judge(&mut memory, &log[cut..]);
            if cut < log.len() {
                assert_eq!(rest, Ok((whole, accepted((log.len() - cut) / RECORD_LENGTH))));
            } else {
                assert_eq!(rest, Err(Refusal::NoService));
            }
        }
    }
}

/// Is this byte, in this place of a record, as right as the honest one?
fn is_as_right(record: &[u8], place: usize, byte: u8) -> bool {
    match place {
        // "taking device bytes .. from the log"
        6 => record[1] == 1,
        // ".. and EOP from the log": with EOP the record is the last, and TC stays what it is.
        7 => byte == record[7] | EOP | 4,
        _ => false,
    }
}

/// Each byte of each record changed to each other value is wrong there, and changes nothing.
#[test]
fn any_other_byte_is_wrong() {
    let chosen = services().into_iter().enumerate().filter(|(index, _)| index % 5 == 0);
    for open in chosen.map(|(_, open)| open) {
        let log = log_of(open, 9, 0);
        for at in (0..log.len()).step_by(RECORD_LENGTH) {
            let mut memory = marked_memory();
            let (now, _) = open.judge(&mut memory, &log[..at]).unwrap();
            let before = memory.clone();
            let record: [u8; 8] = log[at..at + RECORD_LENGTH].try_into().unwrap();
            for (place, byte) in (0..8).flat_map(|place| (0..=255).map(move |byte| (place, byte))) {
                let mut changed = record;
                changed[place] = byte;
                if byte == record[place] || is_as_right(&record, place, byte) {
                    let said = now.judge(&mut before.clone(), &changed).unwrap().1;
                    assert_eq!(said, accepted(1));
                    continue;
                }
                let (next, said) = now.judge(&mut memory, &changed).unwrap();
                assert_eq!(next, now);
                let distance = i32::from(byte) - i32::from(record[place]);
                let error = match place {
                    2 => distance,
                    3 => i32::from((256 * distance) as i16),
                    _ => 0,
                };
                assert_eq!(said, wrong(0, error));
            }
            assert!(memory == before);
        }
    }
}

/// "hand back the part of the vendor's log that begins at the first wrong record": the good records
/// before it count, what is behind it isn't looked at.
#[test]
fn the_place_of_the_first_wrong_record() {
    for open in services() {
        let log = log_of(open, 9, 0);
        for at in (0..log.len()).step_by(RECORD_LENGTH) {
            let mut bad = log.clone();
            for record in bad[at..].chunks_mut(RECORD_LENGTH) {
                record[0] ^= 1;
            }
            bad.extend([1, 2, 3]);
            let mut memory = marked_memory();
            let mut good_memory = marked_memory();
            let good = open.judge(&mut good_memory, &log[..at]).unwrap().0;
            assert_eq!(open.judge(&mut memory, &bad), Ok((good, wrong(at, 0))));
            assert!(memory == good_memory);
        }
    }
}

/// "its address error as a signed number, -32,768 to 32,767, claimed minus right first address
/// modulo 65,536": each address claimed over some right ones, with all else right or not.
#[test]
fn address_errors() {
    for right in [0, 1, 0x00FF, 0x1234, 0x7FFF, 0x8000, 0x8001, 0xFFFF_u16] {
        let open = open(2, right, 9, VERIFY_BLOCK);
        let mut memory = marked_memory();
        for claimed in (0..=0xFFFF_u16).filter(|&claimed| claimed != right) {
            let mut error = i32::from(claimed) - i32::from(right);
            if error > 32_767 {
                error -= 65_536;
            }
            if error < -32_768 {
                error += 65_536;
            }
            let [low, high] = claimed.to_le_bytes();
            for record in [[2, 0, low, high, 0, 0, 0, 0], [1, 3, low, high, 9, 9, 9, 0xFF]] {
                assert_eq!(open.judge(&mut memory, &record), Ok((open, wrong(0, error))));
            }
        }
    }
}

#[test]
fn address_errors_at_zero_and_both_ends() {
    let open = open(0, 0x9000, 9, VERIFY_BLOCK);
    for (claimed, error) in [
        (0x9001, 1),
        (0x8FFF, -1),
        (0x9100, 256),
        (0x0FFF, 32_767),
        (0x1000, -32_768),
        (0x1001, -32_767),
        (0x0090, 28_816),
    ] {
        let [low, high] = u16::to_le_bytes(claimed);
        assert_eq!(verdict(open, &[0, 0, low, high, 0, 0, 0, 0]), wrong(0, error));
    }
    assert_eq!(verdict(open, &[0, 0, 0x00, 0x90, 0, 0, 0, 1]), wrong(0, 0));
}

/// In memory-to-memory the first address is channel 0's; the second has no error of its own.
#[test]
fn address_errors_in_memory_to_memory() {
    let open = pair(VERIFY_BLOCK, 0);
    let data = marked_memory()[0xFE];
    for (first, second, said) in [
        (0xFE, 0x100, accepted(1)),
        (0xFE, 0x101, wrong(0, 0)),
        (0xFE, 0, wrong(0, 0)),
        (0xFF, 0x100, wrong(0, 1)),
        (0xFD, 0x101, wrong(0, -1)),
        (0x100, 0xFE, wrong(0, 2)),
    ] {
        let [low, high] = u16::to_le_bytes(first);
        let [second_low, second_high] = u16::to_le_bytes(second);
        let record = [0, 3, low, high, second_low, second_high, data, 0];
        assert_eq!(verdict(open, &record), said);
    }
}

/// "A cut record .. counts as wrong with error 0", whatever it says, after good records too.
#[test]
fn cut_records() {
    for open in services() {
        let log = log_of(open, 9, 0);
        let any = [0xFF; 8];
        for at in (0..log.len()).step_by(RECORD_LENGTH) {
            for length in 1..RECORD_LENGTH {
                let honest = &log[..at + length];
                let good = judged(open, &log[..at]).0;
                assert_eq!(judged(open, honest), (good, wrong(at, 0)));
            }
            let foul = [&log[..at], &any[..7]].concat();
            assert_eq!(verdict(open, &foul), wrong(at, 0));
        }
    }
}

/// ".. one after the end of service ..": by TC, by EOP, or by a single service's plain end; a
/// record, a part of one, and one that would be right for a service begun again.
#[test]
fn records_after_the_end() {
    for open in services() {
        for eop in [0, 1, 2] {
            let log = log_of(open, 9, eop);
            let end = judged(open, &log).0;
            assert!(!end.in_service());
            for length in 1..=9 {
                for more in [&log[..], &[0; 9]] {
                    let behind = [&log, &more[..length.min(more.len())]].concat();
                    assert_eq!(judged(open, &behind), (end, wrong(log.len(), 0)));
                }
            }
        }
    }
}

/// ".. or one where the rules make no transfer (line dropped ..": the service stays open, and goes
/// on when the line comes back.
#[test]
fn records_after_the_line_dropped() {
    for number in 0..4 {
        let demand = open(number, 0x300, 5, DEMAND | 4);
        let log = log_of(demand, 9, 0);
        let (now, _) = judged(demand, &log[..16]);
        for (command, pins) in [(0, 15 & !(1 << number)), (0x40, 1 << number)] {
            let dropped = Controller { command, pins, ..now };
            for record in [&log[16..], &log[..8], &[0xFF; 8]] {
                assert_eq!(judged(dropped, record), (dropped, wrong(0, 0)));
            }
            let back = Controller { command, pins: pins ^ 1 << number, ..now };
            assert_eq!(verdict(back, &log[16..]), accepted(4));
        }
    }
}

/// ".. cascade)", its line active or not.
#[test]
fn records_of_a_cascade_service() {
    for mode in [CASCADE, CASCADE | 4, CASCADE | 8, CASCADE | 0x0C, CASCADE | 0x30] {
        for pins in [0, 8, 15] {
            let cascade = Controller { pins, ..open(3, 0x300, 0, mode) };
            for kind in 0..4 {
                for first in [0, 3, 0x80] {
                    let record = [3, kind, 0, first, 0, 0, 0, 5];
                    assert_eq!(judged(cascade, &record), (cascade, wrong(0, 0)));
                }
            }
        }
    }
}

/// Without a line, block and single services go on, and so does memory-to-memory in every mode.
#[test]
fn services_that_need_no_line() {
    for open in [open(1, 0x300, 0, VERIFY_BLOCK), open(1, 0x300, 0, SINGLE)] {
        let silent = Controller { pins: 0, ..open };
        assert_eq!(verdict(silent, &[1, 0, 0, 3, 0, 0, 0, 5]), accepted(1));
    }
    for mode in [DEMAND, SINGLE, VERIFY_BLOCK, CASCADE] {
        for pins in [0, 15] {
            let open = Controller { pins, ..pair(mode, 0) };
            assert_eq!(verdict(open, &log_of(open, 9, 0)), accepted(4));
        }
    }
}

/// Command bit 2, masks and requests have no say in a service that is open.
#[test]
fn a_disabled_or_masked_service_goes_on() {
    for (command, mask, request) in [(DISABLE, 0, 15), (0, 15, 0), (DISABLE, 15, 0)] {
        let open = Controller { command, mask, request, ..open(2, 0x300, 1, READ_BLOCK) };
        assert_eq!(verdict(open, &log_of(open, 9, 0)), accepted(2));
    }
}

/// "bit 2 last of service": in single mode each record has it, in memory-to-memory only TC or EOP.
#[test]
fn the_plain_end_of_a_single_service() {
    let single = open(2, 0x300, 5, SINGLE);
    assert_eq!(verdict(single, &[2, 0, 0, 3, 0, 0, 0, 4]), accepted(1));
    assert_eq!(verdict(single, &[2, 0, 0, 3, 0, 0, 0, 0]), wrong(0, 0));
    let pair = pair(SINGLE, 0);
    let data = marked_memory()[0xFE];
    assert_eq!(verdict(pair, &[0, 3, 0xFE, 0, 0, 1, data, 0]), accepted(1));
    assert_eq!(verdict(pair, &[0, 3, 0xFE, 0, 0, 1, data, 4]), wrong(0, 0));
}

/// "bit 0 TC (the TC count passed 0)": EOP alone doesn't set it in the Intel edition either, though
/// it sets the TC bit of the state there.
#[test]
fn eop_in_both_editions() {
    for (edition, tc) in [(AM9517A, 0), (INTEL, 4)] {
        let open = Controller { edition, mask: 0, request: 4, ..open(2, 0x300, 5, VERIFY_BLOCK) };
        let (next, said) = judged(open, &[2, 0, 0, 3, 0, 0, 0, 6]);
        assert_eq!((said, next.tc, next.mask, next.request), (accepted(1), tc, 4, 0));
        for flags in [1, 2, 3, 4, 5, 7, 8, 14, 0x86] {
            let record = [2, 0, 0, 3, 0, 0, 0, flags];
            assert_eq!(judged(open, &record), (open, wrong(0, 0)));
        }
        let pair = Controller { edition, ..pair(VERIFY_BLOCK, 0) };
        let data = marked_memory()[0xFE];
        let (next, said) = judged(pair, &[0, 3, 0xFE, 0, 0, 1, data, 6]);
        assert_eq!((said, next.tc, next.mask), (accepted(1), tc >> 1, 2));
    }
}

/// The TC count of memory-to-memory is channel 1's, though channel 0's passes 0 as well.
#[test]
fn the_tc_count_of_memory_to_memory() {
    let mut open = pair(VERIFY_BLOCK, 0);
    open.channels[0].current_count = 0;
    let data = marked_memory()[0xFE];
    assert_eq!(verdict(open, &[0, 3, 0xFE, 0, 0, 1, data, 0]), accepted(1));
    assert_eq!(verdict(open, &[0, 3, 0xFE, 0, 0, 1, data, 5]), wrong(0, 0));
    (open.channels[0].current_count, open.channels[1].current_count) = (9, 0);
    assert_eq!(verdict(open, &[0, 3, 0xFE, 0, 0, 1, data, 0]), wrong(0, 0));
    assert_eq!(verdict(open, &[0, 3, 0xFE, 0, 0, 1, data, 5]), accepted(1));
}

/// Memory-to-memory over itself: a byte laid before is the right one to be read.
#[test]
fn data_is_asked_of_memory_as_it_is() {
    let mut open = pair(VERIFY_BLOCK, 0);
    open.channels[1].current_address = 0xFF;
    let laid = marked_memory()[0xFE];
    let log = [[0, 3, 0xFE, 0, 0xFF, 0, laid, 0], [0, 3, 0xFF, 0, 0, 1, laid, 0]].concat();
    let mut memory = marked_memory();
    assert_eq!(open.judge(&mut memory, &log).unwrap().1, accepted(2));
    assert_eq!(memory[0xFE..0x101], [laid; 3]);
}

/// A write's byte is the log's, and memory has it; what memory had before isn't asked.
#[test]
fn device_bytes_are_taken_from_the_log() {
    for data in [0, 1, 0x80, 0xFF] {
        let mut memory = marked_memory();
        let (next, said) = open(3, 0x300, 5, WRITE_BLOCK)
            .judge(&mut memory, &[3, 1, 0, 3, 0, 0, data, 0])
            .unwrap();
        assert_eq!((said, memory[0x300], next.latch_full, next.latch), (accepted(1), data, 1, 3));
    }
}

/// "Refusals 1, 7, 8 in that order.", an empty log's too; nothing changes.
#[test]
fn refusals_in_order() {
    let idle = Controller::fresh();
    let open = open(3, 0x300, 5, WRITE_BLOCK);
    let record = [3, 1, 0, 3, 0, 0, 9, 0];
    for log in [&record[..], &record[..3], &[]] {
        for length in [0, 1, 65_535, 65_536, 65_537] {
            let mut memory = vec![0xEE; length];
            let right = length == 65_536;
            for broken in [Controller { tc: 16, ..idle }, Controller { edition: 2, ..open }] {
                assert_eq!(broken.judge(&mut memory, log), Err(Refusal::BrokenState));
            }
            let refused = if right { Refusal::NoService } else { Refusal::MemoryLength };
            assert_eq!(idle.judge(&mut memory, log), Err(refused));
            if !right {
                assert_eq!(open.judge(&mut memory, log), Err(Refusal::MemoryLength));
            }
            assert!(memory.iter().all(|&byte| byte == 0xEE));
        }
    }
}

/// The longest service there is: 65,536 records, over the whole of memory.
#[test]
fn the_longest_log() {
    let open = open(1, 0x1234, 0xFFFF, WRITE_BLOCK | DECREMENT);
    let input: Vec<u8> = (0..65_536).map(|n| (n % 251) as u8).collect();
    let mut wanted = marked_memory();
    let (end, _, log) = open.recorded_run(&mut wanted, &input, 65_536, 0).unwrap();
    assert_eq!(log.len(), 8 * 65_536);
    let mut memory = marked_memory();
    assert_eq!(open.judge(&mut memory, &log), Ok((end, accepted(65_536))));
    assert!(memory == wanted);
    let more = [&log[..], &[0]].concat();
    assert_eq!(verdict(open, &more), wrong(8 * 65_536, 0));
    let mut early = log;
    early[8 * 65_534 + 7] = 5;
    assert_eq!(verdict(open, &early), wrong(8 * 65_534, 0));
}
