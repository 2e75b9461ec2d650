//! Damage to a bus log: one thing wrong in it, of any sort.

use super::random::Random;
use crate::record::{Record, LAST, RECORD_LENGTH, TC};

/// Distances an address is off by.
const OFF_BY: [u16; 16] = [
    1, 1, 2, 0x80, 0xFF, 0x100, 0x100, 0x7FFF, 0x8000, 0x8000, 0x8001, 0xFF00, 0xFF80, 0xFFFE,
    0xFFFF, 0xFFFF,
];

/// One thing wrong, most often in one record.
pub fn damage(random: &mut Random, log: &mut Vec<u8>) {
    let records = log.len() / RECORD_LENGTH;
    if records == 0 {
        return add_behind(random, log);
    }
    match random.weighted(&[50, 8, 12, 10]) {
        0 => {
            let number = some_record(random, records);
            change(log, number, |record| spoil(random, record));
        }
        1 => cut(random, log),
        2 => misplace(random, log, records),
        _ => add_behind(random, log),
    }
}

/// The first, the last, or any.
fn some_record(random: &mut Random, records: usize) -> usize {
    match random.below(4) {
        0 => 0,
        1 => records - 1,
        _ => random.below(records as u64) as usize,
    }
}

/// Change one record of a log.
pub fn change(log: &mut [u8], number: usize, change: impl FnOnce(&mut Record)) {
    let at = number * RECORD_LENGTH;
    if let Some(bytes) = log[at..].first_chunk_mut() {
        let mut record = Record::from_bytes(*bytes);
        change(&mut record);
        *bytes = record.to_bytes();
    }
}

/// One field wrong, or one byte, or several fields at once.
fn spoil(random: &mut Random, record: &mut Record) {
    match random.weighted(&[20, 26, 12, 14, 20, 8, 6]) {
        0 => spoil_byte(random, record),
        1 => spoil_address(random, record),
        2 => spoil_second(random, record),
        3 => spoil_data(random, record),
        4 => spoil_flags(random, record),
        5 => spoil_channel_or_kind(random, record),
        _ => {
            spoil_address(random, record);
            match random.below(4) {
                0 => spoil_second(random, record),
                1 => spoil_data(random, record),
                2 => spoil_flags(random, record),
                _ => spoil_channel_or_kind(random, record),
            }
        }
    }
}

/// Any of the eight.
fn spoil_byte(random: &mut Random, record: &mut Record) {
    let mut bytes = record.to_bytes();
    let byte = &mut bytes[random.below(RECORD_LENGTH as u64) as usize];
    *byte = match random.below(4) {
        0 => byte.wrapping_add(1),
        1 => byte.wrapping_sub(1),
        2 => *byte ^ 1 << random.below(8),
        _ => random.byte(),
    };
    *record = Record::from_bytes(bytes);
}

fn spoil_address(random: &mut Random, record: &mut Record) {
    record.first = match random.below(12) {
        0 => record.first.swap_bytes(),
        1 => record.second,
        2 => random.number() as u16,
        _ => record.first.wrapping_add(random.pick(&OFF_BY)),
    };
}

/// A wrong second address, or one where there is none.
fn spoil_second(random: &mut Random, record: &mut Record) {
    record.second = match random.below(8) {
        0 => record.second.swap_bytes(),
        1 => record.first,
        2 => 0,
        3 => random.number() as u16,
        4 => {
            (record.first, record.second) = (record.second, record.first);
            return;
        }
        _ => record.second.wrapping_add(random.pick(&OFF_BY)),
    };
}

fn spoil_data(random: &mut Random, record: &mut Record) {
    let any = random.byte();
    record.data = random.pick(&[0, record.data ^ 1, record.data ^ 0x80, !record.data, any]);
}

fn spoil_flags(random: &mut Random, record: &mut Record) {
    record.flags = match random.below(10) {
        0..=3 => random.below(8) as u8,
        4..=5 => record.flags ^ LAST,
        6 => record.flags ^ TC,
        7..=8 => record.flags | 8 << random.below(5),
        _ => random.byte(),
    };
}

fn spoil_channel_or_kind(random: &mut Random, record: &mut Record) {
    let field = if random.chance(50) { &mut record.channel } else { &mut record.kind };
    let any = random.byte();
    *field = random.pick(&[*field ^ 1, *field ^ 2, *field ^ 3, *field | 4, *field | 0x80, any]);
}

/// Too few bytes for the last record, which may be any.
fn cut(random: &mut Random, log: &mut Vec<u8>) {
    let fewer = random.between(1, RECORD_LENGTH as u64 - 1) as usize;
    let records = log.len() / RECORD_LENGTH;
    let left = (some_record(random, records) + 1) * RECORD_LENGTH;
    log.truncate(left - fewer);
}

/// Two records swapped, one doubled, or one left out.
fn misplace(random: &mut Random, log: &mut Vec<u8>, records: usize) {
    let number = some_record(random, records);
    let at = number * RECORD_LENGTH;
    let next = at + RECORD_LENGTH;
    match random.below(3) {
        0 if number + 1 < records => log[at..next + RECORD_LENGTH].rotate_left(RECORD_LENGTH),
        1 => {
            log.drain(at..next);
        }
        _ => {
            let record = log[at..next].to_vec();
            log.splice(next..next, record);
        }
    }
}

/// More bytes behind the log: a record, a part of one, or two.
fn add_behind(random: &mut Random, log: &mut Vec<u8>) {
    let records = log.len() / RECORD_LENGTH;
    let length = random.pick(&[1, 2, 4, 7, 8, 8, 9, 16]);
    match random.below(6) {
        0 => log.extend(vec![0; length]),
        1 if records > 0 => log.extend_from_within(..RECORD_LENGTH),
        2..=4 if records > 0 => {
            log.extend_from_within((records - 1) * RECORD_LENGTH..);
            change(log, records, |record| step_on(random, record));
        }
        _ => log.extend(random.bytes(length)),
    }
}

/// As a vendor would go on: the next address, and no flags or the same ones.
fn step_on(random: &mut Random, record: &mut Record) {
    record.first = record.first.wrapping_add(random.pick(&[0, 1, 1, 1, 0xFFFF]));
    if random.chance(60) {
        record.flags = 0;
    }
}
