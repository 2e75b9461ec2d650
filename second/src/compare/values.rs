//! Values near the edges: addresses, counts, modes, commands, whole states, broken states.

use super::editions::BROKEN_EDITIONS;
use super::random::Random;
use crate::state::Controller;

const ADDRESSES: [u16; 18] = [
    0x0000, 0x0001, 0x0002, 0x0003, 0x00FD, 0x00FE, 0x00FF, 0x0100, 0x0101, 0x01FF, 0x0200, 0x7FFF,
    0x8000, 0xFEFF, 0xFF00, 0xFFFD, 0xFFFE, 0xFFFF,
];

/// An address at or near an edge, or near one the controller already holds.
pub fn address(random: &mut Random, now: &Controller) -> u16 {
    let near = random.pick(&[0u16, 1, 2, 3, 5, 0xFFFD, 0xFFFE, 0xFFFF]);
    match random.below(10) {
        0..=3 => random.pick(&ADDRESSES),
        4..=5 => random.pick(&ADDRESSES).wrapping_add(near),
        6..=7 => now.channels[random.below(4) as usize].current_address.wrapping_add(near),
        _ => random.number() as u16,
    }
}

/// A count; a heavy script has long ones more often.
pub fn count(random: &mut Random, heavy: bool) -> u16 {
    if heavy && random.chance(30) {
        return random.pick(&[0xFFFF, 0xFFFF, 0xFFFE, 0x8000, 0xFEFF]);
    }
    match random.below(100) {
        0..=17 => 0,
        18..=32 => 1,
        33..=67 => random.between(2, 12) as u16,
        68..=82 => random.between(13, 60) as u16,
        83..=87 => random.pick(&[254, 255, 256, 257, 258]),
        88..=96 => random.pick(&[0xFFFE, 0xFFFF]),
        _ => random.number() as u16,
    }
}

/// Wait states, most often at an end of the byte or of a half of it.
pub fn waits(random: &mut Random) -> u8 {
    let any = random.byte();
    random.pick(&[0, 1, 1, 2, 3, 127, 128, 129, 254, 255, 255, any, any])
}

/// A mode byte the rules accept, bits 1-0 zero.
pub fn mode(random: &mut Random) -> u8 {
    let kind = random.weighted(&[28, 22, 39, 11]) as u8;
    let types = if kind == 3 { 4 } else { 3 };
    let transfer = random.below(types) as u8;
    let mut mode = kind << 6 | transfer << 2;
    if random.chance(35) {
        mode |= 0x10;
    }
    if random.chance(35) {
        mode |= 0x20;
    }
    mode
}

/// A command byte; disabled now and then only.
pub fn command(random: &mut Random) -> u8 {
    let percents = [28, 25, 7, 35, 50, 20, 25, 20];
    let mut command = 0;
    for (bit, percent) in percents.into_iter().enumerate() {
        if random.chance(percent) {
            command |= 1 << bit;
        }
    }
    command
}

/// Pin levels for which exactly these lines are active.
pub fn pins_for(active: u8, command: u8) -> u8 {
    if command & 0x40 != 0 {
        return !active & 15;
    }
    active & 15
}

fn four_bits(random: &mut Random) -> u8 {
    random.below(16) as u8
}

/// An Am9517A state without waits that keeps every range, idle or in service.
pub fn state(random: &mut Random, heavy: bool) -> Controller {
    let mut state = Controller::fresh();
    for number in 0..4 {
        let mut channel = state.channels[number];
        channel.current_address = address(random, &state);
        channel.base_address = address(random, &state);
        channel.current_count = count(random, heavy);
        channel.base_count = count(random, heavy);
        if random.chance(60) {
            channel.base_address = channel.current_address;
            channel.base_count = channel.current_count;
        }
        channel.mode = mode(random);
        state.channels[number] = channel;
    }
    state.command = command(random);
    state.tc = four_bits(random);
    state.request = four_bits(random) & four_bits(random);
    state.mask = four_bits(random) & four_bits(random);
    state.temporary = random.byte();
    state.flip_flop = random.below(2) as u8;
    state.pins = four_bits(random);
    state.lowest = random.below(4) as u8;
    if random.chance(45) {
        open_service(random, &mut state);
    }
    state
}

/// A service of some channel, its latch empty, right, near or wrong.
pub fn open_service(random: &mut Random, state: &mut Controller) {
    state.in_service = 1;
    state.serving = random.below(4) as u8;
    if random.chance(50) {
        state.pins = pins_for(four_bits(random) | 1 << state.serving, state.command);
    }
    let upper = (state.channels[usize::from(state.serving)].current_address >> 8) as u8;
    if random.chance(60) {
        state.latch_full = 1;
        state.latch = match random.below(5) {
            0 => upper.wrapping_add(1),
            1 => upper.wrapping_sub(1),
            2 => random.byte(),
            _ => upper,
        };
    }
}

/// Break one range, or come just up to it.
pub fn break_range(random: &mut Random, state: &mut Controller) {
    let wide = random.pick(&[16u8, 16, 17, 0x80, 0xF0, 0xFF]);
    let mark = random.pick(&[2u8, 2, 3, 0x80, 0xFF]);
    let channel = &mut state.channels[random.below(4) as usize];
    match random.below(19) {
        0 => channel.mode |= random.pick(&[1, 2, 3]),
        1 => channel.mode = random.pick(&[0x0C, 0x4C, 0x8C, 0x1C, 0x6C, 0xBC]),
        2 => state.tc = wide,
        3 => state.request = wide,
        4 => state.mask = wide,
        5 => state.pins = wide,
        6 => state.flip_flop = mark,
        7 => state.in_service = mark,
        8 => (state.in_service, state.latch_full) = (1, mark),
        9 => state.lowest = random.pick(&[4, 4, 5, 0x83, 0xFF]),
        10 => (state.in_service, state.serving) = (1, random.pick(&[4, 4, 7, 0xFC])),
        11 => (state.in_service, state.serving) = (0, random.between(1, 3) as u8),
        12 => (state.in_service, state.latch_full) = (0, 1),
        13 => (state.in_service, state.latch) = (0, random.byte()),
        14 => (state.in_service, state.latch_full, state.latch) = (1, 0, random.byte()),
        15 => (state.tc, state.request, state.mask, state.pins) = (15, 15, 15, 15),
        16..=17 => state.edition = random.pick(&BROKEN_EDITIONS),
        _ => channel.mode = random.byte(),
    }
}

/// Any mode byte, low bits and now and then a refused type too.
pub fn mode_to_write(random: &mut Random) -> u8 {
    let channel = random.below(4) as u8;
    match random.below(10) {
        0 => random.byte(),
        1..=2 => mode(random) | 0x0C | channel,
        _ => mode(random) | channel,
    }
}
