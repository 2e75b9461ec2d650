//! The cases of document 01, its refusals, its list of errors, document 02's requests A1 to A3, A5,
//! A6, A8 and A9, and the line protocol.

mod board;
mod board_lines;
mod board_turns;
mod cases;
mod channel_zero;
mod details;
mod edition_lines;
mod editions;
mod form_lines;
mod form_two;
mod judge_lines;
mod judging;
mod picking;
mod protocol;
mod records;
mod refusals;
mod trade_errors;
mod wait_lines;
mod waits;

use second::run::{Stop, Tally};
use second::sheet::Form;
use second::state::Controller;

/// One channel set up by hand, everything else fresh.
pub fn with_channel(number: usize, address: u16, count: u16, mode: u8) -> Controller {
    let mut controller = Controller::fresh();
    set_channel(&mut controller, number, address, count, mode);
    controller
}

pub fn set_channel(controller: &mut Controller, number: usize, address: u16, count: u16, mode: u8) {
    let channel = &mut controller.channels[number];
    channel.base_address = address;
    channel.current_address = address;
    channel.base_count = count;
    channel.current_count = count;
    channel.mode = mode;
}

/// The same controller serving this channel, its latch empty.
pub fn serving(controller: Controller, number: u8) -> Controller {
    Controller { in_service: 1, serving: number, ..controller }
}

pub fn memory() -> Vec<u8> {
    vec![0; 65_536]
}

/// A run with no device and no memory of interest.
pub fn plain_run(controller: Controller, limit: u32, eop: u32) -> (Controller, Stop, Tally) {
    controller.run(&mut memory(), &[], &mut [], limit, eop).expect("accepted")
}

pub fn tally(transfers: u64, used: usize, written: usize, states: u64) -> Tally {
    Tally { transfers, used, written, states }
}

pub const VERIFY_BLOCK: u8 = 0x80;
pub const WRITE_BLOCK: u8 = 0x84;
pub const READ_BLOCK: u8 = 0x88;
pub const SINGLE: u8 = 0x40;
pub const DEMAND: u8 = 0x00;
pub const CASCADE: u8 = 0xC0;
pub const AUTOINITIALIZE: u8 = 0x10;
pub const DECREMENT: u8 = 0x20;
