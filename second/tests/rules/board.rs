//! Document 02, A9: "The whole 7009 board." Its state, registers, pins, reset, waits and sheets.

use crate::*;
use second::board::{Board, BOARD_LENGTH};
use second::state::{Refusal, AM9517A, INTEL};

/// An idle chip in which no field is fresh, different from its neighbour's.
pub fn busy_chip(edition: u8, seed: u8) -> Controller {
    let mut now = Controller::fresh_of(edition);
    for number in 0..4 {
        let mode = [DEMAND, SINGLE, READ_BLOCK, CASCADE | AUTOINITIALIZE][number];
        let address = 0x1234 * (number as u16 + 1) + u16::from(seed);
        set_channel(&mut now, number, address, 7 + u16::from(seed), mode);
    }
    Controller {
        waits: seed,
        command: 0x12 | seed << 5,
        tc: 9 ^ seed,
        request: 6,
        mask: 5 ^ seed,
        temporary: 0xA5 + seed,
        flip_flop: seed & 1,
        pins: 3 + seed,
        lowest: 1 + seed,
        ..now
    }
}

fn busy() -> Board {
    Board { last: 0, chips: [busy_chip(AM9517A, 0), busy_chip(INTEL, 1)] }
}

/// The board with a service of this chip open.
fn open(board: Board, chip: usize) -> Board {
    board.with_chip(chip, serving(board.chips[chip], 2))
}

fn both_open() -> Board {
    open(open(busy(), 0), 1)
}

/// Boards with a range broken: both in service, the arbiter, and each chip's own ranges.
fn broken_boards() -> Vec<Board> {
    let mut boards = vec![both_open()];
    for board in [busy(), open(busy(), 0), open(busy(), 1), both_open()] {
        boards.extend([2, 3, 0x80, 0xFF].map(|last| Board { last, ..board }));
        for chip in 0..2 {
            let now = board.chips[chip];
            boards.push(board.with_chip(chip, Controller { edition: 2, ..now }));
            boards.push(board.with_chip(chip, Controller { tc: 16, ..now }));
            boards.push(board.with_chip(chip, Controller { in_service: 2, ..now }));
        }
    }
    boards
}

#[test]
fn a_fresh_board() {
    let fresh = Board::fresh();
    assert_eq!(fresh, Board { last: 1, chips: [Controller::fresh(); 2] });
    for (first, second) in [(0, 0), (0, 1), (1, 0), (1, 1)] {
        let board = Board::fresh_of([first, second]);
        assert_eq!(board.last, 1);
        assert_eq!(board.chips.map(|chip| chip.edition), [first, second]);
    }
}

#[test]
fn the_101_bytes() {
    let bytes = busy().bytes();
    assert_eq!((BOARD_LENGTH, bytes[0]), (101, 0));
    assert_eq!(bytes[1..51], busy().chips[0].full());
    assert_eq!(bytes[51..], busy().chips[1].full());
    assert_eq!(Board::from_bytes(&bytes), busy());
    for board in broken_boards() {
        assert_eq!(Board::from_bytes(&board.bytes()), board);
    }
}

/// "Five address bits: bit 4 picks the controller (0: first, lines 0 to 3)": all registers and
/// bytes; what the chip refuses, the board refuses, and nothing else changes.
#[test]
fn bit_4_picks_the_controller() {
    for board in [Board::fresh(), busy(), Board { last: 1, ..busy() }] {
        for register in 0..32 {
            let chip = (register >> 4) as usize;
            for byte in 0..=255 {
                let wanted = board.chips[chip].write(register & 15, byte);
                let wanted = wanted.map(|next| board.with_chip(chip, next));
                assert_eq!(board.write(register, byte), wanted, "{register} {byte}");
            }
            let wanted = board.chips[chip].read(register & 15);
            let wanted = wanted.map(|(next, byte)| (board.with_chip(chip, next), byte));
            assert_eq!(board.read(register), wanted, "{register}");
        }
    }
}

/// Each chip has its own edition: a write of E is taken by the Intel one only.
#[test]
fn editions_are_per_chip() {
    for (editions, register, taken) in [
        ([AM9517A, INTEL], 0x0E, false),
        ([AM9517A, INTEL], 0x1E, true),
        ([INTEL, AM9517A], 0x0E, true),
        ([INTEL, AM9517A], 0x1E, false),
    ] {
        let written = Board::fresh_of(editions).write(register, 0);
        assert_eq!(written.is_ok(), taken);
        assert_eq!(written == Err(Refusal::IllegalRegister), !taken);
    }
}

/// "a register number over 31 or pins over 255 is refusal 2".
#[test]
fn refusal_2() {
    for board in [busy(), open(busy(), 0), open(busy(), 1)] {
        for register in [32, 33, 47, 48, 63, 0x100, u32::MAX] {
            assert_eq!(board.write(register, 0), Err(Refusal::TooLarge));
            assert_eq!(board.read(register), Err(Refusal::TooLarge));
        }
        for pins in [256, 257, 0x1FF, 0x1_0000, u32::MAX] {
            assert_eq!(board.set_pins(pins), Err(Refusal::TooLarge));
        }
        for k in [4_097, 8_192, u32::MAX] {
            let refused = board.round(&mut [], &[], &mut [], k);
            assert_eq!(refused, Err(Refusal::TooLarge));
        }
    }
    assert!(busy().write(31, 0).is_ok());
}

/// All eight lines at once, the first's in bits 0-3, idle and in service.
#[test]
fn pins() {
    for board in [busy(), open(busy(), 0), open(busy(), 1)] {
        for pins in 0..=255u32 {
            let mut wanted = board;
            wanted.chips[0].pins = pins as u8 & 15;
            wanted.chips[1].pins = pins as u8 >> 4;
            assert_eq!(board.set_pins(pins), Ok(wanted));
        }
    }
}

/// "A pair with both in service is refusal 1", as is either chip or the arbiter out of its ranges:
/// before all other refusals, in every operation of the pair, for the registers of both chips.
#[test]
fn refusal_1_goes_before_all_others() {
    for board in broken_boards() {
        for register in [0, 8, 0xE, 0x10, 0x18, 0x1B, 0x1E, 32, u32::MAX] {
            assert_eq!(board.write(register, 0x0C), Err(Refusal::BrokenState));
            assert_eq!(board.read(register), Err(Refusal::BrokenState));
        }
        for pins in [0, 255, 256] {
            assert_eq!(board.set_pins(pins), Err(Refusal::BrokenState));
        }
        assert_eq!(board.reset(), Err(Refusal::BrokenState));
        assert_eq!(board.set_waits(0, 1), Err(Refusal::BrokenState));
        assert_eq!(board.set_waits(1, 1), Err(Refusal::BrokenState));
        assert_eq!(board.grant(), Err(Refusal::BrokenState));
        assert_eq!(board.run(&mut [], &[], &mut [], 1, 0), Err(Refusal::BrokenState));
        assert_eq!(board.run(&mut memory(), &[], &mut [], 1, 0), Err(Refusal::BrokenState));
        assert_eq!(board.round(&mut [], &[], &mut [], 5_000), Err(Refusal::BrokenState));
        assert_eq!(board.round(&mut memory(), &[], &mut [], 0), Err(Refusal::BrokenState));
    }
}

/// "a register access, grant or round during it is refusal 3 for either chip", before 4, 5 and 6;
/// the call for waits, too. Pins may change.
#[test]
fn refusal_3_is_for_either_chip() {
    for chip in 0..2 {
        let board = open(busy(), chip);
        for register in 0..32 {
            for byte in [0, 0x0C] {
                assert_eq!(board.write(register, byte), Err(Refusal::DuringService));
            }
            assert_eq!(board.read(register), Err(Refusal::DuringService));
        }
        for waits in [0, 1, 255] {
            assert_eq!(board.set_waits(0, waits), Err(Refusal::DuringService));
            assert_eq!(board.set_waits(1, waits), Err(Refusal::DuringService));
        }
        assert_eq!(board.grant(), Err(Refusal::DuringService));
        let quiet = open(Board::fresh(), chip);
        assert_eq!(quiet.grant(), Err(Refusal::DuringService));
        for k in [0, 1, 4_096] {
            let refused = board.round(&mut memory(), &[], &mut [], k);
            assert_eq!(refused, Err(Refusal::DuringService));
            let refused = board.round(&mut [0; 65_535], &[], &mut [], k);
            assert_eq!(refused, Err(Refusal::MemoryLength));
        }
        assert!(board.set_pins(0).is_ok());
    }
}

/// 4 and 5 are the chip's own, and come last.
#[test]
fn refusals_4_and_5() {
    for base in [0, 16] {
        for register in [9, 0xA, 0xB, 0xC, 0xE, 0xF] {
            let refused = Board::fresh().read(base + register);
            assert_eq!(refused, Err(Refusal::IllegalRegister));
        }
        assert_eq!(Board::fresh().write(base + 0xE, 0), Err(Refusal::IllegalRegister));
        assert_eq!(Board::fresh().write(base + 0xB, 0x4C), Err(Refusal::IllegalMode));
    }
}

/// "run 1, 7, 8": without an open service it is 8.
#[test]
fn refusals_7_and_8() {
    assert_eq!(busy().run(&mut memory(), &[], &mut [], 1, 0), Err(Refusal::NoService));
    for board in [busy(), open(busy(), 0), open(busy(), 1)] {
        for length in [0, 65_535, 65_537] {
            let mut memory = vec![0; length];
            assert_eq!(board.run(&mut memory, &[], &mut [], 1, 0), Err(Refusal::MemoryLength));
            let refused = board.round(&mut memory, &[], &mut [], 0);
            assert_eq!(refused, Err(Refusal::MemoryLength));
        }
    }
}

/// Board reset resets both chips and the arbiter, and ends any service.
#[test]
fn reset() {
    for last in 0..2 {
        for board in [busy(), open(busy(), 0), open(busy(), 1)] {
            let board = Board { last, ..board };
            let [first, second] = board.chips;
            let wanted =
                Board { last: 1, chips: [first.reset().unwrap(), second.reset().unwrap()] };
            assert_eq!(board.reset(), Ok(wanted));
            assert_eq!(wanted.chip_in_service(), None);
        }
    }
}

/// Master clear of one chip leaves the other and the arbiter.
#[test]
fn master_clear_is_the_chips_own() {
    for last in 0..2 {
        let board = Board { last, ..busy() };
        for (chip, register) in [(0, 0x0D), (1, 0x1D)] {
            let cleared = board.chips[chip].reset().unwrap();
            assert_eq!(board.write(register, 0), Ok(board.with_chip(chip, cleared)));
        }
    }
}

#[test]
fn waits_are_per_chip() {
    for chip in 0..2 {
        for waits in 0..=255 {
            let wanted = Controller { waits, ..busy().chips[chip] };
            assert_eq!(busy().set_waits(chip, waits), Ok(busy().with_chip(chip, wanted)));
        }
    }
}

/// "sheets stay one per chip": writing asks that chip alone, whatever the pair is.
#[test]
fn a_sheet_asks_its_chip_alone() {
    for board in [busy(), open(busy(), 0), open(busy(), 1)].into_iter().chain(broken_boards()) {
        for chip in 0..2 {
            for (form, length) in
                [(Form::One, 60), (Form::Two, 60), (Form::One, 55), (Form::Two, 57)]
            {
                let mut slice = vec![0xEE; length];
                let mut wanted = slice.clone();
                let answer = board.write_sheet(chip, form, &mut slice);
                assert_eq!(answer, board.chips[chip].write_sheet(form, &mut wanted));
                assert_eq!(slice, wanted);
            }
        }
    }
    let refused = |board: Board, chip, form, length| {
        board.write_sheet(chip, form, &mut vec![0; length]).map_err(Refusal::number)
    };
    let one_broken = busy().with_chip(0, Controller { lowest: 4, ..busy().chips[0] });
    assert_eq!(refused(one_broken, 0, Form::Two, 0), Err(1));
    assert_eq!(refused(one_broken, 1, Form::Two, 58), Ok(()));
    assert_eq!(refused(one_broken, 1, Form::One, 55), Err(9));
    assert_eq!(refused(one_broken, 1, Form::One, 56), Err(15));
    assert_eq!(refused(Board { last: 7, ..both_open() }, 0, Form::One, 56), Ok(()));
}

/// A sheet is read into one chip; the rest is left, and nothing of the pair is asked.
#[test]
fn a_sheet_read_looks_at_its_bytes_only() {
    let given = [busy_chip(AM9517A, 0), serving(busy_chip(AM9517A, 0), 3)];
    for board in [Board::fresh(), open(busy(), 0)].into_iter().chain(broken_boards()) {
        for (chip, given) in [(0, given[0]), (1, given[0]), (0, given[1]), (1, given[1])] {
            for form in [Form::One, Form::Two] {
                let sheet = form.sheet(&given.full());
                let wanted = board.with_chip(chip, given);
                assert_eq!(board.read_sheet(chip, form, &sheet), Ok(wanted));
                let mut wrong = sheet.clone();
                wrong[form.body_length() + 6] = 0;
                assert_eq!(board.read_sheet(chip, form, &wrong), Err(Refusal::EndMark));
                assert_eq!(board.read_sheet(chip, form, &sheet[1..]), Err(Refusal::ShortSlice));
            }
        }
    }
}

/// "a pair that then has both in service is refusal 1 in the next call"; an idle sheet mends it.
#[test]
fn a_loaded_pair_may_be_broken() {
    let sheet = Form::Two.sheet(&open(busy(), 1).chips[1].full());
    let pair = open(busy(), 0).read_sheet(1, Form::Two, &sheet).unwrap();
    assert_eq!(pair, both_open());
    assert_eq!(pair.reset(), Err(Refusal::BrokenState));
    let idle = Form::One.sheet(&busy().chips[0].full());
    assert_eq!(pair.read_sheet(0, Form::One, &idle), Ok(open(busy(), 1)));
    assert!(open(busy(), 1).reset().is_ok());
}

/// A sheet of one chip read into the other: it has no place in it that tells whose it was.
#[test]
fn a_sheet_goes_from_chip_to_chip() {
    let mut slice = [0; 58];
    busy().write_sheet(1, Form::Two, &mut slice).unwrap();
    let board = busy().read_sheet(0, Form::Two, &slice).unwrap();
    assert_eq!(board, Board { last: 0, chips: [busy().chips[1]; 2] });
}
