//! Document 02, A9: who gets the bus, the run of the open service, and rounds over both chips.

use crate::*;
use second::arbiter::BoardTally;
use second::board::Board;
use second::round::RoundStop;
use second::state::{Refusal, AM9517A, INTEL};

const ROTATES: u8 = 0x10;
const PAIR: u8 = 1;

/// A chip whose four channels are of this mode and count, its lines active and unmasked.
fn live(command: u8, mode: u8, count: u16, pins: u8) -> Controller {
    let mut now = Controller { command, mask: 0, pins, ..Controller::fresh() };
    for number in 0..4 {
        set_channel(&mut now, number, 0x1000 * (number as u16 + 1), count, mode);
    }
    now
}

/// Both chips rotating, single, count 9.
fn singles(last: u8, pins: [u8; 2]) -> Board {
    Board { last, chips: pins.map(|pins| live(ROTATES, SINGLE, 9, pins)) }
}

/// One grant and its whole run.
fn serve(now: Board) -> (Board, usize) {
    let (open, channel) = now.grant().unwrap();
    let (next, stop, _) = open.run(&mut memory(), &[], &mut [], 65_536, 0).unwrap();
    assert_eq!(stop, Stop::Ended);
    (next, channel)
}

fn grants(mut now: Board, times: usize) -> Vec<usize> {
    let mut order = Vec::new();
    for _ in 0..times {
        let (next, channel) = serve(now);
        order.push(channel);
        now = next;
    }
    order
}

/// "the first controller being first after reset"; then they take turns.
#[test]
fn all_eight_lines_held() {
    let board = singles(1, [15, 15]);
    assert_eq!(grants(board, 9), [0, 4, 1, 5, 2, 6, 3, 7, 0]);
    let turned = Board { last: 0, ..board };
    assert_eq!(grants(turned, 9), [4, 0, 5, 1, 6, 2, 7, 3, 4]);
}

/// The chips take turns whatever the order inside each of them is.
#[test]
fn fixed_order_takes_turns_too() {
    let fixed = live(0, SINGLE, 9, 15);
    let board = Board { last: 1, chips: [fixed; 2] };
    assert_eq!(grants(board, 5), [0, 4, 0, 4, 0]);
    let rotating = live(ROTATES, SINGLE, 9, 15);
    assert_eq!(grants(board.with_chip(1, rotating), 6), [0, 4, 0, 5, 0, 6]);
}

/// "When both want the bus, the one not granted last gets it"; one alone gets it, last or not.
#[test]
fn contested_or_not() {
    for last in 0..2 {
        for (pins, wanted) in [([15, 15], 1 - last), ([15, 0], 0), ([0, 15], 1)] {
            let (open, channel) = singles(last, pins).grant().unwrap();
            assert_eq!((channel / 4, open.last), (usize::from(wanted), wanted));
            assert_eq!(open.chip_in_service(), Some(channel / 4));
        }
        assert_eq!(singles(last, [0, 0]).grant(), Err(Refusal::NobodyEntitled));
    }
}

/// A grant is the chip's own, with the arbiter turned and the other chip left.
#[test]
fn a_grant_is_the_chips_own() {
    for last in 0..2 {
        for set in 1..=255u8 {
            let board = singles(last, [set & 15, set >> 4]);
            let (next, channel) = board.grant().unwrap();
            let chip = channel / 4;
            let (wanted, inside) = board.chips[chip].grant().unwrap();
            assert_eq!(channel % 4, inside);
            assert_eq!(next, Board { last: chip as u8, ..board.with_chip(chip, wanted) });
        }
    }
}

/// ""Granted last" turns at every grant, contested or not."
#[test]
fn an_uncontested_grant_turns() {
    for (alone, other) in [([15, 0], 4), ([0, 15], 0)] {
        for last in 0..2 {
            for times in 1..4 {
                let mut now = singles(last, alone);
                for _ in 0..times {
                    now = serve(now).0;
                }
                let (_, channel) = now.set_pins(255).unwrap().grant().unwrap();
                assert_eq!(channel, other);
            }
        }
    }
}

/// "Granted last" turns at the grant: a cut service that is reset or loaded over has had its turn.
#[test]
fn it_turns_at_the_grant() {
    let (open, _) = singles(1, [15, 15]).grant().unwrap();
    let (cut, stop, _) = open.run(&mut memory(), &[], &mut [], 0, 0).unwrap();
    assert_eq!((stop, cut), (Stop::Limit, open));
    let sheet = Form::One.sheet(&live(ROTATES, SINGLE, 9, 15).full());
    let loaded = cut.read_sheet(0, Form::One, &sheet).unwrap();
    assert_eq!(loaded.grant().unwrap().1, 4);
}

/// A chip wants the bus by entitled channels alone: not disabled, not by masked lines.
#[test]
fn wanting_the_bus() {
    let board = singles(0, [15, 15]);
    let second = board.chips[1];
    for quiet in [
        Controller { mask: 15, ..second },
        Controller { command: ROTATES | 4, ..second },
        Controller { pins: 0, ..second },
        Controller { pins: 0, request: 15, ..second },
    ] {
        assert_eq!(grants(board.with_chip(1, quiet), 3), [0, 1, 2]);
    }
    let mut asked = Controller { mask: 15, pins: 0, request: 2, ..second };
    asked.channels[1].mode = VERIFY_BLOCK;
    assert_eq!(grants(board.with_chip(1, asked), 3), [5, 0, 1]);
}

/// After board reset the first is first, whoever was granted last; a chip's master clear leaves the
/// arbiter.
#[test]
fn reset_and_master_clear() {
    for last in 0..2 {
        let board = singles(last, [15, 15]);
        let reset = board.reset().unwrap().write(15, 0).unwrap().write(31, 0).unwrap();
        assert_eq!(reset.grant().unwrap().1, 0);
        for register in [0x0D, 0x1D] {
            let cleared = board.write(register, 0).unwrap();
            assert_eq!(cleared.last, last);
            let open = cleared.write(15, 0).unwrap().write(31, 0).unwrap();
            assert_eq!(open.grant().unwrap().1 / 4, usize::from(1 - last));
        }
    }
}

/// The most services of others before this channel's, from each of the 32 places of both rotations
/// and the arbiter, if the other seven lines may change before each grant.
fn longest_wait(channel: usize) -> u32 {
    let mut longest = [0u32; 32];
    for _ in 0..10 {
        let before = longest;
        for (place, longest) in longest.iter_mut().enumerate() {
            for others in 0..=255u8 {
                let (next, granted) = step(place, others | 1 << channel);
                let wait = if granted == channel { 0 } else { 1 + before[next] };
                *longest = wait.max(*longest);
            }
        }
        if longest == before {
            return longest.into_iter().max().unwrap();
        }
    }
    panic!("no end");
}

/// One grant from this place with these lines: the next place, and the channel.
fn step(place: usize, lines: u8) -> (usize, usize) {
    let mut board = singles((place & 1) as u8, [lines & 15, lines >> 4]);
    board.chips[0].lowest = (place >> 1 & 3) as u8;
    board.chips[1].lowest = (place >> 3) as u8;
    let (next, granted) = board.grant().unwrap();
    let [first, second] = next.chips.map(|chip| usize::from(chip.lowest));
    (usize::from(next.last) | first << 1 | second << 3, granted)
}

/// "A channel entitled at every board grant, its own controller rotating at each, ... sees at most
/// seven other services first", and seven can be.
#[test]
fn at_most_seven_others() {
    for channel in 0..8 {
        assert_eq!(longest_wait(channel), 7);
    }
}

/// A run is the open service's, whichever chip the arbiter names; it leaves the rest.
#[test]
fn a_run_is_the_open_services() {
    for (last, chip) in [(0, 0), (1, 0), (0, 1), (1, 1)] {
        let chips = [live(0, WRITE_BLOCK, 3, 15), live(0, READ_BLOCK, 3, 15)];
        let board = Board { last, chips };
        let open = Controller { waits: 9, edition: INTEL, ..serving(chips[chip], 2) };
        let board = board.with_chip(chip, open);
        for (limit, eop) in [(99, 0), (2, 0), (99, 2), (0, 0)] {
            let (mut ours, mut theirs) = ([0; 9], [0; 9]);
            let got = board.run(&mut memory(), &[1, 2, 3, 4], &mut ours, limit, eop).unwrap();
            let wanted = open.run(&mut memory(), &[1, 2, 3, 4], &mut theirs, limit, eop).unwrap();
            let next = board.with_chip(chip, wanted.0);
            assert_eq!((got, ours), ((next, wanted.1, wanted.2), theirs));
        }
    }
}

/// "Memory is shared": what the first controller writes, the second reads.
#[test]
fn memory_is_shared() {
    let mut chips = [live(0, WRITE_BLOCK, 2, 1), live(0, READ_BLOCK, 2, 1)];
    chips[1].channels[0] = chips[0].channels[0];
    chips[1].channels[0].mode = READ_BLOCK;
    let board = Board { last: 1, chips };
    let (mut memory, mut room) = (memory(), [0; 5]);
    let (next, stop, got) = board.round(&mut memory, &[7, 8, 9], &mut room, 9).unwrap();
    assert_eq!((stop, got.services), (RoundStop::Quiet, [1, 0, 0, 0, 1, 0, 0, 0]));
    assert_eq!(got.total, tally(6, 3, 3, 20));
    assert_eq!((memory[0x1000..0x1003].to_vec(), room), (vec![7, 8, 9], [7, 8, 9, 0, 0]));
    assert_eq!((next.last, next.chip_in_service()), (1, None));
}

/// A round takes turns as grants do, and counts in eight numbers.
#[test]
fn a_round_of_eight_counts() {
    let board = singles(1, [15, 15]);
    for (k, services) in [
        (1, [1, 0, 0, 0, 0, 0, 0, 0]),
        (2, [1, 0, 0, 0, 1, 0, 0, 0]),
        (3, [1, 1, 0, 0, 1, 0, 0, 0]),
        (8, [1; 8]),
        (13, [2, 2, 2, 1, 2, 2, 1, 1]),
    ] {
        let (next, stop, got) = board.round(&mut memory(), &[], &mut [], k).unwrap();
        assert_eq!((stop, got.services), (RoundStop::Done, services));
        assert_eq!(got.total, tally(u64::from(k), 0, 0, 4 * u64::from(k)));
        assert_eq!(u32::from(next.last), (k + 1) % 2);
        let order = [0, 4, 1, 5, 2, 6, 3, 7];
        assert_eq!(next.grant().unwrap().1, order[k as usize % 8]);
    }
}

/// A memory in which no two neighbours are the same.
fn patterned() -> Vec<u8> {
    (0..65_536u32).map(|place| (place ^ place >> 8) as u8).collect()
}

/// A round is the same as its grants and runs one by one: state, memory, room and totals.
#[test]
fn a_round_is_grants_and_runs() {
    let write = live(ROTATES, SINGLE | 4 | AUTOINITIALIZE, 2, 13);
    let read = live(0, READ_BLOCK | AUTOINITIALIZE, 1, 6);
    let mut pair = Controller { waits: 3, ..live(PAIR, VERIFY_BLOCK | AUTOINITIALIZE, 2, 3) };
    pair.edition = INTEL;
    let input: Vec<u8> = (1..=60).collect();
    let pairs = [[write, read], [read, write], [write, pair], [pair, read], [pair, pair]];
    for chips in pairs.into_iter().chain([[read, read], [write, write]]) {
        for (last, k) in (0..2).flat_map(|last| (0..14).map(move |k| (last, k))) {
            let board = Board { last, chips };
            let (mut ours, mut theirs) = ((patterned(), [0; 60]), (patterned(), [0; 60]));
            let got = board.round(&mut ours.0, &input, &mut ours.1, k).unwrap();
            let wanted = one_by_one(board, &input, &mut theirs.0, &mut theirs.1, k);
            assert_eq!((got.0, got.1, got.2), (wanted.0, RoundStop::Done, wanted.1));
            assert!(ours == theirs);
        }
    }
}

fn one_by_one(
    board: Board,
    input: &[u8],
    memory: &mut [u8],
    room: &mut [u8],
    k: u32,
) -> (Board, BoardTally) {
    let (mut now, mut all) = (board, BoardTally::default());
    for _ in 0..k {
        let (open, channel) = now.grant().unwrap();
        let (left, place) = (&input[all.total.used..], &mut room[all.total.written..]);
        let (next, _, part) = open.run(memory, left, place, 65_536, 0).unwrap();
        all.services[channel] += 1;
        all.total.transfers += part.transfers;
        all.total.used += part.used;
        all.total.written += part.written;
        all.total.states += part.states;
        now = next;
    }
    (now, all)
}

/// "not "ended" (its reason)": the service of either chip stays open, and counts as begun.
#[test]
fn a_round_stopped_in_either_chip() {
    for (mode, reason) in
        [(SINGLE | 4, Stop::Short), (SINGLE | 8, Stop::Short), (CASCADE, Stop::Cascade)]
    {
        for chip in 0..2 {
            let board = singles(1, [15, 15]).with_chip(chip, live(0, mode, 9, 15));
            let (next, stop, got) = board.round(&mut memory(), &[], &mut [], 9).unwrap();
            assert_eq!(stop, RoundStop::Run(reason));
            assert_eq!(got.services, [1, 0, 0, 0, chip as u32, 0, 0, 0]);
            assert_eq!((next.chip_in_service(), usize::from(next.last)), (Some(chip), chip));
            let again = next.round(&mut memory(), &[], &mut [], 9);
            assert_eq!(again, Err(Refusal::DuringService));
        }
    }
}

/// Quiet is where neither chip has anybody left; k = 0 is done before that.
#[test]
fn done_and_quiet() {
    let none = Board::fresh();
    let round = |board: Board, k| board.round(&mut memory(), &[], &mut [], k).unwrap();
    assert_eq!(round(none, 0), (none, RoundStop::Done, BoardTally::default()));
    assert_eq!(round(none, 1), (none, RoundStop::Quiet, BoardTally::default()));
    assert_eq!(round(singles(0, [15, 15]), 0).1, RoundStop::Done);
    // Blocks mask themselves at TC: two of the first chip, one of the second.
    let board =
        Board { last: 1, chips: [live(0, VERIFY_BLOCK, 0, 5), live(0, VERIFY_BLOCK, 0, 8)] };
    let services = [1, 0, 1, 0, 0, 0, 0, 1];
    for (k, stop) in [(3, RoundStop::Done), (4, RoundStop::Quiet), (4_096, RoundStop::Quiet)] {
        let (next, got, counted) = round(board, k);
        assert_eq!((got, counted.services, next.last), (stop, services, 0));
    }
}

/// "1, 2, 7, 3", and k up to 4,096 for both chips together.
#[test]
fn rounds_of_4096_and_4097() {
    let held = live(ROTATES, SINGLE | AUTOINITIALIZE, 0, 15);
    let board = Board { last: 1, chips: [held; 2] };
    let (_, stop, got) = board.round(&mut memory(), &[], &mut [], 4_096).unwrap();
    assert_eq!((stop, got.services), (RoundStop::Done, [512; 8]));
    assert_eq!(got.total, tally(4_096, 0, 0, 16_384));
    let open = board.with_chip(1, serving(held, 0));
    for (length, k, number) in [(65_536, 4_097, 2), (9, 4_097, 2), (9, 4_096, 7), (65_536, 0, 3)] {
        let refused = open.round(&mut vec![0; length], &[], &mut [], k);
        assert_eq!(refused.map_err(Refusal::number), Err(number));
    }
}

/// Document 02, A3, "a long round now passes 32 bits", on the board too: 512 states a transfer, so
/// that 128 services of 65,536 transfers make 2^32.
#[test]
fn states_pass_32_bits() {
    let mut chip = live(PAIR, VERIFY_BLOCK | AUTOINITIALIZE, 0xFFFF, 1);
    chip.waits = 252;
    let board = Board { last: 1, chips: [chip; 2] };
    let (_, stop, got) = board.round(&mut memory(), &[], &mut [], 129).unwrap();
    assert_eq!((stop, got.services), (RoundStop::Done, [65, 0, 0, 0, 64, 0, 0, 0]));
    assert_eq!(got.total, tally(129 << 16, 0, 0, 129 << 25));
}

/// Memory-to-memory on the second chip, with its own waits; EOP in its own edition.
#[test]
fn memory_to_memory_on_the_second_chip() {
    for (edition, tc) in [(AM9517A, 0), (INTEL, 2)] {
        let mut chip = live(PAIR, VERIFY_BLOCK, 5, 0);
        (chip.edition, chip.waits, chip.request) = (edition, 2, 1);
        let board = Board { last: 1, chips: [Controller::fresh(), chip] };
        let (open, channel) = board.grant().unwrap();
        assert_eq!(channel, 4);
        let mut memory = memory();
        memory[0x1000..0x1003].copy_from_slice(&[4, 5, 6]);
        let (next, stop, got) = open.run(&mut memory, &[], &mut [], 99, 3).unwrap();
        assert_eq!((stop, got), (Stop::Ended, tally(3, 0, 0, 3 * (8 + 4))));
        assert_eq!(memory[0x2000..0x2004], [4, 5, 6, 0]);
        assert_eq!((next.chips[1].tc, next.chips[0]), (tc, Controller::fresh()));
    }
}
