//! "A grant takes the first entitled channel: fixed order 0, 1, 2, 3, or, rotating, from the one
//! after the lowest, going round." Document 02, A6 keeps every answer, so the rules are asked here
//! at each lowest channel with each entitled set.

use crate::*;
use second::round::{RoundStop, RoundTally};
use second::state::{Refusal, AM9517A, INTEL};

const FIXED: [u8; 4] = [0, 1, 2, 3];
/// "from the one after the lowest, going round", for lowest 0, 1, 2 and 3.
const ROTATING: [[u8; 4]; 4] = [[1, 2, 3, 0], [2, 3, 0, 1], [3, 0, 1, 2], [0, 1, 2, 3]];

const DISABLED: u8 = 4;
const ROTATES: u8 = 0x10;
const ACTIVE_LOW: u8 = 0x40;

/// The first channel of this order that is in the set (channel N is bit N).
fn first_of(order: [u8; 4], set: u8) -> Option<u8> {
    order.into_iter().find(|&channel| set & 1 << channel != 0)
}

fn four_channels(edition: u8, mode: u8) -> Controller {
    let mut now = Controller::fresh_of(edition);
    for number in 0..4 {
        set_channel(&mut now, number, 0x1000 * (number as u16 + 1), 9, mode);
    }
    now
}

/// States in which exactly this set is entitled, each in another way: by lines alone, by masks
/// alone, by active-low lines, by requests that can't be masked, by lines and requests together,
/// and by lines where request bits don't count.
fn ways(edition: u8, set: u8) -> [Controller; 6] {
    let others = 15 & !set;
    let single = four_channels(edition, SINGLE);
    let block = four_channels(edition, VERIFY_BLOCK);
    [
        Controller { pins: set, mask: 0, ..single },
        Controller { pins: 15, mask: others, ..single },
        Controller { command: ACTIVE_LOW, pins: others, mask: 0, ..single },
        Controller { request: set, mask: 15, ..block },
        Controller { request: set & 5, pins: set | 5, mask: others | 5, ..block },
        Controller { request: 15, pins: set, mask: 0, ..single },
    ]
}

/// Each way to have this set entitled, at this lowest channel, in both editions.
fn all_ways(command: u8, lowest: u8, set: u8) -> Vec<Controller> {
    let all = [ways(AM9517A, set), ways(INTEL, set)].concat();
    all.into_iter()
        .map(|now| Controller { command: now.command | command, lowest, ..now })
        .collect()
}

/// What a grant of this channel has to leave.
fn granted(now: Controller, channel: u8) -> Controller {
    let rotating = now.command & ROTATES != 0;
    let lowest = if rotating { channel } else { now.lowest };
    Controller { lowest, in_service: 1, serving: channel, ..now }
}

fn check_grant(now: Controller, wanted: Option<u8>) {
    let right = match wanted {
        Some(channel) => Ok((granted(now, channel), usize::from(channel))),
        None => Err(Refusal::NobodyEntitled),
    };
    assert_eq!(now.grant(), right);
}

/// "grant then run", once; where nobody is entitled it is "quiet" and nothing changes.
fn check_round_of_one(now: Controller, wanted: Option<u8>) {
    let mut right = (now, RoundStop::Quiet, RoundTally::default());
    if let Some(channel) = wanted {
        let (next, stop, total) = plain_run(granted(now, channel), 65_536, 0);
        assert_eq!(stop, Stop::Ended);
        let mut services = [0; 4];
        services[usize::from(channel)] = 1;
        right = (next, RoundStop::Done, RoundTally { services, total });
    }
    assert_eq!(now.round(&mut memory(), &[], &mut [], 1), Ok(right));
}

/// Every lowest channel with every set: this check, with the channel that `order` has first.
fn at_all_64(command: u8, order: impl Fn(u8) -> [u8; 4], check: fn(Controller, Option<u8>)) {
    for lowest in 0..4 {
        for set in 0..16 {
            let wanted = first_of(order(lowest), set);
            all_ways(command, lowest, set).into_iter().for_each(|now| check(now, wanted));
        }
    }
}

fn after(lowest: u8) -> [u8; 4] {
    ROTATING[usize::from(lowest)]
}

#[test]
fn a_rotating_grant_at_all_64_pairs() {
    at_all_64(ROTATES, after, check_grant);
}

#[test]
fn a_rotating_round_of_one_at_all_64_pairs() {
    at_all_64(ROTATES, after, check_round_of_one);
}

#[test]
fn a_fixed_grant_of_all_16_sets_at_each_lowest() {
    at_all_64(0, |_| FIXED, check_grant);
}

#[test]
fn a_fixed_round_of_one_of_all_16_sets_at_each_lowest() {
    at_all_64(0, |_| FIXED, check_round_of_one);
}

/// "It is entitled when command bit 2 is 0": with it set, none of the 64 pairs has anybody.
#[test]
fn a_disabled_chip_picks_nobody() {
    for command in [DISABLED, DISABLED | ROTATES] {
        for (lowest, set) in (0..64).map(|pair| (pair >> 4, pair & 15)) {
            for now in all_ways(command, lowest, set) {
                check_grant(now, None);
                check_round_of_one(now, None);
            }
        }
    }
}

/// A round of four singles goes on in the order, from each lowest channel.
#[test]
fn a_round_goes_on_in_the_order() {
    for lowest in 0..4 {
        for k in 1..=4 {
            let now = Controller { pins: 15, mask: 0, lowest, ..four_channels(AM9517A, SINGLE) };
            let now = Controller { command: ROTATES, ..now };
            let mut services = [0; 4];
            after(lowest)[..k].iter().for_each(|&channel| services[usize::from(channel)] = 1);
            let (next, stop, got) = now.round(&mut memory(), &[], &mut [], k as u32).unwrap();
            assert_eq!((stop, got.services), (RoundStop::Done, services));
            assert_eq!(next.lowest, after(lowest)[k - 1]);
        }
    }
}
