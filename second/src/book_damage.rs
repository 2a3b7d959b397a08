// Damaged books, and books that are sound at the edge: each number of each slot
// with values on both sides of its limit, slots with one number that is not 0, and
// clocks and dwells of all sizes. Each book is asked three times: while the carrier
// in question is on the floor, at its last tick, and when it is past.

use crate::batch::Case;
use crate::book::{Book, Slot, LATEST_CLOCK, LATEST_TICK, SLOTS};
use crate::book_make::{among, call, carrier, told_each, told_last};
use crate::dwelling::TOO_LONG_DWELLS;
use crate::halls::{grid, line};
use crate::job::{Hall, MOST_DWELL};
use crate::page;

pub const CLOCK: u32 = 100;
pub const DWELL: u32 = 3;

/// What is put into a slot that held a sound carrier.
pub const CHANGES: &[fn(&mut Slot)] = &[
    |slot| slot.start = 1023,
    |slot| slot.start = 1024,
    |slot| slot.start = 65_535,
    |slot| slot.goal = 1023,
    |slot| slot.goal = 1024,
    |slot| slot.goal = 65_535,
    |slot| slot.goal = slot.start,
    |slot| slot.distance = 0,
    |slot| slot.distance = 1,
    |slot| slot.distance = 1023,
    |slot| slot.distance = 1024,
    |slot| slot.distance = 65_535,
    |slot| slot.tick = LATEST_TICK,
    |slot| slot.tick = LATEST_TICK + 1,
    |slot| slot.tick = u32::MAX,
    // One number alone.
    |slot| *slot = Slot { start: slot.start, ..Slot::FREE },
    |slot| *slot = Slot { goal: slot.goal, ..Slot::FREE },
    |slot| *slot = Slot { distance: slot.distance, ..Slot::FREE },
    |slot| *slot = Slot { tick: slot.tick, ..Slot::FREE },
    |slot| *slot = Slot { tick: 1, ..Slot::FREE },
];

/// Carriers that are past at the clock, one of them in no hall of this size, and
/// carriers that come later.
pub fn others(hall: &Hall) -> Vec<Slot> {
    vec![
        carrier(hall, 0, 11, 5),
        carrier(hall, 3, 8, 5000),
        Slot { start: 900, goal: 7, distance: 77, tick: 3 },
        carrier(hall, 11, 4, 7000),
        carrier(hall, 2, 1, 6000),
    ]
}

/// Every change in every slot. The carrier that is changed has its last tick five
/// ticks after the clock.
fn every_slot() -> Vec<Case> {
    let hall = grid(12, 4);
    let others = others(&hall);
    let mut cases = Vec::new();
    for place in 0..SLOTS {
        for (number, change) in CHANGES.iter().enumerate() {
            let mut slot = carrier(&hall, 1, 6, CLOCK);
            change(&mut slot);
            let mut book = among(place + number, DWELL, place, slot, &others);
            book.clock = CLOCK;
            let last = slot.last_tick(DWELL).min(LATEST_CLOCK.into()) as u32;
            let (last, past) = (last.max(CLOCK), (last + 1).clamp(CLOCK, LATEST_CLOCK));
            let calls = vec![call(CLOCK, 4, 7), call(last, 4, 7), call(past, 4, 7)];
            cases.push(told_last(&hall, &book, calls));
        }
    }
    cases
}

/// A hall of 1,024 nodes with few lanes, and the highest node as an end of a
/// carrier in each slot: sound, and judged by the hall.
fn highest_node() -> Vec<Case> {
    let hall = page::hall(1024, &[0, 1, 0, 1023, 1022, 1023]);
    let mut cases = Vec::new();
    for place in 0..SLOTS {
        let ends = [(1023, 1), (1, 1023), (1022, 0), (0, 1023)];
        let (start, goal) = ends[place % ends.len()];
        let slot = carrier(&hall, start, goal, CLOCK);
        let mut book = among(place, DWELL, place, slot, &[carrier(&hall, 0, 1, 0)]);
        book.clock = CLOCK;
        cases.push(told_last(&hall, &book, vec![call(CLOCK, 0, 1), call(CLOCK, 1, 1023)]));
    }
    cases
}

/// The greatest distance with the longest dwell, and with ticks up to the latest.
fn greatest_distance() -> Vec<Case> {
    let hall = line(1024);
    let mut cases = Vec::new();
    for (place, tick) in [(0, 0), (5, 7), (63, LATEST_TICK - 1), (62, LATEST_TICK)] {
        for (start, goal) in [(0, 1023), (1023, 0)] {
            let slot = carrier(&hall, start, goal, tick);
            let mut book = among(0, MOST_DWELL, place, slot, &[slot]);
            book.clock = tick.min(LATEST_CLOCK);
            let now = book.clock;
            let calls = vec![call(now, 0, 1023), call(now, 1023, 0), call(now, 0, 1023)];
            cases.push(told_each(&hall, &book, calls));
        }
    }
    cases
}

/// The latest start tick that any book gives: 63 carriers go one way, so far from
/// each other that their stretches leave no tick free to one that comes against
/// them, and the clock has its last value. The slot that is left is each of some.
fn latest_start() -> Vec<Case> {
    let hall = line(1024);
    let now = LATEST_CLOCK;
    let mut cases = Vec::new();
    for place in [0, 31, 63] {
        let mut book = Book { clock: now, ..Book::empty(MOST_DWELL) };
        let reach = 1023 + MOST_DWELL;
        let mut tick = now + reach;
        for slot in (0..SLOTS).filter(|&slot| slot != place) {
            book.slots[slot] = Slot { start: 0, goal: 1023, distance: 1023, tick };
            tick += 2 * reach + 1;
        }
        let calls = vec![call(now, 1023, 0), call(now, 1023, 0)];
        cases.push(told_each(&hall, &book, calls));
    }
    cases
}

/// Clocks and dwells on both sides of their limits, in empty books and in books
/// that hold somebody.
fn clocks_and_dwells() -> Vec<Case> {
    let hall = grid(12, 4);
    let held = carrier(&hall, 1, 6, CLOCK);
    let mut cases = Vec::new();
    let mut try_book = |book: &Book| {
        let nows = [0, book.clock, LATEST_CLOCK, LATEST_CLOCK + 1, u32::MAX];
        let calls = nows.map(|now| call(now, 4, 7)).to_vec();
        cases.push(told_each(&hall, book, calls));
    };
    let mut dwells = TOO_LONG_DWELLS.to_vec();
    dwells.extend([0, 1, 254, MOST_DWELL, 300]);
    for turn in 0..2 {
        for clock in [0, 1, LATEST_CLOCK - 1, LATEST_CLOCK, LATEST_CLOCK + 1, u32::MAX] {
            try_book(&Book { clock, ..among(turn, DWELL, 9, held, &[held]) });
        }
        for &dwell in &dwells {
            try_book(&Book { clock: CLOCK, ..among(turn, dwell, 9, held, &[held]) });
            let mut empty = Book::empty(dwell);
            empty.clock = 7 * turn as u32;
            try_book(&empty);
        }
    }
    cases
}

pub fn damage_cases() -> Vec<Case> {
    let mut cases = every_slot();
    cases.extend(highest_node());
    cases.extend(greatest_distance());
    cases.extend(latest_start());
    cases.extend(clocks_and_dwells());
    cases
}
