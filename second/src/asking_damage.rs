// Damaged books that are asked, and books that are sound at the edge: each change of a
// slot, and clocks and dwells on both sides of their limits. Each book is asked while the
// carrier in question is on the floor, at its last tick and when it is past, and at ticks
// that would be refused by themselves.

use crate::asking_make::{at_ticks, told_each};
use crate::batch::Case;
use crate::book::{Book, LATEST_CLOCK};
use crate::book_damage::{others, CHANGES, CLOCK, DWELL};
use crate::book_make::{among, call, carrier};
use crate::dwelling::TOO_LONG_DWELLS;
use crate::halls::grid;
use crate::job::MOST_DWELL;

/// Every change in a low slot and in a high one.
fn changed_slots() -> Vec<Case> {
    let hall = grid(12, 4);
    let others = others(&hall);
    let mut cases = Vec::new();
    for (number, change) in CHANGES.iter().enumerate() {
        for place in [number % 7, 63 - number % 3] {
            let mut slot = carrier(&hall, 1, 6, CLOCK);
            change(&mut slot);
            let mut book = among(place + number, DWELL, place, slot, &others);
            book.clock = CLOCK;
            let last = slot.last_tick(DWELL).min(LATEST_CLOCK.into()) as u32;
            let (last, past) = (last.max(CLOCK), (last + 1).clamp(CLOCK, LATEST_CLOCK));
            let ticks = [CLOCK, last, past, CLOCK - 1, LATEST_CLOCK + 1];
            cases.push(told_each(&hall, &book, at_ticks(ticks, call(0, 4, 7).asked)));
        }
    }
    cases
}

fn clocks_and_dwells() -> Vec<Case> {
    let hall = grid(12, 4);
    let held = carrier(&hall, 1, 6, CLOCK);
    let mut cases = Vec::new();
    let mut try_book = |book: Book| {
        let ticks = [0, book.clock, CLOCK + 1, LATEST_CLOCK, LATEST_CLOCK + 1, u32::MAX];
        cases.push(told_each(&hall, &book, at_ticks(ticks, call(0, 4, 7).asked)));
    };
    for (turn, clock) in
        [0, LATEST_CLOCK - 1, LATEST_CLOCK, LATEST_CLOCK + 1, u32::MAX].into_iter().enumerate()
    {
        try_book(Book { clock, ..among(turn % 2, DWELL, 9, held, &[held]) });
    }
    for dwell in TOO_LONG_DWELLS.into_iter().chain([254, MOST_DWELL]) {
        try_book(Book { clock: CLOCK, ..among(0, dwell, 9, held, &[held]) });
        try_book(Book::empty(dwell));
    }
    cases
}

pub fn damage_cases() -> Vec<Case> {
    let mut cases = changed_slots();
    cases.extend(clocks_and_dwells());
    cases
}
