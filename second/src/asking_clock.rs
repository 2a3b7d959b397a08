// Ticks at both ends of the clock: one before that of the book, at it and after it, and
// the last that there is and those behind it, in empty books and in books whose carriers
// start and leave near there. No tick is refused for the carriers of a full book.

use crate::asking_ends::DWELLS;
use crate::asking_make::{at_ticks, told_each, told_last};
use crate::batch::Case;
use crate::book::{Book, Slot, LATEST_CLOCK, LATEST_TICK, SLOTS};
use crate::book_make::{carrier, clipped};
use crate::halls::line;
use crate::job::Move;

const CLOCKS: [u32; 8] =
    [0, 1, 1000, 65_536, 1 << 31, LATEST_CLOCK - 260, LATEST_CLOCK - 1, LATEST_CLOCK];
const MOVES: [Move; 3] =
    [Move { start: 4, goal: 0 }, Move { start: 0, goal: 4 }, Move { start: 2, goal: 3 }];

/// Around the clock and around the last tick that may be asked about.
fn both_ends(clock: u32) -> Vec<u32> {
    let before = clipped(i64::from(clock) - 1);
    let end = LATEST_CLOCK;
    vec![clock, before, clock + 1, 0, end - 1, end, end + 1, LATEST_TICK, u32::MAX]
}

/// Nobody, one who leaves at the clock with one who starts at it, and some who start
/// and leave at the end, up to the latest tick that a slot may have.
fn books(clock: u32, dwell: u32) -> Vec<Book> {
    let hall = line(5);
    let empty = Book { clock, ..Book::empty(dwell) };
    let put = |carriers: &[(usize, u16, u16, u32)]| {
        let mut book = empty.clone();
        for &(place, start, goal, tick) in carriers {
            book.slots[place] = carrier(&hall, start, goal, tick);
        }
        book
    };
    let leaving = |last: u32| last.saturating_sub(4 + dwell);
    let end = LATEST_CLOCK;
    vec![
        empty.clone(),
        put(&[(9, 0, 4, leaving(clock)), (3, 4, 0, clock)]),
        put(&[(63, 0, 4, leaving(end)), (0, 4, 0, leaving(end - 1)), (30, 0, 4, LATEST_TICK)]),
        put(&[(8, 0, 4, end - 1), (7, 0, 4, end + 1 + dwell), (6, 4, 0, end + 5)]),
    ]
}

fn ends_of_the_clock() -> Vec<Case> {
    let hall = line(5);
    let mut cases = Vec::new();
    for (number, clock) in CLOCKS.into_iter().enumerate() {
        let dwells = [DWELLS[number % 4], DWELLS[(number + 1) % 4]];
        for book in dwells.into_iter().flat_map(|dwell| books(clock, dwell)) {
            let asked = |asked: Move| at_ticks(both_ends(clock), asked);
            cases.push(told_each(
                &hall,
                &book,
                MOVES[..2].iter().copied().flat_map(asked).collect(),
            ));
        }
    }
    cases
}

/// Full books whose carriers are all on the floor until the first of them leaves, which
/// is some time after the clock, asked at every tick up to there and a little longer:
/// they start at one tick, a few ticks apart, or so far apart that ticks between them
/// are free.
fn full_books() -> Vec<Case> {
    let hall = line(5);
    let mut cases = Vec::new();
    for dwell in DWELLS {
        for clock in [0, LATEST_CLOCK - 90] {
            for step in [0, 5, 11 + 2 * dwell] {
                let mut book = Book { clock, ..Book::empty(dwell) };
                for (number, slot) in book.slots.iter_mut().enumerate() {
                    let Move { start, goal } = MOVES[number % 2];
                    let tick = clock + 80 + step * ((29 * number) % SLOTS) as u32;
                    *slot = Slot { start, goal, distance: 4, tick };
                }
                let ticks = clock..=clock + 80 + 4 + dwell.min(20) + 2;
                let asked = MOVES[cases.len() % 3];
                cases.push(told_last(&hall, &book, at_ticks(ticks, asked)));
            }
        }
    }
    cases
}

pub fn clock_cases() -> Vec<Case> {
    let mut cases = ends_of_the_clock();
    cases.extend(full_books());
    cases
}
