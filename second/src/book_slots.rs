// Which slot a carrier takes, and the 65th carrier: books with holes at every
// place, free ones and such whose carriers are past, and full books, in which the
// tick at which somebody is let in is that after the lowest last tick.

use crate::batch::Case;
use crate::book::{Book, Slot, SLOTS};
use crate::book_make::{call, carrier, told_each, told_last, Day};
use crate::dice::Dice;
use crate::halls::{grid, line};
use crate::job::{Hall, Move};

const DWELLS: [u32; 9] = [0, 1, 2, 3, 7, 50, 128, 254, 255];
const CLOCK: u32 = 2000;

/// A book in which every slot is taken, and all leave at different ticks, the
/// first of them at this place.
fn full_book(dice: &mut Dice, hall: &Hall, dwell: u32, first: usize) -> Book {
    let mut book = Book { clock: CLOCK, ..Book::empty(dwell) };
    let mut turns: Vec<u32> = (1..SLOTS as u32).collect();
    dice.shuffle(&mut turns);
    turns.insert(first, 0);
    for (slot, turn) in book.slots.iter_mut().zip(turns) {
        let start = dice.below(4) as u16;
        *slot = carrier(hall, start, 4, CLOCK + 20);
        slot.tick += 3 * turn + u32::from(start);
    }
    book
}

/// A full book whose first to leave is in each slot: refused until its last tick,
/// let in one tick later, and then the next one.
fn each_slot_leaves(dice: &mut Dice) -> Vec<Case> {
    let hall = line(5);
    let mut cases = Vec::new();
    for place in 0..SLOTS {
        let dwell = DWELLS[place % DWELLS.len()];
        let book = full_book(dice, &hall, dwell, place);
        let last = book.slots[place].last_tick(dwell) as u32;
        let nows = [CLOCK, last - 1, last, last + 1, last + 1, last + 3, last + 4, last + 7];
        let calls = nows.map(|now| call(now, dice.below(4) as u16, 4)).to_vec();
        cases.push(told_each(&hall, &book, calls));
    }
    cases
}

/// Trains and carriers against each other until the book is full, with each
/// dwell; then the clock goes to each last tick and to the tick after it.
fn filled_by_days(dice: &mut Dice) -> Vec<Case> {
    let mut cases = Vec::new();
    for dwell in DWELLS {
        for (hall, ends) in [
            (line(5), [(0, 4), (0, 4)]),
            (line(5), [(0, 4), (4, 0)]),
            (grid(16, 4), [(0, 15), (12, 3)]),
        ] {
            let ends = ends.map(|(start, goal)| Move { start, goal });
            let mut day = Day::new(&hall, Book::empty(dwell));
            for number in 0..SLOTS + 2 {
                let _ = day.call(0, ends[number % 2]);
            }
            for _ in 0..6 {
                let first = day.first_to_leave().unwrap_or(0);
                for now in [first.saturating_sub(1), first, first + 1, first + 1] {
                    let _ = day.call(now, dice.pick(&ends));
                }
            }
            cases.push(day.told_last());
        }
    }
    cases
}

/// A book with all slots taken but these.
fn with_holes(hall: &Hall, holes: &[usize], hole: Slot) -> Book {
    let held = carrier(hall, 0, 4, CLOCK + 500);
    let mut book = Book { clock: CLOCK, dwell: 2, slots: [held; SLOTS] };
    holes.iter().for_each(|&place| book.slots[place] = hole);
    book
}

/// One hole at each place, and from there on several, free and past by turns:
/// the lowest is taken first, and when all are taken there is none.
fn holes(dice: &mut Dice) -> Vec<Case> {
    let hall = line(5);
    // Past by one tick, and a last tick that is now.
    let past = Slot { tick: CLOCK - 7, ..carrier(&hall, 0, 4, 0) };
    let leaving = Slot { tick: CLOCK - 6, ..past };
    let mut cases = Vec::new();
    for place in 0..SLOTS {
        let several: Vec<usize> =
            (place..SLOTS).filter(|&other| other == place || dice.once_in(12)).collect();
        for hole in [Slot::FREE, past, leaving] {
            for holes in [&several[..1], &several[..]] {
                let book = with_holes(&hall, holes, hole);
                let calls: Vec<_> = (0..holes.len() as u32 + 1)
                    .map(|number| call(CLOCK + number / 2, 4, 0))
                    .take(6)
                    .collect();
                cases.push(told_last(&hall, &book, calls));
            }
        }
    }
    cases
}

/// All leave at once: at their last tick nobody gets in, one tick later the whole
/// book is free.
fn all_at_once() -> Vec<Case> {
    let hall = line(5);
    let mut cases = Vec::new();
    for dwell in DWELLS {
        let held = carrier(&hall, 0, 4, CLOCK);
        let book = Book { clock: CLOCK, dwell, slots: [held; SLOTS] };
        let last = held.last_tick(dwell) as u32;
        let calls = [CLOCK, last, last + 1, last + 1, last + 2].map(|now| call(now, 4, 0));
        cases.push(told_each(&hall, &book, calls.to_vec()));
    }
    cases
}

pub fn slot_cases(dice: &mut Dice) -> Vec<Case> {
    let mut cases = each_slot_leaves(dice);
    cases.extend(filled_by_days(dice));
    cases.extend(holes(dice));
    cases.extend(all_at_once());
    cases
}
