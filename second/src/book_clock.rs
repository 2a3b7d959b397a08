// Clock values at their edges: now before the clock of the book, at it and after it,
// at the last value there is and behind that; and start ticks that are free between
// carriers which start later, up to the latest tick that a slot may have.

use crate::batch::Case;
use crate::book::{Book, Slot, LATEST_CLOCK, LATEST_TICK, SLOTS};
use crate::book_make::{call, carrier, clipped, told_each, told_last};
use crate::dice::Dice;
use crate::halls::{grid, line};

/// Every clock with every clock value near it, in an empty book and in one that
/// holds somebody.
fn nows() -> Vec<Case> {
    let hall = line(5);
    let clocks = [0, 1, 2, 1000, 65_535, 65_536, 1 << 31, LATEST_CLOCK - 1, LATEST_CLOCK];
    let mut cases = Vec::new();
    for clock in clocks {
        let before = i64::from(clock) - 1;
        for now in [
            clock,
            clipped(before),
            clock + 1,
            0,
            LATEST_CLOCK - 1,
            LATEST_CLOCK,
            LATEST_CLOCK + 1,
            u32::MAX,
        ] {
            let empty = Book { clock, ..Book::empty(1) };
            let mut held = empty.clone();
            held.slots[1] = carrier(&hall, 4, 0, clock);
            // The second call shows which clock the book has after the first.
            let calls = vec![call(now, 0, 4), call(clipped(i64::from(now) - 1), 0, 3)];
            cases.push(told_each(&hall, &empty, calls.clone()));
            cases.push(told_each(&hall, &held, calls));
        }
    }
    cases
}

/// Carriers on two nodes whose stretches touch each other from now on, but for one
/// place, where as many ticks are free as are left out there.
fn gap_behind(place: usize, left_out: u32, dwell: u32, order: usize) -> Book {
    let step = 2 * dwell + 3;
    let mut book = Book { clock: 10, ..Book::empty(dwell) };
    for number in 0..SLOTS - 1 {
        let tick = 10 + dwell + 1 + step * number as u32;
        let later = if number >= place { left_out } else { 0 };
        // In slots by rising tick, by falling tick, or from the middle on.
        let slot = [number, SLOTS - 1 - number, (number + 30) % SLOTS][order % 3];
        book.slots[slot] = Slot { start: 0, goal: 1, distance: 1, tick: tick + later };
    }
    book
}

/// One free tick behind each of 63 carriers, or two, or none.
fn gaps() -> Vec<Case> {
    let mut cases = Vec::new();
    for place in 0..SLOTS {
        for (number, dwell) in [0, 1, 255].into_iter().enumerate() {
            let book = gap_behind(place, place as u32 % 3, dwell, place + number);
            // Against them, and with them, which has other ticks free.
            let (start, goal) = [(1, 0), (0, 1)][usize::from(place % 5 == 4)];
            let calls = vec![call(10, start, goal), call(11, goal, start)];
            cases.push(told_last(&line(2), &book, calls));
        }
    }
    cases
}

/// A few carriers that start much later than now, at any tick up to the latest.
fn far_ticks(dice: &mut Dice) -> Vec<Case> {
    let hall = grid(16, 4);
    let far = [0, 1, 9, 30, 1000, 65_536, 1 << 31, LATEST_CLOCK, LATEST_TICK - 1, LATEST_TICK];
    let mut cases = Vec::new();
    for turn in 0..80 {
        let dwell = dice.pick(&[0, 1, 2, 20, 255]);
        let clock = dice.pick(&[0, 5, 990, 65_530, LATEST_CLOCK - 3, LATEST_CLOCK]);
        let mut book = Book { clock, ..Book::empty(dwell) };
        for _ in 0..dice.between(1, 1 + turn) {
            let (start, goal) = (dice.below(16) as u16, dice.below(16) as u16);
            if start != goal {
                let near = clock + dice.below(200) as u32;
                let far = dice.pick(&far);
                let tick = dice.pick(&[near, far]);
                book.slots[dice.below(SLOTS)] = carrier(&hall, start, goal, tick);
            }
        }
        let mut now = clock;
        let mut calls = Vec::new();
        for _ in 0..8 {
            let start = dice.below(16) as u16;
            calls.push(call(now, start, (start + dice.between(1, 15) as u16) % 16));
            now = (now + dice.pick(&[0, 0, 1, 30])).min(LATEST_CLOCK);
        }
        cases.push(told_each(&hall, &book, calls));
    }
    cases
}

pub fn clock_cases(dice: &mut Dice) -> Vec<Case> {
    let mut cases = nows();
    cases.extend(gaps());
    cases.extend(far_ticks(dice));
    cases
}
