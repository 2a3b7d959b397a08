// Halls that have changed under a book: a carrier that no longer fits is met up to its
// last tick, and one tick later it forbids nothing and is not judged, whatever its
// distance is now. In every slot, several at once, and in books of true days.

use crate::asking_make::{at_ticks, told_each, told_last};
use crate::batch::Case;
use crate::book::{Book, Call, Slot, SLOTS};
use crate::book_make::{among, call};
use crate::book_stale::{hall, misfits, others, CLOCK};
use crate::dice::Dice;
use crate::job::Move;

/// Around the last tick of a carrier, not before the clock.
fn around_last(held: &Slot, dwell: u32) -> Vec<u32> {
    let last = held.last_tick(dwell) as u32;
    [CLOCK, last - 1, last, last + 1, last + 2, last + 3].map(|tick| tick.max(CLOCK)).to_vec()
}

/// A move through the hall, and one from either end of the carrier, which is no move
/// where that end is no open node. Its true distance may be longer than the one in the
/// slot, so that the rule would forbid ticks behind its last one.
fn moves_at(held: &Slot) -> [Move; 3] {
    [(8, 2), (held.goal, 8), (held.start, 2)].map(|(start, goal)| Move { start, goal })
}

fn questions_at(held: &Slot, dwell: u32) -> Vec<Call> {
    moves_at(held).into_iter().flat_map(|asked| at_ticks(around_last(held, dwell), asked)).collect()
}

/// A misfit in every slot, each of them five times or more.
fn every_slot() -> Vec<Case> {
    let (hall, others, misfits) = (hall(), others(), misfits());
    let mut cases = Vec::new();
    for place in 0..SLOTS {
        let misfit = misfits[place % misfits.len()];
        let dwell = [0, 1, 5, 30, 255][place / 4 % 5];
        let mut book = among(place / 5, dwell, place, misfit, &others);
        book.clock = CLOCK;
        cases.push(told_last(&hall, &book, questions_at(&misfit, dwell)));
    }
    cases
}

/// Several from any slot on; the tick goes on until all of them are past.
fn several(dice: &mut Dice) -> Vec<Case> {
    let (hall, others) = (hall(), others());
    let mut cases = Vec::new();
    for turn in 0..24 {
        let dwell = dice.pick(&[0, 2, 10]);
        let mut book = among(turn, dwell, 11, dice.pick(&misfits()), &others);
        book.clock = CLOCK;
        for slot in book.slots.iter_mut() {
            if dice.once_in(6) {
                *slot = Slot { tick: CLOCK + dice.below(9) as u32, ..dice.pick(&misfits()) };
            }
        }
        let ticks = (CLOCK..CLOCK + dwell + 16).chain((1020..1050).map(|by| CLOCK + dwell + by));
        cases.push(told_last(&hall, &book, at_ticks(ticks, call(0, 8, 2).asked)));
    }
    cases
}

/// One by itself whose true distance is another, told each time.
fn alone() -> Vec<Case> {
    let hall = hall();
    let mut cases = Vec::new();
    for misfit in misfits() {
        let mut book = Book { clock: CLOCK, ..Book::empty(1) };
        book.slots[6] = misfit;
        cases.push(told_each(&hall, &book, questions_at(&misfit, 1)));
    }
    cases
}

pub fn stale_cases(dice: &mut Dice) -> Vec<Case> {
    let mut cases = every_slot();
    cases.extend(several(dice));
    cases.extend(alone());
    cases
}
