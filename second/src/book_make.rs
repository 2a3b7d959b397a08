// What the cases of the floor book are made of: calls, slots with true distances,
// books whose other slots are free, past or taken, and days that are led from call
// to call. A day makes its calls while it is made, so that the next clock value
// can be put just where a carrier leaves the floor.

use crate::batch::Case;
use crate::book::{Admissions, Book, Call, Slot, LATEST_CLOCK, SLOTS};
use crate::dice::Dice;
use crate::job::{Hall, Move, Refusal};
use crate::ledger::{Admitted, Ledger};
use crate::network::Network;

pub fn call(now: u32, start: u16, goal: u16) -> Call {
    Call { now, asked: Move { start, goal } }
}

/// A case whose book is told after every call.
pub fn told_each(hall: &Hall, book: &Book, calls: Vec<Call>) -> Case {
    let asked = Admissions { hall: hall.clone(), book: book.clone(), calls };
    Case::Admit { each: 1, again: 0, asked: Box::new(asked) }
}

/// A case whose book is told after the last call.
pub fn told_last(hall: &Hall, book: &Book, calls: Vec<Call>) -> Case {
    let asked = Admissions { hall: hall.clone(), book: book.clone(), calls };
    Case::Admit { each: 0, again: 0, asked: Box::new(asked) }
}

/// A carrier in a sound hall with its true distance.
pub fn carrier(hall: &Hall, start: u16, goal: u16, tick: u32) -> Slot {
    let row = Network::of(hall).distances_from(start.into());
    let distance = row[usize::from(goal)].expect("a carrier has a walk") as u16;
    Slot { start, goal, distance, tick }
}

/// Every move between two nodes that a walk joins.
pub fn all_moves(hall: &Hall) -> Vec<Move> {
    let network = Network::of(hall);
    let mut moves = Vec::new();
    for start in 0..network.nodes() {
        for (goal, distance) in network.distances_from(start).into_iter().enumerate() {
            if start != goal && distance.is_some() {
                moves.push(Move { start: start as u16, goal: goal as u16 });
            }
        }
    }
    moves
}

/// A book with this carrier in one slot. What the other slots hold goes by turns:
/// nothing, one carrier of the row after the other, or some of each.
pub fn among(turn: usize, dwell: u32, place: usize, slot: Slot, others: &[Slot]) -> Book {
    let mut book = Book::empty(dwell);
    for (number, other) in book.slots.iter_mut().enumerate() {
        let taken = match turn % 4 {
            0 => false,
            1 => true,
            2 => number % 3 > 0,
            _ => number % 2 == 0,
        };
        if taken {
            *other = others[(number + turn) % others.len()];
        }
    }
    book.slots[place] = slot;
    book
}

/// A clock value that may lie before the beginning or behind the end.
pub fn clipped(now: i64) -> u32 {
    now.clamp(0, u32::MAX.into()) as u32
}

/// How the clock goes from call to call.
#[derive(Clone, Copy)]
pub enum Pace {
    Still,
    Creeping,
    /// Up to so many ticks at once.
    Striding(usize),
    /// To the last tick of some carrier, or one tick past it.
    Leaving,
    /// Each of the others by turns, and at times back.
    Mixed,
}

/// A clock value that follows that of the book.
pub fn next_now(book: &Book, dice: &mut Dice, pace: Pace) -> u32 {
    let clock = i64::from(book.clock);
    let now = match pace {
        Pace::Still => clock,
        Pace::Creeping => clock + dice.below(3) as i64,
        Pace::Striding(most) => clock + dice.below(most + 1) as i64,
        Pace::Leaving => match book.slots[dice.below(SLOTS)] {
            slot if slot.is_free() => clock,
            slot => clock.max(slot.last_tick(book.dwell) as i64 + dice.below(2) as i64),
        },
        Pace::Mixed => match dice.below(12) {
            0 => clock - dice.between(1, 3) as i64,
            1..=3 => return next_now(book, dice, Pace::Still),
            4..=6 => return next_now(book, dice, Pace::Creeping),
            7..=9 => return next_now(book, dice, Pace::Leaving),
            _ => return next_now(book, dice, Pace::Striding(40)),
        },
    };
    clipped(now.min(i64::from(LATEST_CLOCK) + 1))
}

/// The lowest last tick in a book, if it holds anybody.
pub fn first_to_leave(book: &Book) -> Option<u32> {
    let held = book.slots.iter().filter(|slot| !slot.is_free());
    held.map(|slot| clipped(slot.last_tick(book.dwell) as i64)).min()
}

pub struct Day<'a> {
    hall: &'a Hall,
    lent: Book,
    ledger: Ledger<'a>,
    calls: Vec<Call>,
}

impl<'a> Day<'a> {
    pub fn new(hall: &'a Hall, lent: Book) -> Day<'a> {
        let ledger = Ledger::of(hall, &lent);
        Day { hall, lent, ledger, calls: Vec::new() }
    }

    pub fn book(&self) -> Book {
        self.ledger.told()
    }

    pub fn call(&mut self, now: u32, asked: Move) -> Result<Admitted, Refusal> {
        let call = Call { now, asked };
        self.calls.push(call);
        self.ledger.admit(call)
    }

    /// The clock value of the next call.
    pub fn next(&self, dice: &mut Dice, pace: Pace) -> u32 {
        next_now(&self.book(), dice, pace)
    }

    pub fn first_to_leave(&self) -> Option<u32> {
        first_to_leave(&self.book())
    }

    pub fn told_each(self) -> Case {
        told_each(self.hall, &self.lent, self.calls)
    }

    pub fn told_last(self) -> Case {
        told_last(self.hall, &self.lent, self.calls)
    }
}
