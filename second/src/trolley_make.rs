// What the cases of trolleys are made of: arrivals, and days that are led from
// arrival to arrival. As in book_make.rs a day makes its arrivals while it is made.

use crate::batch::Case;
use crate::book::Book;
use crate::book_make::{first_to_leave, next_now, Pace};
use crate::dice::Dice;
use crate::job::{Hall, Move};
use crate::ledger::Ledger;
use crate::trolley::{Arrival, Arrivals, Outcome, ONE_BY_ONE};

/// The least length of an answer list.
pub const ENOUGH: u16 = 64;

pub fn step(start: u16, goal: u16) -> Move {
    Move { start, goal }
}

pub fn numbers_of(moves: &[Move]) -> Vec<u16> {
    moves.iter().flat_map(|asked| [asked.start, asked.goal]).collect()
}

/// A trolley whose answer list has its least length.
pub fn trolley(now: u32, moves: &[Move]) -> Arrival {
    with_room(ENOUGH, now, moves)
}

pub fn with_room(room: u16, now: u32, moves: &[Move]) -> Arrival {
    Arrival { now, room, numbers: numbers_of(moves) }
}

pub fn one_by_one(now: u32, moves: &[Move]) -> Arrival {
    with_room(ONE_BY_ONE, now, moves)
}

/// The same moves and a number behind them, which is in none.
pub fn odd(mut arrival: Arrival, number: u16) -> Arrival {
    arrival.numbers.push(number);
    arrival
}

fn case_of(each: u16, hall: &Hall, book: &Book, arrivals: Vec<Arrival>) -> Case {
    let asked = Arrivals { hall: hall.clone(), book: book.clone(), arrivals };
    Case::AdmitAll { each, again: 0, asked: Box::new(asked) }
}

/// A case whose book is told after every arrival.
pub fn told_each(hall: &Hall, book: &Book, arrivals: Vec<Arrival>) -> Case {
    case_of(1, hall, book, arrivals)
}

/// A case whose book is told after the last arrival.
pub fn told_last(hall: &Hall, book: &Book, arrivals: Vec<Arrival>) -> Case {
    case_of(0, hall, book, arrivals)
}

pub struct Shift<'a> {
    hall: &'a Hall,
    lent: Book,
    ledger: Ledger<'a>,
    arrivals: Vec<Arrival>,
}

impl<'a> Shift<'a> {
    pub fn new(hall: &'a Hall, lent: Book) -> Shift<'a> {
        let ledger = Ledger::of(hall, &lent);
        Shift { hall, lent, ledger, arrivals: Vec::new() }
    }

    pub fn come(&mut self, arrival: Arrival) -> Outcome {
        let outcome = arrival.come(&mut self.ledger);
        self.arrivals.push(arrival);
        outcome
    }

    /// The clock value of the next arrival.
    pub fn next(&self, dice: &mut Dice, pace: Pace) -> u32 {
        next_now(&self.ledger.told(), dice, pace)
    }

    pub fn first_to_leave(&self) -> Option<u32> {
        first_to_leave(&self.ledger.told())
    }

    pub fn told_each(self) -> Case {
        told_each(self.hall, &self.lent, self.arrivals)
    }

    pub fn told_last(self) -> Case {
        told_last(self.hall, &self.lent, self.arrivals)
    }
}
