// A trolley (rules 8.32, 9.15 and 13.14 to 13.17): moves that come at one clock
// value and are admitted one after the other, by the book's own admissions, up to
// the first that is refused. What is added here is an answer list of ticks, refusal
// 9 for one that is too short, and refusal 2 for too many moves. An arrival of a
// case is a trolley, or the same moves admitted one by one, which no refusal ends.

use crate::book::{Book, Call};
use crate::job::{refuse, Hall, Move, Refusal, MOST_CARRIERS};
use crate::ledger::{Admitted, Ledger};
use crate::lent::{filled, untouched, LEAST_TIMES, TIME_PLACES};

/// In place of a number of lent places: the moves are admitted one by one.
pub const ONE_BY_ONE: u16 = 65_535;

/// A clock value, how many places of the answer list are lent, and the moves as
/// numbers, a start and a goal by turns.
#[derive(Clone, Debug, PartialEq, Eq)]
pub struct Arrival {
    pub now: u32,
    pub room: u16,
    pub numbers: Vec<u16>,
}

/// A book, a network that stays the same, and what comes one after the other.
#[derive(Clone)]
pub struct Arrivals {
    pub hall: Hall,
    pub book: Book,
    pub arrivals: Vec<Arrival>,
}

/// How a trolley ended.
#[derive(Clone, Copy, Debug, PartialEq, Eq)]
pub enum End {
    /// Every move was admitted.
    All,
    /// It was refused before any move.
    Refused(Refusal),
    /// The move with this number was refused, and those before it were admitted.
    AtMove(usize, Refusal),
}

/// What is answered to an arrival.
#[derive(Clone, Debug, PartialEq, Eq)]
pub enum Outcome {
    /// The end of a trolley, and all places of the answer list.
    Trolley(End, Vec<u32>),
    OneByOne(Vec<Result<Admitted, Refusal>>),
}

impl Arrival {
    pub fn is_trolley(&self) -> bool {
        self.room != ONE_BY_ONE
    }

    /// An admission for each move. An odd last number is in none.
    pub fn calls(&self) -> Vec<Call> {
        let call = |two: &[u16]| {
            let asked = Move { start: two[0], goal: two[1] };
            Call { now: self.now, asked }
        };
        self.numbers.chunks_exact(2).map(call).collect()
    }

    /// What is checked before any admission.
    fn check(&self) -> Result<(), Refusal> {
        if usize::from(self.room) < LEAST_TIMES {
            return refuse(9, 0);
        }
        if self.calls().len() > MOST_CARRIERS {
            return refuse(2, 2);
        }
        Ok(())
    }

    /// The moves of the trolley go to the book, and their ticks to the answer list.
    fn unload(&self, ledger: &mut Ledger) -> (End, Vec<u32>) {
        let mut ticks = Vec::new();
        let end = match self.check() {
            Err(refusal) => End::Refused(refusal),
            Ok(()) => admit_until_refused(ledger, &self.calls(), &mut ticks),
        };
        match end {
            End::Refused(Refusal { number: 9, .. }) => (end, untouched(TIME_PLACES)),
            _ => (end, filled(TIME_PLACES, LEAST_TIMES, &ticks)),
        }
    }

    pub fn come(&self, ledger: &mut Ledger) -> Outcome {
        if self.is_trolley() {
            let (end, ticks) = self.unload(ledger);
            return Outcome::Trolley(end, ticks);
        }
        Outcome::OneByOne(self.calls().into_iter().map(|call| ledger.admit(call)).collect())
    }

    /// The same on a copy that has found no distance yet; of moves that come one by
    /// one each meets such a copy.
    pub fn come_again(&self, before: &Ledger) -> Outcome {
        let mut ledger = before.copy();
        if self.is_trolley() {
            return self.come(&mut ledger);
        }
        let one = |call: Call| {
            ledger = ledger.copy();
            ledger.admit(call)
        };
        Outcome::OneByOne(self.calls().into_iter().map(one).collect())
    }
}

fn admit_until_refused(ledger: &mut Ledger, calls: &[Call], ticks: &mut Vec<u32>) -> End {
    for (number, &call) in calls.iter().enumerate() {
        match ledger.admit(call) {
            Ok((tick, _)) => ticks.push(tick),
            Err(refusal) => return End::AtMove(number, refusal),
        }
    }
    End::All
}
