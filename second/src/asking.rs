// Whether a move may start at one tick: a floor book is asked, and does not change. A
// slot forbids it if its carrier has not left the floor before that tick and the pair
// rule forbids the move to start then. Whoever has left forbids nothing and is not
// judged, for the hall may have changed since. All slots that forbid it are listed
// here, each by the rule's own test of one difference of ticks; what is told is the
// lowest. The ledger, which finds start ticks, goes by stretches.

use crate::book::{Book, Call, Slot};
use crate::call_checks::check_call;
use crate::floor::Floor;
use crate::job::{Hall, Move, Refusal};
use crate::rule::Pair;

/// A book and a hall that are asked, one question after the other.
pub struct Asking<'a> {
    hall: &'a Hall,
    book: &'a Book,
    /// Made at the first question whose hall is sound.
    floor: Option<Floor>,
}

/// The slots that forbid a move, lowest first; none if it may go.
pub type Forbidding = Vec<usize>;

impl<'a> Asking<'a> {
    pub fn of(hall: &'a Hall, book: &'a Book) -> Asking<'a> {
        Asking { hall, book, floor: None }
    }

    pub fn ask(&mut self, question: Call) -> Result<Forbidding, Refusal> {
        let Asking { hall, book, floor } = self;
        let (floor, _) = check_call(hall, book, question, floor)?;
        let Call { now: tick, asked } = question;
        let mut forbidding = Vec::new();
        for (place, held) in book.standing_in(tick) {
            let difference = i64::from(tick) - i64::from(held.tick);
            match pair(floor, book.dwell, held, asked) {
                Some(pair) if !pair.permits(difference) => forbidding.push(place),
                _ => {}
            }
        }
        Ok(forbidding)
    }
}

/// One that is held and the move, with each distance as the rule names it; none where
/// no walk joins the starts. The move must have a walk.
pub fn pair(floor: &mut Floor, dwell: u32, held: &Slot, asked: Move) -> Option<Pair> {
    let between_starts = floor.distance(held.start, asked.start)?;
    let between_goals = floor.distance(asked.goal, held.goal)?;
    let (own_of_held, own) = (i64::from(held.distance), floor.distance(asked.start, asked.goal)?);
    Some(Pair {
        between_starts,
        lead_of_earlier: own_of_held - floor.distance(asked.start, held.goal)?,
        lead_of_later: own - floor.distance(held.start, asked.goal)?,
        gap: between_starts + between_goals - own_of_held - own,
        dwell: dwell.into(),
    })
}
