// Trolleys for the benchmark: moves from four lifts into four chutes come at once, or
// one by one, to a book whose carriers have come the same way, in the halls of the
// admissions (admissions.rs). All of them are admitted: as many of those in the book
// are past as the moves find too few free slots, and only so many. With 48 carriers
// and 64 moves that is everybody, so nobody is on the floor then.

use crate::admissions::{Ends, NOW};
use crate::batch::Case;
use crate::book::SLOTS;
use crate::job::Move;
use crate::ledger::Ledger;
use crate::trolley::{Arrivals, End, Outcome};
use crate::trolley_make::{one_by_one, trolley};

const LIFTS: usize = 4;

/// A case with one arrival of so many moves, which is made so many times again.
pub fn case(
    name: &str,
    held: usize,
    moves: usize,
    by_themselves: bool,
    again: u16,
) -> Result<Case, String> {
    if held > SLOTS || moves > SLOTS || moves == 0 {
        return Err("a book holds at most 64, and from 1 to 64 moves come".to_string());
    }
    let ends = Ends::of(name)?;
    let mut book = ends.book(held, LIFTS)?;
    let past = (held + moves).saturating_sub(SLOTS);
    book.slots[..past].iter_mut().for_each(|slot| slot.tick = 0);
    let moves: Vec<Move> = (held..held + moves).map(|number| ends.asked(number, LIFTS)).collect();
    let together = trolley(NOW, &moves);
    let outcome = together.come(&mut Ledger::of(&ends.hall, &book));
    if !matches!(outcome, Outcome::Trolley(End::All, _)) {
        return Err("not every move is admitted".to_string());
    }
    let arrivals = vec![if by_themselves { one_by_one(NOW, &moves) } else { together }];
    let asked = Box::new(Arrivals { hall: ends.hall, book, arrivals });
    Ok(Case::AdmitAll { each: 0, again, asked })
}
