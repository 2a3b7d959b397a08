// Random questions: the books, halls and moves of book_random.rs, damaged ones too. A
// book comes as it was lent or as its calls left it, and each move is asked about at the
// tick of its call and at some ticks where the answer may change.

use crate::asking_make::edges;
use crate::batch::Case;
use crate::book::{Admissions, Book, Call, LATEST_CLOCK};
use crate::book_random::random_books;
use crate::dice::Dice;
use crate::floor::Floor;
use crate::ledger::Ledger;

/// The book as the calls leave it.
fn left(asked: &Admissions) -> Book {
    let mut ledger = Ledger::of(&asked.hall, &asked.book);
    for &call in &asked.calls {
        let _ = ledger.admit(call);
    }
    ledger.told()
}

/// The ticks at which the answer about a move may change, which a damaged book or hall
/// has none of.
fn ticks(floor: &mut Option<Floor>, book: &Book, call: Call) -> Vec<u32> {
    match floor {
        Some(floor) if !book.is_damaged() => edges(floor, book, call.asked).into_iter().collect(),
        _ => vec![book.clock, call.now],
    }
}

fn with_questions(dice: &mut Dice, asked: Admissions) -> Admissions {
    let book = if dice.once_in(3) { asked.book.clone() } else { left(&asked) };
    let Admissions { hall, calls, .. } = asked;
    let mut floor = if hall.check().is_ok() { Some(Floor::of(&hall)) } else { None };
    let mut questions = Vec::new();
    for call in calls {
        questions.push(call);
        let ticks = ticks(&mut floor, &book, call);
        for _ in 0..dice.between(0, 8) {
            questions.push(Call { now: dice.pick(&ticks), ..call });
        }
        if dice.once_in(20) {
            let now = dice.pick(&[0, LATEST_CLOCK, LATEST_CLOCK + 1, u32::MAX]);
            questions.push(Call { now, ..call });
        }
    }
    Admissions { hall, book, calls: questions }
}

/// As many as asked for.
pub fn random_questions(dice: &mut Dice, count: usize) -> Vec<Case> {
    let mut cases = Vec::new();
    for case in random_books(dice, count) {
        if let Case::Admit { each, again, asked } = case {
            let asked = Box::new(with_questions(dice, *asked));
            cases.push(Case::Ask { each, again, asked });
        }
    }
    cases
}
