// The answers to the questions of a case that asks whether moves may go: that one may,
// the lowest slot that forbids it, or a refusal. All are put to the book as it came,
// which is told behind each of them or behind the last.

use crate::asking::{Asking, Forbidding};
use crate::book::Admissions;
use crate::lent::Lent;

fn said(slots: &Forbidding) -> String {
    match slots.first() {
        Some(lowest) => format!("FORBIDS {}", lowest),
        None => "MAY".to_string(),
    }
}

/// What is said to each question. If not `each` the book is told behind the last one
/// alone. Each is asked so many times again with distances that are found anew, for the
/// benchmark; what these give is looked at, so that none can be left out.
pub fn questions(each: bool, again: u16, asked: &Admissions) -> Vec<Lent> {
    let Admissions { hall, book, calls } = asked;
    let mut asking = Asking::of(hall, book);
    let mut answers = Vec::new();
    for (number, &question) in calls.iter().enumerate() {
        let answer = asking.ask(question);
        let others = (0..again).map(|_| Asking::of(hall, book).ask(question));
        let same = others.filter(|other| *other == answer).count();
        assert_eq!(same, usize::from(again), "the same answer each time");
        let is_told = each || number + 1 == calls.len();
        let tables = if is_told { vec![("book", book.numbers())] } else { Vec::new() };
        answers.push(Lent { said: answer.map(|slots| said(&slots)), tables });
    }
    answers
}
