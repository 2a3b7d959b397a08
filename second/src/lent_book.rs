// The answers to the calls of a case with a floor book: start tick and slot of each,
// or its refusal, and what the book holds, behind each call or behind the last.

use crate::book::Admissions;
use crate::job::Refusal;
use crate::ledger::{Admitted, Ledger};
use crate::lent::Lent;

pub fn said_of_call(answer: Result<Admitted, Refusal>) -> Result<String, Refusal> {
    answer.map(|(tick, slot)| format!("STARTS {} {}", tick, slot))
}

/// What is said to each call. If not `each` the book is told behind the last call
/// alone. Each call is made so many times again on a copy of the book before it,
/// for the benchmark; what these give is looked at, so that none can be left out.
pub fn admissions(each: bool, again: u16, asked: &Admissions) -> Vec<Lent> {
    let mut ledger = Ledger::of(&asked.hall, &asked.book);
    let mut answers = Vec::new();
    for (number, call) in asked.calls.iter().enumerate() {
        let before = if again > 0 { Some(ledger.copy()) } else { None };
        let admitted = ledger.admit(*call);
        if let Some(before) = before {
            let same = (0..again).filter(|_| before.copy().admit(*call) == admitted).count();
            assert_eq!(same, usize::from(again), "the same answer each time");
        }
        let is_told = each || number + 1 == asked.calls.len();
        let tables = if is_told { vec![("book", ledger.told().numbers())] } else { Vec::new() };
        answers.push(Lent { said: said_of_call(admitted), tables });
    }
    answers
}
