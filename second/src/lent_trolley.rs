// The answers to the arrivals of a case with a floor book: how a trolley ended and
// what its answer list holds, or what each move was answered that came by itself;
// and what the book holds, behind each arrival or behind the last.

use crate::answers::Answer;
use crate::ledger::Ledger;
use crate::lent::Lent;
use crate::lent_book::said_of_call;
use crate::trolley::{Arrivals, End, Outcome};

/// The answers to one arrival, and the tables that the last of them tells.
fn answers_of(outcome: Outcome, book: Vec<(&'static str, Vec<u32>)>) -> Vec<Answer> {
    match outcome {
        Outcome::Trolley(end, ticks) => {
            let tables = [vec![("ticks", ticks)], book].concat();
            vec![match end {
                End::All => Answer::Left(Lent { said: Ok("ALL".to_string()), tables }),
                End::Refused(refusal) => Answer::Left(Lent { said: Err(refusal), tables }),
                End::AtMove(number, refusal) => {
                    Answer::OfMove(number, Lent { said: Err(refusal), tables })
                }
            }]
        }
        Outcome::OneByOne(admitted) => {
            let last = admitted.len() - 1;
            let one = |(number, answer)| {
                let tables = if number == last { book.clone() } else { Vec::new() };
                Answer::Left(Lent { said: said_of_call(answer), tables })
            };
            admitted.into_iter().enumerate().map(one).collect()
        }
    }
}

/// What is said to each arrival. If not `each` the book is told behind the last one
/// alone. Each is made so many times again on a copy of the book before it, as the
/// calls in lent_book.rs are.
pub fn arrivals(each: bool, again: u16, asked: &Arrivals) -> Vec<Answer> {
    let mut ledger = Ledger::of(&asked.hall, &asked.book);
    let mut answers = Vec::new();
    for (number, arrival) in asked.arrivals.iter().enumerate() {
        let before = if again > 0 { Some(ledger.copy()) } else { None };
        let outcome = arrival.come(&mut ledger);
        if let Some(before) = before {
            let same = (0..again).filter(|_| arrival.come_again(&before) == outcome).count();
            assert_eq!(same, usize::from(again), "the same answer each time");
        }
        let is_told = each || number + 1 == asked.arrivals.len();
        let book = if is_told { vec![("book", ledger.told().numbers())] } else { Vec::new() };
        answers.extend(answers_of(outcome, book));
    }
    answers
}
