// The order of checks of a question: the faults of book_checks.rs, each by itself, any
// two in both orders, and each with all behind it. Those of the clock value and of the
// move are put into the questions of one case, for a book is asked as often as one
// likes. Refusal 15 never comes: that a book is full is put in with the faults, and is
// none here.

use crate::asking_make::told_last;
use crate::batch::Case;
use crate::book::{Admissions, Call};
use crate::book_checks::{
    sound, Fault, BOOK_FAULTS, CLOCK_FAULTS, FULL_FAULTS, HALL_FAULTS, MOVE_FAULTS, SLOT_FAULTS,
};

/// The questions that come of a case by faults of the clock value and of the move: as
/// it is, with each fault, and with any two in both orders if `in_pairs`.
fn questions(case: &Admissions, in_pairs: bool) -> Vec<Call> {
    let faults: Vec<Fault> = [CLOCK_FAULTS, MOVE_FAULTS].concat();
    let with = |faults: &[Fault]| {
        let mut faulty = case.clone();
        faults.iter().for_each(|fault| fault(&mut faulty));
        faulty.calls[0]
    };
    let mut questions = vec![with(&[])];
    for &one in &faults {
        questions.push(with(&[one]));
        questions.extend(faults.iter().filter(|_| in_pairs).map(|&other| with(&[one, other])));
    }
    questions
}

/// A faulty clock value may go by the book's clock, so the questions are those of the
/// sound case and those of the faulty one, each once.
fn asked(case: &Admissions, in_pairs: bool) -> Case {
    let mut once: Vec<Call> = Vec::new();
    for question in [&sound(), case].into_iter().flat_map(|from| questions(from, in_pairs)) {
        if !once.contains(&question) {
            once.push(question);
        }
    }
    told_last(&case.hall, &case.book, once)
}

fn is_same(one: &Admissions, other: &Admissions) -> bool {
    one.hall == other.hall && one.book == other.book
}

pub fn check_cases() -> Vec<Case> {
    let faults: Vec<Fault> = [BOOK_FAULTS, HALL_FAULTS, SLOT_FAULTS, FULL_FAULTS].concat();
    let with = |faults: &[Fault]| {
        let mut case = sound();
        faults.iter().for_each(|fault| fault(&mut case));
        case
    };
    let mut cases = vec![asked(&sound(), true)];
    for (number, &one) in faults.iter().enumerate() {
        cases.push(asked(&with(&[one]), true));
        for &other in &faults[number + 1..] {
            let (both, other_way) = (with(&[one, other]), with(&[other, one]));
            cases.push(asked(&both, false));
            if !is_same(&both, &other_way) {
                cases.push(asked(&other_way, false));
            }
        }
        let mut behind = faults[number..].to_vec();
        behind.reverse();
        cases.push(asked(&with(&behind), false));
    }
    cases
}
