// Every dwell from 0 to 255 and some that are too long, in books that began empty:
// two carriers to one chute and two against each other, whose second tick tells
// the dwell, two that share neither way nor node and still wait for each other,
// and the tick at which a slot is free again.

use crate::batch::Case;
use crate::book::Book;
use crate::book_make::{call, told_each};
use crate::dwelling::TOO_LONG_DWELLS;
use crate::halls::{complete, line, ring};
use crate::job::MOST_DWELL;

/// To one chute, against each other, and then one when the first is at its last
/// tick and one when it is past.
fn on_a_line(dwell: u32) -> Case {
    let last = 3_u32.saturating_add(dwell).min(5000);
    let calls = vec![
        call(0, 0, 3),
        call(0, 2, 3),
        call(0, 3, 0),
        call(1, 0, 1),
        call(last, 3, 2),
        call(last + 1, 1, 3),
        call(last + 1, 0, 3),
    ];
    told_each(&line(4), &Book::empty(dwell), calls)
}

/// Along the lanes of four nodes that are all joined, where a dwell of 0 has its
/// exception, and along opposite sides of a square.
fn side_by_side(dwell: u32) -> Case {
    let hall = if dwell % 2 == 0 { complete(4) } else { ring(4) };
    let calls = vec![call(0, 0, 1), call(0, 2, 3), call(0, 1, 2), call(2, 3, 0), call(9, 2, 1)];
    told_each(&hall, &Book::empty(dwell), calls)
}

/// On two nodes to and fro.
fn to_and_fro(dwell: u32) -> Case {
    let calls = (0..6).map(|number| call(number, number as u16 % 2, 1 - number as u16 % 2));
    told_each(&line(2), &Book::empty(dwell), calls.collect())
}

pub fn dwell_cases() -> Vec<Case> {
    let mut cases = Vec::new();
    let too_long = TOO_LONG_DWELLS.into_iter().chain([300]);
    for dwell in (0..=MOST_DWELL).chain(too_long) {
        cases.extend([on_a_line(dwell), side_by_side(dwell), to_and_fro(dwell)]);
    }
    // The first dwells in the other of the two halls.
    let opposite = |dwell: u32| match side_by_side(dwell + 1) {
        Case::Admit { each, again, mut asked } => {
            asked.book.dwell = dwell;
            Case::Admit { each, again, asked }
        }
        other => other,
    };
    cases.extend((0..8).map(opposite));
    cases
}
