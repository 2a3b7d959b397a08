// Slots that a trolley meets: books with any number of carriers, of which some are
// past, so that a trolley of 64 finds no slot at one of its moves; and carriers that
// do not fit the hall any more, in every slot, met by trolleys whose first move is
// good or has a fault of its own, and again when they are past.

use crate::batch::Case;
use crate::book::{Book, Slot, SLOTS};
use crate::book_make::{among, carrier};
use crate::book_stale::{hall, misfits, others, CLOCK};
use crate::dice::Dice;
use crate::halls::line;
use crate::job::Move;
use crate::trolley_make::{one_by_one, step, told_each, told_last, trolley};

const NOW: u32 = 2000;

/// A book with so many carriers in any slots. Those who are past are so by one
/// tick, and of the others the first has its last tick now.
fn filled(dice: &mut Dice, dwell: u32, held: usize, past: usize) -> Book {
    let mut book = Book { clock: NOW - 3, ..Book::empty(dwell) };
    let mut places: Vec<usize> = (0..SLOTS).collect();
    dice.shuffle(&mut places);
    for (number, &place) in places[..held].iter().enumerate() {
        let slot = carrier(&line(5), 0, 4, 0);
        let last = if number < past { NOW - 1 } else { NOW + 2 * (number - past) as u32 };
        book.slots[place] = Slot { tick: last - 4 - dwell, ..slot };
    }
    book
}

/// A trolley of 64 at a book with each number of carriers, of which nobody, one,
/// half or all are past; then the next move by itself, and when the first has left
/// a short trolley that takes its slot and finds no other.
fn without_a_slot(dice: &mut Dice) -> Vec<Case> {
    let ends = [step(0, 4), step(0, 4), step(1, 4), step(4, 0)];
    let mut cases = Vec::new();
    for held in 1..=SLOTS {
        for past in [[0, held / 2], [1, held]][held % 2] {
            let dwell = [0, 1, 3, 255][(held + past) % 4];
            let book = filled(dice, dwell, held, past);
            let moves: Vec<Move> =
                (0..SLOTS).map(|number| ends[(number + held) % ends.len()]).collect();
            let arrivals = vec![
                trolley(NOW, &moves),
                one_by_one(NOW, &moves[..1]),
                trolley(NOW + 1, &moves[..3]),
                trolley(NOW + 2, &moves[1..4]),
            ];
            cases.push(told_last(&line(5), &book, arrivals));
        }
    }
    cases
}

/// The moves of a trolley with a misfit in the book: a first move that is good or
/// has each fault of its own, and good ones behind it.
fn first_moves() -> Vec<Vec<Move>> {
    let firsts = [step(8, 2), step(14, 2), step(8, 8), step(8, 5), step(8, 12)];
    firsts.into_iter().map(|first| vec![first, step(8, 2), step(12, 13)]).collect()
}

/// Misfits in each slot: trolleys at the clock, which admit nothing, at the misfit's
/// last tick, and one tick later, when it is past.
fn stale(dice: &mut Dice) -> Vec<Case> {
    let (hall, others, misfits, firsts) = (hall(), others(), misfits(), first_moves());
    let mut cases = Vec::new();
    for place in 0..SLOTS {
        for turn in 0..3 {
            let misfit = misfits[(5 * place + 4 * turn) % misfits.len()];
            let dwell = dice.pick(&[0, 1, 3, 30]);
            let mut book = among(place / 4 + turn, dwell, place, misfit, &others);
            book.clock = CLOCK;
            if turn == 2 {
                // A second one, whose slot is told only if it is the lower.
                book.slots[dice.below(SLOTS)] = misfits[(place + turn) % misfits.len()];
            }
            let last = misfit.last_tick(dwell) as u32;
            let faulty = &firsts[1 + (place + turn) % 4];
            let arrivals = vec![
                trolley(CLOCK, faulty),
                trolley(CLOCK, &firsts[0]),
                trolley(CLOCK, &[]),
                one_by_one(CLOCK, &firsts[0][..1]),
                trolley(last, &firsts[0]),
                trolley(last + 1, faulty),
                trolley(last + 1, &firsts[0]),
            ];
            cases.push(told_each(&hall, &book, arrivals));
        }
    }
    cases
}

/// Trolleys that admit nothing leave those in the book who are past, also misfits,
/// and the clock; one that admits its first move forgets them.
fn nothing_forgotten() -> Vec<Case> {
    let (hall, firsts) = (hall(), first_moves());
    let mut cases = Vec::new();
    for (number, misfit) in misfits().into_iter().enumerate() {
        for turn in 0..4 {
            let dwell = [0, 1, 3, 255][turn];
            let book = Book { clock: CLOCK, ..among(turn, dwell, 7 * turn, misfit, &others()) };
            let now = misfit.last_tick(dwell) as u32 + 1 + number as u32;
            let good_then_bad = [firsts[0][0], firsts[1 + turn][0], firsts[0][0]];
            let mut arrivals: Vec<_> =
                firsts[1..].iter().map(|moves| trolley(now, moves)).collect();
            arrivals.extend([trolley(now, &[]), trolley(now, &good_then_bad)]);
            cases.push(told_each(&hall, &book, arrivals));
        }
    }
    cases
}

pub fn slot_cases(dice: &mut Dice) -> Vec<Case> {
    let mut cases = without_a_slot(dice);
    cases.extend(stale(dice));
    cases.extend(nothing_forgotten());
    cases
}
