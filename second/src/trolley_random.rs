// Random trolleys: the books, halls and calls of book_random.rs, damaged ones too,
// in which calls come together with others as trolleys, by dice of any length, or
// one by one.

use crate::batch::Case;
use crate::book::Admissions;
use crate::book_random::random_books;
use crate::dice::Dice;
use crate::job::Move;
use crate::lists::some_move;
use crate::trolley::{Arrival, Arrivals};
use crate::trolley_make::{odd, one_by_one, with_room, ENOUGH};

fn some_room(dice: &mut Dice) -> u16 {
    match dice.below(12) {
        0 => dice.pick(&[0, 1, 32, 62, 63]),
        1 => dice.pick(&[65, 66, 99, 100]),
        _ => ENOUGH,
    }
}

/// The first move comes with as many others as the dice say.
fn some_arrival(dice: &mut Dice, asked: &Admissions, now: u32, first: Move) -> Arrival {
    let most = dice.pick(&[0, 1, 1, 3, 3, 8, 20]);
    let count = if dice.once_in(30) { dice.between(60, 70) } else { dice.between(0, most) };
    let mut moves = vec![first];
    for _ in 0..count {
        let earlier = dice.pick(&moves);
        let is_sound = asked.hall.check().is_ok();
        let other = if is_sound { some_move(dice, &asked.hall) } else { earlier };
        moves.push(if dice.once_in(3) { other } else { earlier });
    }
    match dice.below(10) {
        0 => with_room(some_room(dice), now, &[]),
        1 | 2 => one_by_one(now, &moves[..moves.len().min(6)]),
        3 => odd(with_room(some_room(dice), now, &moves), first.start),
        _ => with_room(some_room(dice), now, &moves),
    }
}

fn with_trolleys(dice: &mut Dice, asked: &Admissions) -> Arrivals {
    let Admissions { hall, book, calls } = asked.clone();
    let arrivals =
        calls.iter().map(|call| some_arrival(dice, asked, call.now, call.asked)).collect();
    Arrivals { hall, book, arrivals }
}

/// As many as asked for.
pub fn random_trolleys(dice: &mut Dice, count: usize) -> Vec<Case> {
    let mut cases = Vec::new();
    for case in random_books(dice, count) {
        if let Case::Admit { each, again, asked } = case {
            let asked = Box::new(with_trolleys(dice, &asked));
            cases.push(Case::AdmitAll { each, again, asked });
        }
    }
    cases
}
