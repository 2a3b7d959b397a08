// Days: behind each call the book is asked about the move that was just admitted or
// refused and about another one, at every tick from the clock to a little after the one
// that an admission would get. In small halls, and on a square of 1,024 nodes.

use crate::asking_make::{at_ticks, told_last};
use crate::batch::Case;
use crate::book::{Book, Call, LATEST_CLOCK};
use crate::book_days::served;
use crate::book_make::{all_moves, Day, Pace};
use crate::closing::with_closed;
use crate::dice::Dice;
use crate::halls::{aisles, complete, grid, line, ring};
use crate::job::{Hall, Move};
use crate::ledger::Ledger;

/// So many ticks behind the one that an admission gets are asked about, too.
const LATER: u32 = 3;

/// A move at every tick up to the one that an admission at the clock gets. If that is
/// refused, a few ticks from the clock on.
fn until_admitted(hall: &Hall, book: &Book, asked: Move) -> Vec<Call> {
    let now = book.clock;
    let admitted = Ledger::of(hall, book).admit(Call { now, asked });
    let until = admitted.map_or(now, |(tick, _)| tick);
    at_ticks(now..=until + LATER, asked)
}

/// What is asked behind each of so many calls, one of six of which has one node for
/// start and goal and is refused.
fn behind_calls(
    dice: &mut Dice,
    hall: &Hall,
    moves: &[Move],
    mut day: Day,
    calls: usize,
) -> Vec<Case> {
    let mut cases = Vec::new();
    for number in 0..calls {
        let pace = dice.pick(&[Pace::Still, Pace::Still, Pace::Creeping, Pace::Leaving]);
        let now = if number == 0 { day.book().clock } else { day.next(dice, pace) };
        let mut asked = dice.pick(moves);
        if dice.once_in(6) {
            asked.goal = asked.start;
        }
        let _ = day.call(now, asked);
        let mut questions = until_admitted(hall, &day.book(), asked);
        questions.extend(until_admitted(hall, &day.book(), dice.pick(moves)));
        cases.push(told_last(hall, &day.book(), questions));
    }
    cases
}

/// Days of ten calls, and of four where carriers wait longest, some of them close to
/// the end of all time.
fn small_days(dice: &mut Dice) -> Vec<Case> {
    let closed = with_closed(dice, grid(16, 4), 2);
    let halls = [line(5), ring(8), grid(9, 3), closed, aisles(12, 4), complete(5)];
    let mut cases = Vec::new();
    for (number, hall) in halls.iter().enumerate() {
        let moves = all_moves(hall);
        for dwell in [[0, 1], [3, 255]][number % 2] {
            let clock = [0, 90, LATEST_CLOCK - 25][cases.len() % 3];
            let day = Day::new(hall, Book { clock, ..Book::empty(dwell) });
            let calls = if dwell == 255 { 4 } else { 10 };
            cases.extend(behind_calls(dice, hall, &moves, day, calls));
        }
    }
    cases
}

fn large_day(dice: &mut Dice) -> Vec<Case> {
    let hall = grid(1024, 32);
    let moves = served(dice, &hall, 2, 2);
    let day = Day::new(&hall, Book::empty(1));
    behind_calls(dice, &hall, &moves, day, 8)
}

pub fn day_cases(dice: &mut Dice) -> Vec<Case> {
    let mut cases = small_days(dice);
    cases.extend(large_day(dice));
    cases
}
