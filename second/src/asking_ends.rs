// Every tick around each end of each stretch of each carrier that is held, around its
// last tick and at its goal tick, for books with nobody up to everybody, in small
// halls and in some of 1,024 nodes, with dwells of 0, 1, 3 and 255.

use crate::asking_make::{at_ticks, book_with, edges, told_last, Spread};
use crate::batch::Case;
use crate::book::{Book, Call, LATEST_CLOCK};
use crate::book_days::served;
use crate::book_make::all_moves;
use crate::closing::with_closed;
use crate::dice::Dice;
use crate::floor::Floor;
use crate::halls::{complete, grid, line, ring, scattered, two_parts};
use crate::job::{Hall, Move};

pub const DWELLS: [u32; 4] = [0, 1, 3, 255];
/// How many carriers are held, and how many moves are asked about then.
const COUNTS: [(usize, usize); 8] =
    [(0, 6), (1, 10), (2, 8), (3, 6), (5, 5), (16, 2), (63, 1), (64, 1)];
/// So many questions a case has in a hall of 1,024 nodes, where each takes a walk for
/// each lift that is in use.
const MOST_IN_LARGE: usize = 60;

/// Carriers near each other and far apart by turns, at clocks of all sizes.
fn some_book(dice: &mut Dice, floor: &mut Floor, moves: &[Move], turn: usize, held: usize) -> Book {
    let dwell = DWELLS[turn % DWELLS.len()];
    let clock = [0, 700, 0, 65_500, LATEST_CLOCK - 700][turn % 5];
    let far = moves.iter().filter_map(|asked| floor.distance(asked.start, asked.goal)).max();
    let far = far.unwrap_or(0) as u32;
    let spread = match turn % 3 {
        0 => Spread::Near(far + held as u32),
        1 => Spread::Near(2 * (far + dwell) + 3 * held as u32),
        _ => Spread::Apart(2 * (far + dwell) + 7),
    };
    // Some of many that start far apart would lie behind the last tick there is.
    let clock = match spread {
        Spread::Apart(step) => clock.min(LATEST_CLOCK - step * held as u32),
        Spread::Near(_) => clock,
    };
    let empty = Book { clock, ..Book::empty(dwell) };
    book_with(dice, floor, empty, moves, (held, spread))
}

fn questions(floor: &mut Floor, book: &Book, moves: &[Move]) -> Vec<Call> {
    let mut questions = Vec::new();
    for &asked in moves {
        questions.extend(at_ticks(edges(floor, book, asked), asked));
    }
    questions
}

/// Three of them have rings of odd length, without which no end is ever excepted.
fn small_halls(dice: &mut Dice) -> Vec<Hall> {
    let closed = with_closed(dice, grid(16, 4), 3);
    let halls = [line(2), line(6), ring(5), complete(4), grid(9, 3), two_parts(9)];
    halls.into_iter().chain([scattered(dice, 9, 18), closed]).collect()
}

/// Each number of carriers with each dwell. Each such book has its own turn, so that
/// clocks and spreads change from one to the next.
fn in_small_halls(dice: &mut Dice) -> Vec<Case> {
    let mut cases = Vec::new();
    for (number, hall) in small_halls(dice).iter().enumerate() {
        let mut floor = Floor::of(hall);
        let moves = all_moves(hall);
        for (row, &(held, asked)) in COUNTS.iter().enumerate() {
            for turn in 0..DWELLS.len() {
                let turn = turn + DWELLS.len() * (row + COUNTS.len() * number);
                let book = some_book(dice, &mut floor, &moves, turn, held);
                let some: Vec<Move> = (0..asked).map(|_| dice.pick(&moves)).collect();
                let questions = questions(&mut floor, &book, &some);
                cases.push(told_last(hall, &book, questions));
            }
        }
    }
    cases
}

/// A line, a square, 4,096 lanes and the same with closed nodes, with three lifts. On
/// the line some go from end to end.
fn in_large_halls(dice: &mut Dice) -> Vec<Case> {
    let random = scattered(dice, 1024, 4096);
    let closed = with_closed(dice, random.clone(), 300);
    let mut cases = Vec::new();
    for (number, hall) in [line(1024), grid(1024, 32), random, closed].iter().enumerate() {
        let mut moves = served(dice, hall, 3, 4);
        if number == 0 {
            moves.extend([(0, 1023), (1023, 0)].map(|(start, goal)| Move { start, goal }));
        }
        let mut floor = Floor::of(hall);
        for (row, held) in [1, 2, 5, 16, 63, 64].into_iter().enumerate() {
            let book = some_book(dice, &mut floor, &moves, 7 * row + number, held);
            let some = [dice.pick(&moves), dice.pick(&moves)];
            let mut questions = questions(&mut floor, &book, &some);
            dice.shuffle(&mut questions);
            questions.truncate(MOST_IN_LARGE);
            cases.push(told_last(hall, &book, questions));
        }
    }
    cases
}

pub fn end_cases(dice: &mut Dice) -> Vec<Case> {
    let mut cases = in_small_halls(dice);
    cases.extend(in_large_halls(dice));
    cases
}
