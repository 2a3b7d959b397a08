// Days with trolleys: moves come together and one by one, by turns, to books that
// began empty, in small halls and in halls of 1,024 nodes. Some of the trolleys are
// empty, too long, or have an odd last number, a faulty move or too short an answer
// list. And trains: 64 moves that come at once, of one lift, of many, into one chute
// and against each other.

use crate::batch::Case;
use crate::book::{Book, LATEST_CLOCK, SLOTS};
use crate::book_days::served;
use crate::book_make::{all_moves, Pace};
use crate::book_small::joined_shapes;
use crate::closing::with_closed;
use crate::dice::Dice;
use crate::halls::{aisles, complete, grid, line, ring, scattered, star, tree, two_parts};
use crate::job::{Hall, Move};
use crate::trolley::Arrival;
use crate::trolley_make::{odd, one_by_one, step, trolley, with_room, Shift};

const DWELLS: [u32; 4] = [0, 1, 3, 255];
/// How many arrivals a day has.
const ARRIVALS: usize = 12;
const PACES: [Pace; 5] =
    [Pace::Still, Pace::Creeping, Pace::Striding(30), Pace::Leaving, Pace::Mixed];

/// What comes next on a day: mostly a trolley of a few of these moves.
fn some_arrival(dice: &mut Dice, now: u32, moves: &[Move], most: usize) -> Arrival {
    let count = dice.between(1, most);
    let mut chosen: Vec<Move> = (0..count).map(|_| dice.pick(moves)).collect();
    match dice.below(16) {
        0..=3 => one_by_one(now, &chosen[..count.min(3)]),
        4 => odd(trolley(now, &chosen), dice.below(9) as u16),
        5 => {
            let place = dice.below(count);
            chosen[place].goal = dice.pick(&[chosen[place].start, 1024, 65_535]);
            trolley(now, &chosen)
        }
        6 if dice.once_in(3) => with_room(dice.below(64) as u16, now, &chosen),
        6 if dice.once_in(2) => trolley(now, &[chosen[0]; 65]),
        6 => trolley(now, &[]),
        7 => with_room(dice.between(65, 100) as u16, now, &chosen),
        _ => trolley(now, &chosen),
    }
}

/// A day on which any moves of the hall come, told after every arrival or not.
fn day(dice: &mut Dice, hall: &Hall, dwell: u32, turn: usize) -> Case {
    let moves = all_moves(hall);
    let mut shift = Shift::new(hall, Book::empty(dwell));
    let most = [4, 9, 20, 64][(turn + turn / 4) % 4];
    for number in 0..ARRIVALS {
        let now = match number {
            0 => [0, 0, 1, 1000, LATEST_CLOCK - 12][turn % 5],
            _ => shift.next(dice, PACES[turn / 5 % PACES.len()]),
        };
        let _ = shift.come(some_arrival(dice, now, &moves, most));
    }
    if turn % 3 > 0 {
        shift.told_each()
    } else {
        shift.told_last()
    }
}

fn small_halls(dice: &mut Dice) -> Vec<Hall> {
    let mut halls = vec![line(2), line(3), line(4), complete(3), star(4), ring(4), complete(4)];
    halls.extend(joined_shapes(5));
    halls.extend([ring(10), grid(16, 4), aisles(12, 4), two_parts(10), tree(dice, 15)]);
    halls.extend(
        [(grid(16, 4), 3), (ring(8), 1)].map(|(hall, count)| with_closed(dice, hall, count)),
    );
    halls
}

fn small_days(dice: &mut Dice) -> Vec<Case> {
    let mut cases = Vec::new();
    for hall in small_halls(dice) {
        for dwell in DWELLS {
            let turn = cases.len();
            cases.push(day(dice, &hall, dwell, turn));
        }
    }
    cases
}

/// Moves by turns: a train, against each other, from one lift into many chutes, from
/// many lifts into one chute, and any moves.
fn rows(dice: &mut Dice, hall: &Hall) -> Vec<Vec<Move>> {
    let last = hall.nodes as u16 - 1;
    let others = |number: usize| 1 + number as u16 % (last - 1);
    let any = all_moves(hall);
    let row = |of: &mut dyn FnMut(usize) -> Move| (0..SLOTS).map(of).collect();
    vec![
        row(&mut |_| step(0, last)),
        row(&mut |number| [step(0, last), step(last, 0)][number % 2]),
        row(&mut |number| step(0, others(number))),
        row(&mut |number| step(others(7 * number), last)),
        row(&mut |_| dice.pick(&any)),
    ]
}

/// All at once, then one who finds no slot, and when the first has left a trolley
/// of several, which may find as many slots or fewer.
fn train(hall: &Hall, dwell: u32, now: u32, moves: &[Move], behind: usize) -> Case {
    let mut shift = Shift::new(hall, Book::empty(dwell));
    let _ = shift.come(trolley(now, moves));
    let _ = shift.come(one_by_one(now, &moves[..1]));
    let left = shift.first_to_leave().map_or(now, |last| last.saturating_add(1));
    let _ = shift.come(trolley(left, &moves[..behind]));
    let _ = shift.come(one_by_one(left.saturating_add(9), &moves[..behind.min(2)]));
    shift.told_last()
}

fn small_trains(dice: &mut Dice) -> Vec<Case> {
    let mut cases = Vec::new();
    for hall in [line(12), grid(16, 4), ring(9), grid(36, 6)] {
        for dwell in DWELLS {
            for moves in rows(dice, &hall) {
                let now = [0, 5, LATEST_CLOCK - 400, LATEST_CLOCK][cases.len() % 4];
                cases.push(train(&hall, dwell, now, &moves, 6));
            }
        }
    }
    cases
}

/// A line, a square, 4,096 lanes, and the same with closed nodes: rows of 64 at
/// once, and days on which a few lifts serve a few chutes. From end to end of the
/// line by turns they reach the latest tick that there is after now.
fn full_days(dice: &mut Dice) -> Vec<Case> {
    let random = scattered(dice, 1024, 4096);
    let closed = with_closed(dice, random.clone(), 300);
    let halls = [line(1024), grid(1024, 32), random, closed];
    let mut cases = Vec::new();
    for (number, hall) in halls.iter().enumerate() {
        let mut ends = served(dice, hall, 4, 4);
        ends.push(step(0, 1024));
        for dwell in [DWELLS[number], 255 - DWELLS[number]] {
            let mut shift = Shift::new(hall, Book::empty(dwell));
            for _ in 0..ARRIVALS {
                let now = shift.next(dice, [Pace::Striding(60), Pace::Leaving][number % 2]);
                let _ = shift.come(some_arrival(dice, now, &ends, 16));
            }
            cases.push(shift.told_last());
            let moves: Vec<Move> = (0..SLOTS).map(|place| ends[place % 16]).collect();
            cases.push(train(hall, dwell, 0, &moves, 4));
        }
    }
    for dwell in [0, 255] {
        for now in [0, LATEST_CLOCK] {
            let there_and_back = [step(0, 1023), step(1023, 0)];
            let against: Vec<Move> = (0..SLOTS).map(|place| there_and_back[place % 2]).collect();
            cases.push(train(&halls[0], dwell, now, &against, 2));
            cases.push(train(&halls[0], dwell, now, &[step(0, 1023); SLOTS], 2));
        }
    }
    cases
}

pub fn day_cases(dice: &mut Dice) -> Vec<Case> {
    let mut cases = small_days(dice);
    cases.extend(small_trains(dice));
    cases.extend(full_days(dice));
    cases
}
