// Lists of trolleys: answer lists of every length up to 70 and as long as there can
// be, with moves that are all admitted, refused, none or too many; lists of moves of
// many lengths, odd ones too; and all of them with a damaged book, a wrong clock
// value and a faulty network, of which an empty trolley knows nothing.

use crate::batch::Case;
use crate::book::{Book, Slot, LATEST_CLOCK};
use crate::book_make::{among, carrier};
use crate::halls::line;
use crate::job::{Hall, Move};
use crate::trolley::Arrival;
use crate::trolley_make::{odd, one_by_one, step, told_each, trolley, with_room, ENOUGH};

const CLOCK: u32 = 70;
const COUNTS: [usize; 6] = [1, 2, 64, 3, 10, 63];

/// So many moves on a line of five nodes, most of them along the whole line.
fn moves(count: usize) -> Vec<Move> {
    let ends = [step(0, 4), step(0, 4), step(1, 4), step(0, 4), step(4, 0)];
    (0..count).map(|number| ends[number % ends.len()]).collect()
}

/// A book that is empty, or has somebody on the floor and somebody who is past.
fn book(turn: usize) -> Book {
    let hall = line(5);
    let mut book = match turn % 3 {
        0 => Book::empty(0),
        1 => among(0, 3, 9, carrier(&hall, 4, 0, CLOCK), &[]),
        _ => among(0, 1, 0, carrier(&hall, 0, 3, CLOCK - 30), &[]),
    };
    book.clock = CLOCK;
    book
}

/// What may be wrong with a book, a clock value and a network, by turns, and at
/// every fourth turn all of it.
fn spoiled(turn: usize) -> (Hall, Book, u32) {
    let (mut hall, mut book, mut now) = (line(5), book(turn / 4), CLOCK);
    let all = turn % 4 == 3;
    if all || turn % 4 == 0 {
        match turn / 4 % 3 {
            0 => book.dwell = 256,
            1 => book.clock = LATEST_CLOCK + 1,
            _ => book.slots[turn % 64] = Slot { tick: 1, ..Slot::FREE },
        }
    }
    if all || turn % 4 == 1 {
        now = [CLOCK - 1, LATEST_CLOCK + 1, u32::MAX, 0][turn / 4 % 4];
    }
    if all || turn % 4 == 2 {
        match turn / 4 % 4 {
            0 => hall.nodes = 0,
            1 => hall.lane_numbers.push(3),
            2 => hall.lane_numbers.swap(0, 1),
            _ => hall.closed = vec![2, 2],
        }
    }
    (hall, book, now)
}

/// Every length of the answer list with each sort of trolley. Those behind meet
/// the book that the ones before have left.
fn every_room() -> Vec<Case> {
    let mut cases = Vec::new();
    for (turn, room) in (0..=70).chain([99, 100]).enumerate() {
        let mut refused = moves(4 + turn % 3);
        refused[turn % 4].goal = refused[turn % 4].start;
        let lists = |now: u32, good: usize| {
            vec![
                with_room(room, now, &[]),
                with_room(room, now, &moves(good)),
                with_room(room, now + 200, &refused),
                with_room(room, now + 200, &moves(65)),
                odd(with_room(room, now + 1500, &[]), 9),
                odd(with_room(room, now + 1500, &moves(2)), 0),
            ]
        };
        let good = COUNTS[turn % COUNTS.len()];
        cases.push(told_each(&line(5), &book(turn), lists(CLOCK, good)));
        let (hall, book, now) = spoiled(turn);
        let arrivals = vec![
            with_room(room, now, &[]),
            odd(with_room(room, now, &[]), 4),
            with_room(room, now, &moves(1)),
            with_room(room, now, &moves(65)),
        ];
        cases.push(told_each(&hall, &book, arrivals));
    }
    cases
}

/// Lists of so many moves, even and odd, then a move by itself, with sound books
/// and with faults of all sorts.
fn every_count() -> Vec<Case> {
    let counts = [0, 1, 2, 3, 31, 62, 63, 64, 65, 66, 67, 100, 127, 128, 129, 200, 256, 257];
    let mut cases = Vec::new();
    for count in counts.into_iter().chain([1000, 8192, 16_384, 32_767]) {
        for is_odd in [false, true] {
            let list = |now: u32| -> Arrival {
                let even = trolley(now, &moves(count));
                if is_odd {
                    odd(even, 2)
                } else {
                    even
                }
            };
            let behind = one_by_one(CLOCK + 1, &moves(1));
            for turn in 0..2 {
                let arrivals = vec![list(CLOCK), behind.clone()];
                cases.push(told_each(&line(5), &book(turn), arrivals));
            }
            for turn in 0..4 {
                let (hall, book, now) = spoiled(4 * count + turn);
                let long = count > 257;
                let arrivals = if long { vec![list(now)] } else { vec![list(now), list(CLOCK)] };
                cases.push(told_each(&hall, &book, arrivals));
            }
        }
    }
    cases
}

/// An empty list and a list of one number with each fault, and then a trolley that
/// meets the fault.
fn nothing_asked() -> Vec<Case> {
    let mut cases = Vec::new();
    for turn in 0..48 {
        let (hall, book, now) = spoiled(turn);
        let empty = with_room(ENOUGH, now, &[]);
        let one = [0, 4, 5, 65_535][turn / 4 % 4];
        let arrivals = vec![empty.clone(), odd(empty, one), trolley(now, &moves(3))];
        cases.push(told_each(&hall, &book, arrivals));
    }
    cases
}

pub fn list_cases() -> Vec<Case> {
    let mut cases = every_room();
    cases.extend(every_count());
    cases.extend(nothing_asked());
    cases
}
