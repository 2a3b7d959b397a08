// Which slot is told: one that forbids a tick in each of the 64, alone, with a second
// one above or below it, and with several; and four carriers whose stretches overlap in
// every order of their slots. Between them stand carriers that are past and such as
// forbid nothing near there.

use crate::asking_ends::DWELLS;
use crate::asking_make::{at_ticks, edges, told_last};
use crate::batch::Case;
use crate::book::{Book, Slot, SLOTS};
use crate::book_make::{among, carrier};
use crate::dice::Dice;
use crate::floor::Floor;
use crate::halls::{grid, line};
use crate::job::Move;

const CLOCK: u32 = 2000;
const AGAINST: Move = Move { start: 4, goal: 0 };

/// One that forbids in each slot, by turns alone, with one more in any other slot, and
/// with more of them in every third slot from half as high on.
fn every_slot(dice: &mut Dice) -> Vec<Case> {
    let hall = line(5);
    let mut floor = Floor::of(&hall);
    let mut cases = Vec::new();
    for place in 0..SLOTS {
        let dwell = DWELLS[(place + place / 4) % 4];
        let others = [carrier(&hall, 0, 4, 5), carrier(&hall, 0, 4, 9000), Slot::FREE];
        let held = carrier(&hall, 0, 4, CLOCK + 10 + dwell);
        let mut book = among(place / 3, dwell, place, held, &others);
        book.clock = CLOCK;
        let later = |by: usize| Slot { tick: held.tick + by as u32, ..held };
        match place % 3 {
            0 => {}
            1 => book.slots[(place + dice.between(1, SLOTS - 1)) % SLOTS] = later(3),
            _ => (place / 2..SLOTS).step_by(3).for_each(|other| {
                book.slots[other] = later(other % 7);
            }),
        }
        let near = |tick: &u32| *tick < CLOCK + 1000;
        let ticks: Vec<u32> = edges(&mut floor, &book, AGAINST).into_iter().filter(near).collect();
        cases.push(told_last(&hall, &book, at_ticks(ticks, AGAINST)));
    }
    cases
}

/// All orders of four things.
fn orders() -> Vec<[usize; 4]> {
    let mut orders = Vec::new();
    for number in 0..256 {
        let order = [number % 4, number / 4 % 4, number / 16 % 4, number / 64];
        if (0..4).all(|thing| order.contains(&thing)) {
            orders.push(order);
        }
    }
    orders
}

/// Four that forbid some ticks together and some alone, in each order of four slots,
/// asked at every tick from the clock until all have left.
fn every_order() -> Vec<Case> {
    let hall = grid(9, 3);
    let asked = Move { start: 8, goal: 0 };
    let mut cases = Vec::new();
    for (turn, order) in orders().into_iter().enumerate() {
        let dwell = DWELLS[turn % 3];
        let four = [(0, 8, 0), (2, 6, 3), (0, 8, 5), (3, 5, 9)];
        let four = four.map(|(start, goal, tick)| carrier(&hall, start, goal, CLOCK + tick));
        let mut book = Book { clock: CLOCK, ..Book::empty(dwell) };
        let places = [[0, 1, 2, 3], [5, 20, 21, 63], [60, 61, 62, 63], [0, 31, 32, 63]][turn % 4];
        for (place, number) in places.into_iter().zip(order) {
            book.slots[place] = four[number];
        }
        let until = book.carriers().map(|held| held.last_tick(dwell) as u32 + 1).max();
        let ticks = CLOCK..=until.unwrap_or(CLOCK);
        cases.push(told_last(&hall, &book, at_ticks(ticks, asked)));
    }
    cases
}

pub fn slot_cases(dice: &mut Dice) -> Vec<Case> {
    let mut cases = every_slot(dice);
    cases.extend(every_order());
    cases
}
