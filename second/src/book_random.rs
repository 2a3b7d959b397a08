// Random books and calls: books of true days, books that are full of sound carriers
// at any ticks, such books with one damage or several, and books of any numbers,
// each with a random hall, which may be damaged too, and with up to a dozen calls;
// and books of true days whose hall has changed since.

use crate::batch::Case;
use crate::book::{Book, Slot, LATEST_CLOCK, LATEST_TICK, SLOTS};
use crate::book_make::{all_moves, Day, Pace};
use crate::book_stale::{after_a_change, book_of_a_day};
use crate::damage_numbers::damaged_hall;
use crate::dice::Dice;
use crate::dwelling::{some_dwell, TOO_LONG_DWELLS};
use crate::floor::Floor;
use crate::halls::any_hall;
use crate::job::{Hall, Move};
use crate::lists::some_move;

fn some_tick(dice: &mut Dice, clock: u32) -> u32 {
    let near = i64::from(clock) + dice.between(0, 300) as i64 - 100;
    let near = near.clamp(0, LATEST_TICK.into()) as u32;
    dice.pick(&[near, near, near, near, 0, LATEST_TICK])
}

/// Carriers with true distances, at any ticks and in any slots.
fn sound_book(dice: &mut Dice, hall: &Hall, dwell: u32) -> Book {
    let clock = dice.pick(&[0, 1, 120, 70_000, LATEST_CLOCK - 5]);
    let mut book = Book { clock, ..Book::empty(dwell) };
    let moves = all_moves(hall);
    let mut floor = Floor::of(hall);
    let free = dice.pick(&[1, 2, 4, 64]);
    for slot in book.slots.iter_mut() {
        if moves.is_empty() || dice.below(free) > 0 {
            continue;
        }
        let Move { start, goal } = dice.pick(&moves);
        let distance = floor.distance(start, goal).unwrap_or(1) as u16;
        let tick = some_tick(dice, clock);
        // A full book stays so for a while.
        let tick = if free == 1 { tick.max(clock) } else { tick };
        *slot = Slot { start, goal, distance, tick };
    }
    book
}

/// Any numbers at all, mostly small ones.
fn wild_book(dice: &mut Dice, dwell: u32) -> Book {
    let mut book = Book { clock: dice.word() as u32, ..Book::empty(dwell) };
    if dice.once_in(2) {
        book.clock %= 2000;
    }
    for slot in book.slots.iter_mut() {
        if dice.once_in(2) {
            continue;
        }
        let most = dice.pick(&[3, 12, 64, 1024, 1030, 65_536]);
        let mut short = || dice.below(most) as u16;
        let (start, goal, distance) = (short(), short(), short());
        *slot = Slot { start, goal, distance, tick: some_tick(dice, 1000) };
    }
    book
}

type BookDamage = fn(&mut Book, &mut Dice);

const BOOK_DAMAGES: &[BookDamage] = &[
    |book, dice| {
        book.clock = dice.pick(&[0, 1, LATEST_CLOCK, LATEST_CLOCK + 1, 1 << 31, u32::MAX]);
    },
    |book, dice| book.dwell = dice.pick(&TOO_LONG_DWELLS),
    |book, dice| book.dwell = some_dwell(dice),
    |book, dice| {
        book.slots[dice.below(SLOTS)].start = dice.pick(&[0, 5, 30, 1023, 1024, 65_535]);
    },
    |book, dice| {
        book.slots[dice.below(SLOTS)].goal = dice.pick(&[0, 5, 30, 1023, 1024, 65_535]);
    },
    |book, dice| {
        book.slots[dice.below(SLOTS)].distance = dice.pick(&[0, 1, 2, 3, 1023, 1024, 65_535]);
    },
    |book, dice| {
        let tick = dice.pick(&[0, 1, 200, LATEST_TICK, LATEST_TICK + 1, u32::MAX]);
        book.slots[dice.below(SLOTS)].tick = tick;
    },
    |book, dice| book.slots[dice.below(SLOTS)] = Slot::FREE,
    |book, dice| {
        // One carrier in two slots.
        book.slots[dice.below(SLOTS)] = book.slots[dice.below(SLOTS)];
    },
    |book, dice| {
        let place = dice.below(SLOTS);
        let Slot { start, goal, .. } = book.slots[place];
        book.slots[place].start = goal;
        book.slots[place].goal = start;
    },
];

/// Calls that follow the clock of the book, as long as that has one.
fn with_calls(dice: &mut Dice, hall: &Hall, moves_of: &Hall, book: Book) -> Case {
    let told_each = dice.once_in(2);
    let most = dice.pick(&[1, 3, 12]);
    let mut day = Day::new(hall, book);
    for _ in 0..dice.between(1, most) {
        let pace = dice.pick(&[Pace::Mixed, Pace::Creeping, Pace::Leaving, Pace::Striding(500)]);
        let mut now = day.next(dice, pace);
        if dice.once_in(30) {
            now = dice.pick(&[0, LATEST_CLOCK, LATEST_CLOCK + 1, u32::MAX]);
        }
        let asked = some_move(dice, moves_of);
        let _ = day.call(now, asked);
    }
    varied(dice, if told_each { day.told_each() } else { day.told_last() })
}

/// The same answers: any number but 0 asks for the book after every call, and a
/// call that is made again changes nothing.
fn varied(dice: &mut Dice, case: Case) -> Case {
    match case {
        Case::Admit { each: 0, asked, .. } => {
            Case::Admit { each: 0, again: dice.pick(&[0, 0, 1, 3]), asked }
        }
        Case::Admit { asked, .. } => {
            let each = dice.pick(&[1, 1, 2, 256, 65_535]);
            Case::Admit { each, again: dice.pick(&[0, 0, 1, 3]), asked }
        }
        other => other,
    }
}

fn random_case(dice: &mut Dice, turn: usize) -> Case {
    if turn % 6 == 5 {
        return after_a_change(dice);
    }
    let most_nodes = dice.pick(&[6, 12, 40]);
    let nodes = dice.between(1, most_nodes);
    let hall = any_hall(dice, nodes);
    let dwell = if dice.once_in(3) { 0 } else { some_dwell(dice) };
    let mut book = match turn % 5 {
        0 => Book::empty(dwell),
        1 => book_of_a_day(dice, &hall, dwell),
        4 if dice.once_in(3) => wild_book(dice, dwell),
        _ => sound_book(dice, &hall, dwell),
    };
    if turn % 5 >= 3 {
        for _ in 0..dice.pick(&[1, 1, 2, 4]) {
            dice.pick(BOOK_DAMAGES)(&mut book, dice);
        }
    }
    let mut spoiled = hall.clone();
    if dice.once_in(8) {
        damaged_hall(dice, &mut spoiled);
    }
    with_calls(dice, &spoiled, &hall, book)
}

/// As many as asked for.
pub fn random_books(dice: &mut Dice, count: usize) -> Vec<Case> {
    (0..count).map(|turn| random_case(dice, turn)).collect()
}
