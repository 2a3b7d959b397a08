// Networks that change under a book: a carrier that no longer fits the hall, in
// every slot and for every reason, while it is on the floor, at its last tick and
// when it is past; several such carriers at once, of which the lowest slot is told;
// and books of true days that are lent with another hall afterwards.

use crate::batch::Case;
use crate::book::{Book, Call, Slot, SLOTS};
use crate::book_make::{all_moves, among, call, carrier, told_each, told_last, Day, Pace};
use crate::closing::with_closed;
use crate::damage_numbers::HALL_DAMAGES;
use crate::dice::Dice;
use crate::dwelling::some_dwell;
use crate::halls::{any_hall, grid};
use crate::job::Hall;

pub const CLOCK: u32 = 50;

/// Three rows of four nodes of which node 5 is closed, and two nodes more that
/// have a lane of their own.
pub fn hall() -> Hall {
    let mut hall = grid(12, 4);
    hall.nodes = 14;
    hall.lane_numbers.extend([12, 13]);
    hall.closed = vec![5];
    hall
}

fn slot(start: u16, goal: u16, distance: u16) -> Slot {
    Slot { start, goal, distance, tick: CLOCK }
}

/// Carriers that do not fit the hall, each for one reason: its start or its goal
/// is no node or closed, no walk joins them, or they are farther from each other
/// or nearer.
pub fn misfits() -> Vec<Slot> {
    vec![
        slot(14, 3, 4),
        slot(1023, 0, 1023),
        slot(5, 7, 2),
        slot(3, 14, 4),
        slot(0, 1000, 9),
        slot(7, 5, 2),
        slot(2, 13, 6),
        slot(12, 11, 1),
        // Truly 4 lanes each, round the closed node; then truly 3 each.
        slot(1, 9, 2),
        slot(4, 6, 3),
        slot(0, 3, 4),
        slot(8, 11, 1023),
    ]
}

/// Carriers that fit the hall, one that is past and no node of it any more, and
/// one that is past and has a closed goal.
pub fn others() -> Vec<Slot> {
    let hall = hall();
    let past = |misfit: Slot| Slot { distance: 3, tick: 1, ..misfit };
    vec![
        carrier(&hall, 0, 3, 900),
        past(slot(600, 601, 3)),
        carrier(&hall, 12, 13, 1100),
        past(slot(0, 5, 3)),
        carrier(&hall, 4, 6, CLOCK + 300),
    ]
}

/// The clock, the last tick of a carrier, and the tick after it.
fn three_times(slot: &Slot, dwell: u32) -> Vec<Call> {
    let last = slot.last_tick(dwell) as u32;
    [CLOCK, last, last + 1].map(|now| call(now, 8, 2)).to_vec()
}

/// Every misfit in every slot.
fn every_slot() -> Vec<Case> {
    let (hall, others) = (hall(), others());
    let mut cases = Vec::new();
    for place in 0..SLOTS {
        for (number, misfit) in misfits().iter().enumerate() {
            let dwell = [0, 1, 5, 30][(place + number) % 4];
            let mut book = among(place / 4 + number, dwell, place, *misfit, &others);
            book.clock = CLOCK;
            cases.push(told_last(&hall, &book, three_times(misfit, dwell)));
        }
    }
    cases
}

/// Misfits in several slots from each slot on; the clock goes on until all of
/// them are past, one after the other.
fn several(dice: &mut Dice) -> Vec<Case> {
    let (hall, others) = (hall(), others());
    let mut cases = Vec::new();
    for place in 0..SLOTS {
        let dwell = dice.pick(&[0, 2, 10]);
        let mut book = among(place, dwell, place, dice.pick(&misfits()), &others);
        book.clock = CLOCK;
        for later in book.slots[place..].iter_mut() {
            if dice.once_in(4) {
                *later = Slot { tick: CLOCK + dice.below(9) as u32, ..dice.pick(&misfits()) };
            }
        }
        let nows = [0, 1, 3, 5, 8, 11, 14, 20, 1040, 1050].map(|later| CLOCK + dwell + later);
        cases.push(told_last(&hall, &book, nows.map(|now| call(now, 8, 2)).to_vec()));
    }
    cases
}

/// The book of a day in a hall, of up to 80 calls.
pub fn book_of_a_day(dice: &mut Dice, hall: &Hall, dwell: u32) -> Book {
    let moves = all_moves(hall);
    let mut day = Day::new(hall, Book::empty(dwell));
    if moves.is_empty() {
        return day.book();
    }
    let calls = dice.pick(&[1, 3, 10, 30, 80]);
    let pace = dice.pick(&[Pace::Still, Pace::Creeping, Pace::Mixed, Pace::Leaving]);
    for _ in 0..calls {
        let now = day.next(dice, pace);
        let _ = day.call(now, dice.pick(&moves));
    }
    day.book()
}

/// The hall after a night: with other closed nodes, other lanes, or more nodes.
fn changed(dice: &mut Dice, hall: &Hall) -> Hall {
    let mut changed = hall.clone();
    match dice.below(4) {
        0 => {
            let count = dice.between(0, hall.nodes as usize / 3);
            changed = with_closed(dice, changed, count);
        }
        1 => changed.closed.clear(),
        2 => {
            let lanes = hall.lanes().into_iter().filter(|_| !dice.once_in(6));
            changed.lane_numbers = lanes.flat_map(|(first, second)| [first, second]).collect();
        }
        _ => dice.pick(HALL_DAMAGES)(&mut changed, dice),
    }
    changed
}

/// A book of a true day, with the hall as it was or changed, and calls until all
/// are gone.
pub fn after_a_change(dice: &mut Dice) -> Case {
    let nodes = dice.between(2, 30);
    let hall = any_hall(dice, nodes);
    let dwell = if dice.once_in(2) { 0 } else { some_dwell(dice) };
    let book = book_of_a_day(dice, &hall, dwell);
    let changed = changed(dice, &hall);
    let moves = all_moves(&hall);
    let mut day = Day::new(&changed, book);
    for _ in 0..dice.between(1, 12) {
        let asked = match moves.len() {
            0 => call(0, 0, 1).asked,
            _ => dice.pick(&moves),
        };
        let pace = dice.pick(&[Pace::Still, Pace::Leaving, Pace::Leaving, Pace::Striding(300)]);
        let now = day.next(dice, pace);
        let _ = day.call(now, asked);
    }
    day.told_each()
}

/// The same book at its last tick and one tick past it, whatever the hall.
fn at_the_edge() -> Vec<Case> {
    let (hall, others) = (hall(), others());
    let mut cases = Vec::new();
    for misfit in misfits() {
        for dwell in [0, 255] {
            let mut book = among(1, dwell, 17, misfit, &others);
            let last = misfit.last_tick(dwell) as u32;
            for clock in [last - 1, last, last + 1] {
                book.clock = clock;
                let calls = vec![call(clock, 8, 2), call(last, 8, 2), call(last + 1, 8, 2)];
                cases.push(told_each(&hall, &book, calls));
            }
        }
    }
    cases
}

pub fn stale_cases(dice: &mut Dice) -> Vec<Case> {
    let mut cases = every_slot();
    cases.extend(several(dice));
    cases.extend(at_the_edge());
    cases.extend((0..150).map(|_| after_a_change(dice)));
    cases
}
