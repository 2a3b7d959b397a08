// The order of checks of an admission (rule 8.31): every fault that one can be
// refused for, in several forms, each by itself and beside each other one. A fault
// may undo one that was put before it, so both orders are tried. Nothing here says
// which refusal comes out.

use crate::batch::Case;
use crate::book::{Admissions, Call, Slot, LATEST_CLOCK, LATEST_TICK};
use crate::book_make::{among, call, carrier};
use crate::halls::grid;

pub type Fault = fn(&mut Admissions);

fn asked(admissions: &mut Admissions) -> &mut Call {
    &mut admissions.calls[0]
}

/// Damaged books.
pub const BOOK_FAULTS: &[Fault] = &[
    |case| case.book.clock = LATEST_CLOCK + 1,
    |case| case.book.dwell = 256,
    |case| case.book.slots[40].start = 1024,
    |case| case.book.slots[3] = Slot { goal: 4, ..Slot::FREE },
    |case| case.book.slots[62].distance = 0,
    |case| case.book.slots[0].tick = LATEST_TICK + 1,
];

pub const CLOCK_FAULTS: &[Fault] = &[
    |case| asked(case).now = case.book.clock.saturating_sub(1),
    |case| asked(case).now = LATEST_CLOCK + 1,
    |case| asked(case).now = u32::MAX,
];

/// Refusals 2, 3 and 12 of the network.
pub const HALL_FAULTS: &[Fault] = &[
    |case| case.hall.nodes = 0,
    |case| case.hall.nodes = 1025,
    |case| case.hall.nodes += 65_536,
    |case| case.hall.lane_numbers.push(0),
    |case| case.hall.lane_numbers.resize(8194, 7),
    |case| case.hall.closed = (0..1025).collect(),
    |case| case.hall.lane_numbers.swap(0, 1),
    |case| case.hall.lane_numbers[9] = 14,
    |case| case.hall.lane_numbers.extend([12, 13]),
    |case| case.hall.closed.push(14),
    |case| case.hall.closed.insert(0, 5),
    |case| case.hall.closed.push(4),
];

/// Refusals 4, 13, 8 and 5 of the move. Node 5 is closed, and 12 and 13 have a lane
/// of their own.
pub const MOVE_FAULTS: &[Fault] = &[
    |case| asked(case).asked.start = 14,
    |case| asked(case).asked.goal = 65_535,
    |case| asked(case).asked.start = 5,
    |case| asked(case).asked.goal = 5,
    |case| asked(case).asked.start = 12,
    |case| asked(case).asked.goal = 13,
    |case| asked(case).asked.goal = asked(case).asked.start,
];

/// Refusal 17, for several reasons.
pub const SLOT_FAULTS: &[Fault] = &[
    |case| case.book.slots[0] = Slot { start: 5, goal: 6, distance: 1, tick: 900 },
    |case| case.book.slots[33] = Slot { start: 7, goal: 1000, distance: 9, tick: 900 },
    |case| case.book.slots[63] = Slot { start: 0, goal: 12, distance: 9, tick: 900 },
    |case| case.book.slots[20] = Slot { start: 0, goal: 3, distance: 4, tick: 900 },
];

/// Refusal 15, which is no fault of a question.
pub const FULL_FAULTS: &[Fault] = &[
    |case| {
        let held = case.book.slots[1];
        case.book.slots.iter_mut().filter(|slot| slot.is_free()).for_each(|slot| *slot = held);
    },
    // All slots but the last, whose carrier is past: no fault.
    |case| {
        case.book.slots = [case.book.slots[1]; 64];
        case.book.slots[63].tick = 1;
    },
];

/// Three rows of four nodes and two nodes apart, a book with carriers in half of
/// its slots, and one call.
pub fn sound() -> Admissions {
    let mut hall = grid(12, 4);
    hall.nodes = 14;
    hall.lane_numbers.extend([12, 13]);
    hall.closed = vec![5];
    let held = carrier(&hall, 0, 3, 800);
    let mut book = among(2, 4, 0, held, &[held, carrier(&hall, 12, 13, 700)]);
    book.clock = 500;
    Admissions { hall, book, calls: vec![call(500, 8, 2)] }
}

pub fn all_faults() -> Vec<Fault> {
    [BOOK_FAULTS, CLOCK_FAULTS, HALL_FAULTS, MOVE_FAULTS, SLOT_FAULTS, FULL_FAULTS].concat()
}

fn case_of(asked: Admissions) -> Case {
    Case::Admit { each: 0, again: 0, asked: Box::new(asked) }
}

/// Each fault by itself, any two in both orders, and all of one section and those
/// behind it at once.
pub fn check_cases() -> Vec<Case> {
    let faults = all_faults();
    let mut cases = Vec::new();
    for (number, one) in faults.iter().enumerate() {
        for (other_number, other) in faults.iter().enumerate() {
            let mut both = sound();
            one(&mut both);
            if number != other_number {
                other(&mut both);
            }
            cases.push(case_of(both));
        }
        let mut all_behind = sound();
        faults[number..].iter().rev().for_each(|fault| fault(&mut all_behind));
        cases.push(case_of(all_behind));
    }
    cases.push(case_of(sound()));
    cases
}
