// Where a trolley is refused: each fault of a move at each of the 64 places, with
// and without moves behind it; and the order of checks, with every fault of an
// admission by itself and beside each other one, at the first move or, if it is the
// move's own, also at the second. Faults that come with the book, the clock value
// and the network are met by the first move, and an empty trolley meets none.

use crate::batch::Case;
use crate::book::{Admissions, Slot, SLOTS};
use crate::book_checks::{all_faults, sound, Fault, MOVE_FAULTS};
use crate::book_make::{among, carrier};
use crate::job::Move;
use crate::trolley_make::{odd, one_by_one, step, told_each, told_last, trolley};

const DWELLS: [u32; 4] = [0, 1, 3, 255];

/// Moves in the hall of the order of checks: three rows of four nodes of which
/// node 5 is closed, and a lane apart from them.
fn sound_moves(count: usize, turn: usize) -> Vec<Move> {
    let ends = [step(8, 2), step(8, 2), step(0, 11), step(12, 13), step(3, 8), step(4, 6)];
    (0..count).map(|number| ends[(number + turn) % ends.len()]).collect()
}

/// A move with each fault of its own.
fn faulty_moves() -> Vec<Move> {
    let faulty = |fault: &Fault| {
        let mut case = sound();
        fault(&mut case);
        case.calls[0].asked
    };
    MOVE_FAULTS.iter().map(faulty).collect()
}

/// Each faulty move at each place, with one carrier on the floor or none, so that at
/// the last place a slot is left or not, and one who is past and stays in the book if
/// the first move is refused. By turns nothing comes behind it, one good move, one
/// that is faulty too, or as many as there may be.
fn every_place() -> Vec<Case> {
    let mut cases = Vec::new();
    let faulty = faulty_moves();
    for place in 0..SLOTS {
        for (number, &bad) in faulty.iter().enumerate() {
            let turn = place + number;
            let Admissions { hall, .. } = sound();
            let dwell = DWELLS[turn % DWELLS.len()];
            let held = [Slot::FREE, carrier(&hall, 0, 3, 800)][number % 2];
            let mut book = among(0, dwell, 5 * number, held, &[]);
            book.clock = 500;
            book.slots[63] = carrier(&hall, 1, 2, 3);
            let mut moves = sound_moves(place, turn);
            moves.push(bad);
            match turn % 4 {
                0 => {}
                1 => moves.extend(sound_moves(1, turn)),
                2 => moves.push(faulty[(number + 1 + place) % faulty.len()]),
                _ => moves.extend(sound_moves(SLOTS, turn)),
            }
            moves.truncate(SLOTS);
            let arrivals = vec![trolley(500, &moves), one_by_one(500, &sound_moves(1, turn))];
            cases.push(told_last(&hall, &book, arrivals));
        }
    }
    cases
}

/// The call of a case with so many moves behind it.
fn with_more(case: &Admissions, count: usize) -> Vec<Move> {
    let mut moves = vec![case.calls[0].asked];
    moves.extend(sound_moves(count, 0));
    moves
}

/// Each fault with lists of several lengths, none and one number among them.
fn each_alone() -> Vec<Case> {
    let mut cases = Vec::new();
    for fault in all_faults() {
        let mut case = sound();
        fault(&mut case);
        let now = case.calls[0].now;
        let empty = trolley(now, &[]);
        let mut arrivals = vec![empty.clone(), odd(empty, 14), trolley(now, &with_more(&case, 0))];
        arrivals.push(odd(trolley(now, &with_more(&case, 1)), 5));
        arrivals.push(trolley(now, &with_more(&case, 63)));
        arrivals.push(trolley(now, &with_more(&case, 64)));
        cases.push(told_each(&case.hall, &case.book, arrivals));
    }
    cases
}

/// Any two faults in both orders, and each with all behind it.
fn together() -> Vec<Case> {
    let faults = all_faults();
    let mut cases = Vec::new();
    let mut put = |case: Admissions| {
        let arrivals = vec![trolley(case.calls[0].now, &with_more(&case, 1))];
        cases.push(told_last(&case.hall, &case.book, arrivals));
    };
    for (number, one) in faults.iter().enumerate() {
        for (_, other) in faults.iter().enumerate().filter(|(place, _)| *place != number) {
            let mut both = sound();
            one(&mut both);
            other(&mut both);
            put(both);
        }
        let mut all_behind = sound();
        faults[number..].iter().rev().for_each(|fault| fault(&mut all_behind));
        put(all_behind);
    }
    cases
}

/// A fault of any sort, and a move's own at the second move.
fn behind_a_good_move() -> Vec<Case> {
    let mut cases = Vec::new();
    for (number, fault) in all_faults().iter().enumerate() {
        for &bad in &faulty_moves() {
            let mut case = sound();
            // One more is past, and is forgotten only if the first move is admitted.
            case.book.slots[number] = Slot { tick: 4, ..carrier(&case.hall, 8, 2, 0) };
            fault(&mut case);
            let moves = [case.calls[0].asked, bad, step(8, 2)];
            let arrivals = vec![trolley(case.calls[0].now, &moves)];
            cases.push(told_last(&case.hall, &case.book, arrivals));
        }
    }
    cases
}

pub fn check_cases() -> Vec<Case> {
    let mut cases = every_place();
    cases.extend(each_alone());
    cases.extend(together());
    cases.extend(behind_a_good_move());
    cases
}
