// The floor book by hand: the job of rule 7.14 admitted one after the other, when a
// carrier is forgotten, the slot that it leaves, the 65th carrier, damaged books,
// halls that have changed, and the order of checks. Then the book that forgets
// nothing against one that forgets, on random days and on books as they are lent.

use crate::answers::printed_to;
use crate::batch::Case;
use crate::book::{Book, Call, Slot, LATEST_CLOCK, LATEST_TICK, SLOTS};
use crate::book_make::{call, carrier, told_each, told_last};
use crate::book_random::random_books;
use crate::book_small::joined_shapes;
use crate::coding::cases_of;
use crate::dice::Dice;
use crate::forgetful;
use crate::halls::line;
use crate::job::{refuse, Hall, Refusal};
use crate::ledger::{Admitted, Ledger};
use crate::page;
use crate::selftest::Checks;

type Answers = Vec<Result<Admitted, Refusal>>;

fn answers(hall: &Hall, book: &Book, calls: &[Call]) -> Answers {
    let mut ledger = Ledger::of(hall, book);
    calls.iter().map(|&call| ledger.admit(call)).collect()
}

/// The moves of rule 7.14 at now 0 get the ticks of its plan, with a dwell too.
fn the_job_of_the_rules(checks: &mut Checks) {
    let calls = [call(0, 0, 4), call(0, 4, 0), call(0, 2, 1)];
    for (dwell, ticks) in [(0, [0, 5, 3]), (2, [0, 7, 5])] {
        let wanted = vec![Ok((ticks[0], 0)), Ok((ticks[1], 1)), Ok((ticks[2], 2))];
        let found = answers(&line(5), &Book::empty(dwell), &calls);
        checks.same("the job of rule 7.14", found, wanted);
    }
    let told = "STARTS 0 0\nSTARTS 5 1\nSTARTS 3 2\n\
        book 3x0 2x4 1x0 1x4 1x0 1x4 1x5 1x2 2x1 1x3 244x0\n";
    let case = told_last(&line(5), &Book::empty(0), calls.to_vec());
    checks.same("told at the end", printed_to(&case).as_str(), told);
    let told = "STARTS 7 0\nbook 1x7 1x2 1x1 1x0 1x1 1x7 252x0\n\
        REFUSED 14 0\nbook 1x7 1x2 1x1 1x0 1x1 1x7 252x0\n";
    let case = told_each(&line(5), &Book::empty(2), vec![call(7, 1, 0), call(6, 1, 0)]);
    checks.same("told each time", printed_to(&case).as_str(), told);
}

/// Carrier 0 is on the floor from 0 to 4 and, with a dwell of 2, to 6. At its last
/// tick it keeps its slot, and one tick later the next one has it.
fn forgetting(checks: &mut Checks) {
    for (dwell, last) in [(0, 4), (2, 6)] {
        let calls = [call(0, 0, 4), call(last, 4, 3), call(last + 1, 4, 3)];
        let wanted = vec![
            Ok((0, 0)),
            // The first stands on node 4 until its last tick.
            Ok((last + 1, 1)),
            Ok((last + 2 + dwell, 0)),
        ];
        checks.same("forgetting", answers(&line(5), &Book::empty(dwell), &calls), wanted);
        let calls = [call(0, 0, 4), call(last + 1, 4, 3)];
        let wanted = vec![Ok((0, 0)), Ok((last + 1, 0))];
        checks.same("all are gone", answers(&line(5), &Book::empty(dwell), &calls), wanted);
    }
}

/// A train of 64 at clock 0 leaves no slot. The first one's last tick is 4.
fn the_65th(checks: &mut Checks) {
    let mut calls = vec![call(0, 0, 4); SLOTS];
    calls.extend([call(0, 0, 4), call(4, 0, 4), call(5, 0, 4), call(5, 0, 4), call(7, 0, 4)]);
    let found = answers(&line(5), &Book::empty(0), &calls);
    let train: Answers = (0..SLOTS).map(|place| Ok((place as u32, place))).collect();
    checks.same("64 carriers", &found[..SLOTS], &train[..]);
    let wanted = [refuse(15, 0), refuse(15, 0), Ok((64, 0)), refuse(15, 0), Ok((65, 1))];
    checks.same("the 65th", &found[SLOTS..], &wanted[..]);
}

/// Books with one carrier in slot 9, its last tick 14 with a dwell of 2, and what
/// is refused at each clock value.
fn damaged_and_stale(checks: &mut Checks) {
    let sound = carrier(&line(5), 0, 4, 8);
    for (slot, now, wanted) in [
        (sound, 14, Ok((15, 0))),
        (Slot { distance: 3, ..sound }, 13, refuse(17, 9)),
        (Slot { distance: 3, ..sound }, 14, Ok((14, 0))),
        (Slot { distance: 5, ..sound }, 15, refuse(17, 9)),
        (Slot { goal: 5, ..sound }, 14, refuse(17, 9)),
        (Slot { goal: 5, ..sound }, 15, Ok((15, 0))),
        (Slot { start: 1023, ..sound }, 14, refuse(17, 9)),
        (Slot { start: 1024, ..sound }, 15, refuse(16, 0)),
        (Slot { goal: 0, ..sound }, 15, refuse(16, 0)),
        (Slot { distance: 0, ..sound }, 15, refuse(16, 0)),
        (Slot { distance: 1024, ..sound }, 15, refuse(16, 0)),
        (Slot { tick: LATEST_TICK, ..sound }, 15, Ok((15, 0))),
        (Slot { tick: LATEST_TICK + 1, ..sound }, 15, refuse(16, 0)),
        (Slot { start: 1, ..Slot::FREE }, 15, refuse(16, 0)),
        (Slot { tick: 1, ..Slot::FREE }, 15, refuse(16, 0)),
        (Slot::FREE, 15, Ok((15, 0))),
    ] {
        let mut book = Book { clock: 13, ..Book::empty(2) };
        book.slots[9] = slot;
        let found = answers(&line(5), &book, &[call(now, 4, 0)]);
        checks.same(&format!("{:?} at {}", slot, now), found, vec![wanted]);
        // 16 comes before 14, and 14 before all others.
        let found = answers(&page::hall(0, &[]), &book, &[call(12, 4, 0)]);
        let first = if book.is_damaged() { 16 } else { 14 };
        checks.same("the clock goes back", found, vec![refuse(first, 0)]);
    }
    for (clock, dwell, now, wanted) in [
        (LATEST_CLOCK, 255, LATEST_CLOCK, Ok((LATEST_CLOCK, 0))),
        (LATEST_CLOCK, 255, LATEST_CLOCK + 1, refuse(14, 0)),
        (LATEST_CLOCK + 1, 255, LATEST_CLOCK + 1, refuse(16, 0)),
        (0, 256, 0, refuse(16, 0)),
        (0, u32::MAX, u32::MAX, refuse(16, 0)),
    ] {
        let book = Book { clock, ..Book::empty(dwell) };
        let found = answers(&line(5), &book, &[call(now, 4, 0)]);
        checks.same("clock and dwell", found, vec![wanted]);
    }
}

/// A full book: 15 comes behind all other refusals.
fn full_book(checks: &mut Checks) {
    let held = carrier(&line(5), 0, 4, 8);
    let full = Book { clock: 3, dwell: 0, slots: [held; SLOTS] };
    let mut stale = full.clone();
    stale.slots[60].distance = 3;
    for (book, now, start, wanted) in [
        (&full, 12, 4, refuse(15, 0)),
        (&full, 13, 4, Ok((13, 0))),
        (&full, 12, 5, refuse(4, 0)),
        (&full, 12, 0, refuse(5, 0)),
        (&stale, 11, 4, refuse(17, 60)),
        (&stale, 12, 4, Ok((13, 60))),
        (&stale, 11, 5, refuse(4, 0)),
    ] {
        let found = answers(&line(5), book, &[call(now, start, 0)]);
        checks.same("a full book", found, vec![wanted]);
    }
}

/// Books as they are made by dice, and each shape of five nodes with calls by dice:
/// both books give the same answers, and are told alike after each call.
fn forgetful_and_not(checks: &mut Checks) {
    let mut dice = Dice::new(3);
    let mut cases = random_books(&mut dice, 700);
    for hall in joined_shapes(5) {
        for dwell in [0, 1, 3] {
            let mut now = 0;
            let mut calls = Vec::new();
            for _ in 0..90 {
                now += dice.pick(&[0, 0, 1, 2, 5]);
                let start = dice.below(5) as u16;
                calls.push(call(now, start, (start + dice.between(1, 4) as u16) % 5));
            }
            cases.push(told_last(&hall, &Book::empty(dwell), calls));
        }
    }
    let (mut accepted, mut refused, mut differing) = (0, 0, 0);
    for case in &cases {
        if let Case::Admit { asked, .. } = case {
            let mut book = asked.book.clone();
            let mut ledger = Ledger::of(&asked.hall, &book);
            for &call in &asked.calls {
                let found = ledger.admit(call);
                accepted += usize::from(found.is_ok());
                refused += usize::from(found.is_err());
                let other = forgetful::admit(&asked.hall, &mut book, call);
                differing += usize::from(other != found || ledger.told() != book);
            }
        }
    }
    checks.same("forgetful and not", differing, 0);
    checks.same("there are some of each", accepted > 5000 && refused > 1000, true);
}

/// A payload by hand, there and back, and what breaks the format.
fn coding(checks: &mut Checks) {
    let mut book = Book { clock: 258, ..Book::empty(3) };
    book.slots[1] = Slot { start: 1, goal: 2, distance: 772, tick: 65_536 };
    let case = told_each(&page::hall(2, &[0, 1]), &book, vec![call(65_537, 1, 0)]);
    let front = [1, 0, 1, 0, 0, 0, 0, 0, 0, 0, 0, 0];
    let network = [2, 0, 0, 0, 2, 0, 0, 0, 1, 0, 0, 0, 0, 0, 0, 0, 0, 0, 0, 0];
    let head = [2, 1, 0, 0, 3, 0, 0, 0];
    let slots = [&[0; 10][..], &[1, 0, 2, 0, 4, 3, 0, 0, 1, 0], &[0; 620]].concat();
    let payload = [&front[..], &network, &head, &slots, &[1, 0, 1, 0, 1, 0, 0, 0]].concat();
    checks.same("payload, a book", case.payload(), payload);
    let mut file = Vec::new();
    case.put(&mut file);
    let back = cases_of(&file).map(|cases| cases.iter().map(printed_to).collect::<String>());
    checks.same("a book, there and back", back, Ok(printed_to(&case)));
    let mut none = told_each(&page::hall(2, &[0, 1]), &book, Vec::new());
    let mut file = Vec::new();
    none.put(&mut file);
    checks.same("a book without a call", cases_of(&file).is_ok(), false);
    if let Case::Admit { again, asked, .. } = &mut none {
        *again = 3;
        asked.calls.push(call(65_537, 1, 0));
    }
    checks.same("made again", printed_to(&none), printed_to(&case));
}

pub fn run(checks: &mut Checks) {
    the_job_of_the_rules(checks);
    forgetting(checks);
    the_65th(checks);
    damaged_and_stale(checks);
    full_book(checks);
    coding(checks);
    forgetful_and_not(checks);
}
