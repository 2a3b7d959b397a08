// Whether a move may go, by hand: against one carrier and two on a line, with and
// without a dwell, the exception, which of several slots is told, who has left, a full
// book, the order of checks, and the payload. Then questions against admissions to the
// same books: one at now t gets the tick t exactly if the move may go at t, and whatever
// tick it gets is the first from now on at which the move may go.

use crate::answers::printed_to;
use crate::asking::Asking;
use crate::asking_days::day_cases;
use crate::asking_make::{at_ticks, told_each, told_last};
use crate::asking_random::random_questions;
use crate::batch::Case;
use crate::book::{Book, Call, Slot, LATEST_CLOCK, SLOTS};
use crate::book_make::{call, carrier};
use crate::dice::Dice;
use crate::halls::{complete, line};
use crate::job::{refuse, Hall, Refusal};
use crate::ledger::Ledger;
use crate::page;
use crate::selftest::Checks;

fn book_of(hall: &Hall, dwell: u32, carriers: &[(usize, u16, u16, u32)]) -> Book {
    let mut book = Book::empty(dwell);
    for &(place, start, goal, tick) in carriers {
        book.slots[place] = carrier(hall, start, goal, tick);
    }
    book
}

/// At which of the ticks 0 to 19 each slot is the lowest that forbids a move.
fn forbidden(hall: &Hall, book: &Book, start: u16, goal: u16) -> Vec<(usize, u32)> {
    let mut asking = Asking::of(hall, book);
    let mut lowest = |now| asking.ask(call(now, start, goal)).ok()?.first().copied();
    (0..20).filter_map(|now| lowest(now).map(|slot| (slot, now))).collect()
}

fn each(slot: usize, ticks: std::ops::RangeInclusive<u32>) -> Vec<(usize, u32)> {
    ticks.map(|tick| (slot, tick)).collect()
}

/// The moves of rule 7.14: one from 0 to 4 forbids the way back while it is on the
/// floor, a second one behind it for the dwell, and the move from 2 to 1 for three
/// ticks; the one on the way back, from tick 5 on, when it is on node 2.
fn on_a_line(checks: &mut Checks) {
    let hall = line(5);
    let one = |dwell| book_of(&hall, dwell, &[(0, 0, 4, 0)]);
    checks.same("the way back", forbidden(&hall, &one(0), 4, 0), each(0, 0..=4));
    checks.same("the way back, a dwell", forbidden(&hall, &one(2), 4, 0), each(0, 0..=6));
    checks.same("one behind", forbidden(&hall, &one(0), 0, 4), each(0, 0..=0));
    checks.same("one behind, a dwell", forbidden(&hall, &one(2), 0, 4), each(0, 0..=2));
    let later = |dwell| book_of(&hall, dwell, &[(9, 0, 4, 8)]);
    checks.same("before it", forbidden(&hall, &later(0), 4, 0), each(9, 4..=12));
    checks.same("before it, a dwell", forbidden(&hall, &later(2), 4, 0), each(9, 2..=14));
    let both = book_of(&hall, 0, &[(0, 0, 4, 0), (1, 4, 0, 5)]);
    let wanted = [each(0, 0..=2), each(1, 7..=7)].concat();
    checks.same("both of the job", forbidden(&hall, &both, 2, 1), wanted);
    let apart = book_of(&page::hall(4, &[0, 1, 2, 3]), 3, &[(2, 0, 1, 6)]);
    checks.same("no walk", forbidden(&page::hall(4, &[0, 1, 2, 3]), &apart, 2, 3), Vec::new());
    checks.same("nobody", forbidden(&hall, &Book::empty(255), 4, 0), Vec::new());
}

/// Two along lanes of four nodes that are all joined: without a dwell the one tick that
/// the stretch has is excepted.
fn exception(checks: &mut Checks) {
    let hall = complete(4);
    for (dwell, wanted) in [(0, Vec::new()), (1, each(7, 9..=11))] {
        let book = book_of(&hall, dwell, &[(7, 0, 1, 10)]);
        checks.same("the exception", forbidden(&hall, &book, 2, 3), wanted);
    }
}

/// Two that forbid ticks together, in either order of their slots. The first has left
/// after tick 4.
fn several(checks: &mut Checks) {
    let hall = line(5);
    for (first, second, wanted) in
        [(5, 3, each(3, 0..=6)), (3, 5, [each(3, 0..=4), each(5, 5..=6)].concat())]
    {
        let book = book_of(&hall, 0, &[(first, 0, 4, 0), (second, 0, 4, 2)]);
        checks.same("the lowest", forbidden(&hall, &book, 4, 0), wanted);
        let all = Asking::of(&hall, &book).ask(call(2, 4, 0));
        checks.same("all of them", all, Ok(vec![3, 5]));
    }
}

/// One that does not fit the hall is judged up to its last tick, 13; 64 on the floor
/// are no reason to refuse; and each check comes before those behind it.
fn refusals(checks: &mut Checks) {
    let hall = line(5);
    let mut stale = Book { clock: 10, ..book_of(&hall, 2, &[(9, 0, 4, 8)]) };
    stale.slots[9].distance = 3;
    let full = Book { clock: 3, slots: [carrier(&hall, 0, 4, 8); SLOTS], ..Book::empty(0) };
    let mut damaged = full.clone();
    damaged.slots[63].distance = 0;
    let no_hall = page::hall(0, &[]);
    let none = Ok(Vec::new());
    let all: Vec<usize> = (0..SLOTS).collect();
    for (hall, book, question, wanted) in [
        (&hall, &stale, call(13, 4, 0), refuse(17, 9)),
        (&hall, &stale, call(14, 4, 0), none.clone()),
        (&hall, &stale, call(13, 4, 4), refuse(5, 0)),
        (&hall, &stale, call(9, 4, 4), refuse(14, 0)),
        (&hall, &full, call(3, 4, 0), none.clone()),
        (&hall, &full, call(4, 4, 0), Ok(all)),
        (&hall, &full, call(13, 4, 0), none.clone()),
        (&hall, &full, call(LATEST_CLOCK, 4, 0), none),
        (&hall, &full, call(LATEST_CLOCK + 1, 4, 0), refuse(14, 0)),
        (&no_hall, &full, call(2, 4, 0), refuse(14, 0)),
        (&no_hall, &full, call(3, 4, 0), refuse(2, 0)),
        (&hall, &full, call(3, 4, 5), refuse(4, 0)),
        (&no_hall, &damaged, call(2, 4, 0), refuse(16, 0)),
    ] {
        let found = Asking::of(hall, book).ask(question);
        checks.same(&format!("{:?}", question), found, wanted);
    }
}

/// What is printed, and the bytes of the questions, which come back as they were.
fn coding(checks: &mut Checks) {
    let hall = line(5);
    let book = book_of(&hall, 0, &[(0, 0, 4, 0)]);
    let questions = vec![call(0, 4, 0), call(65_541, 4, 0), call(5, 2, 2)];
    let told = "book 3x0 2x4 253x0\n";
    let case = told_last(&hall, &book, questions.clone());
    let wanted = format!("FORBIDS 0\nMAY\nREFUSED 5 0\n{}", told);
    checks.same("told at the end", printed_to(&case), wanted);
    let mut case = told_each(&hall, &book, questions);
    let wanted = format!("FORBIDS 0\n{0}MAY\n{0}REFUSED 5 0\n{0}", told);
    checks.same("told each time", printed_to(&case), wanted.clone());
    if let Case::Ask { again, .. } = &mut case {
        *again = 258;
    }
    checks.same("asked again", printed_to(&case), wanted);
    let payload = case.payload();
    checks.same("numbers of questions", &payload[..8], &[3, 0, 1, 0, 2, 1, 0, 0][..]);
    let bytes = [0, 0, 0, 0, 4, 0, 0, 0, 5, 0, 1, 0, 4, 0, 0, 0, 5, 0, 0, 0, 2, 0, 2, 0];
    checks.same("bytes of questions", &payload[payload.len() - 24..], &bytes[..]);
}

/// Whether an admission at the tick of a question bears out the answer: it is refused
/// alike, but for 15, or gets the first tick from there on at which the move may go.
fn is_borne_out(hall: &Hall, book: &Book, question: Call) -> bool {
    let mut asking = Asking::of(hall, book);
    let said = asking.ask(question);
    let tick = match Ledger::of(hall, book).admit(question) {
        Err(Refusal { number: 15, .. }) => return said.is_ok(),
        Err(refusal) => return said == Err(refusal),
        Ok((tick, _)) => tick,
    };
    let ticks = question.now..=tick.min(LATEST_CLOCK);
    let is_right = |question: &Call| {
        asking.ask(*question).map(|slots| slots.is_empty()) == Ok(question.now == tick)
    };
    at_ticks(ticks, question.asked).iter().all(is_right)
}

/// Books by dice and those of days.
fn against_admissions(checks: &mut Checks) {
    let mut dice = Dice::new(12);
    let mut cases = random_questions(&mut dice, 500);
    cases.extend(day_cases(&mut dice).into_iter().filter(|case| case.payload().len() < 2000));
    let (mut asked_about, mut may, mut differing) = (0, 0, 0);
    for case in &cases {
        if let Case::Ask { asked, .. } = case {
            let mut asking = Asking::of(&asked.hall, &asked.book);
            for &question in &asked.calls {
                asked_about += 1;
                may += usize::from(asking.ask(question) == Ok(Vec::new()));
                differing += usize::from(!is_borne_out(&asked.hall, &asked.book, question));
            }
        }
    }
    checks.same("questions and admissions", differing, 0);
    checks.same("there are some of each", may > 2000 && asked_about > 3 * may / 2, true);
}

/// Whoever has left is not asked: its slot may hold anything that is no damage.
fn left(checks: &mut Checks) {
    let hall = line(5);
    let mut book = book_of(&hall, 1, &[(2, 0, 4, 0)]);
    book.slots[0] = Slot { start: 1023, goal: 1022, distance: 1, tick: 0 };
    for (tick, wanted) in [(2, refuse(17, 0)), (3, Ok(vec![2])), (5, Ok(vec![2])), (6, Ok(vec![]))]
    {
        checks.same("who has left", Asking::of(&hall, &book).ask(call(tick, 4, 0)), wanted);
    }
}

pub fn run(checks: &mut Checks) {
    on_a_line(checks);
    exception(checks);
    several(checks);
    refusals(checks);
    left(checks);
    coding(checks);
    against_admissions(checks);
}
