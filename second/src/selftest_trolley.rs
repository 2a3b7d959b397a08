// Trolleys by hand: the job of rule 7.14 at once, a trolley that is refused at a move,
// one that finds no slot, answer lists that are too short, too many moves, an empty
// list, odd lists, and the payload. Then trolleys against single admissions to the
// book that forgets, with an answer list that is kept here by itself.

use crate::answers::printed_to;
use crate::batch::Case;
use crate::book::{Book, Slot, SLOTS};
use crate::book_make::carrier;
use crate::coding::cases_of;
use crate::dice::Dice;
use crate::forgetful;
use crate::halls::line;
use crate::job::{Hall, Refusal};
use crate::ledger::Ledger;
use crate::page;
use crate::selftest::Checks;
use crate::trolley::{Arrival, Arrivals, End, Outcome};
use crate::trolley_make::{odd, one_by_one, step, told_each, told_last, trolley, with_room};
use crate::trolley_random::random_trolleys;
use crate::trolley_slots::slot_cases;

/// Ticks of 0 up to the least length, and marks.
const ZEROS: &str = "ticks 64x0 36x7777\n";

fn prints(checks: &mut Checks, name: &str, case: &Case, wanted: &[&str]) {
    checks.same(name, printed_to(case), wanted.concat());
}

/// The moves of rule 7.14 at now 0, at now 7 with one of them refused, and one by
/// one.
fn the_job_of_the_rules(checks: &mut Checks) {
    let (hall, empty) = (line(5), Book::empty(0));
    let moves = [step(0, 4), step(4, 0), step(2, 1)];
    let book = "book 3x0 2x4 1x0 1x4 1x0 1x4 1x5 1x2 2x1 1x3 244x0\n";
    let ticks = "ticks 1x0 1x5 1x3 61x0 36x7777\n";
    let case = told_last(&hall, &empty, vec![trolley(0, &moves)]);
    prints(checks, "rule 7.14 at once", &case, &["ALL\n", ticks, book]);
    let case = told_last(&hall, &empty, vec![odd(with_room(100, 0, &moves), 4)]);
    prints(checks, "an odd list", &case, &["ALL\n", ticks, book]);
    let case = told_each(&hall, &empty, vec![one_by_one(0, &moves)]);
    let starts = "STARTS 0 0\nSTARTS 5 1\nSTARTS 3 2\n";
    prints(checks, "one by one", &case, &[starts, book]);
    let moves = [step(0, 4), step(2, 2), step(4, 0)];
    let arrivals = vec![trolley(7, &moves), trolley(6, &moves), one_by_one(7, &moves[1..])];
    let case = told_last(&hall, &empty, arrivals);
    let wanted = [
        "MOVE 1 REFUSED 5 0\nticks 1x7 63x0 36x7777\n",
        "MOVE 0 REFUSED 14 0\n",
        ZEROS,
        "REFUSED 5 0\nSTARTS 12 1\n",
        "book 1x7 2x0 2x4 1x7 1x4 1x0 1x4 1x12 248x0\n",
    ];
    prints(checks, "refused at a move", &case, &wanted);
}

/// Refusals 9 and 2 come before all others, and an empty trolley asks for nothing
/// else. The book is damaged, the clock goes back and the network has no node.
fn before_any_move(checks: &mut Checks) {
    let (hall, book) = (page::hall(0, &[]), Book { clock: 9, ..Book::empty(256) });
    let told = "book 1x9 1x256 256x0\n";
    let many = [step(0, 4); SLOTS + 1];
    for (arrival, wanted) in [
        (with_room(63, 0, &[]), "REFUSED 9 0\nticks 100x7777\n"),
        (with_room(0, 0, &many), "REFUSED 9 0\nticks 100x7777\n"),
        (with_room(64, 0, &many), "REFUSED 2 2\nticks 64x0 36x7777\n"),
        (with_room(100, 0, &many), "REFUSED 2 2\nticks 64x0 36x7777\n"),
        (with_room(64, 0, &many[..SLOTS]), "MOVE 0 REFUSED 16 0\nticks 64x0 36x7777\n"),
        (odd(with_room(64, 0, &many[..SLOTS]), 1), "MOVE 0 REFUSED 16 0\nticks 64x0 36x7777\n"),
        (with_room(64, 0, &[]), "ALL\nticks 64x0 36x7777\n"),
        (odd(with_room(65, 0, &[]), 5), "ALL\nticks 64x0 36x7777\n"),
    ] {
        let name = format!("{:?}", arrival);
        prints(checks, &name, &told_last(&hall, &book, vec![arrival]), &[wanted, told]);
    }
}

/// With 62 on the floor a trolley of four is refused at its third move, and a slot
/// whose carrier is past counts as free. A carrier that does not fit the hall is met
/// by the first move, behind that move's own faults.
fn slots(checks: &mut Checks) {
    let hall = line(5);
    let held = carrier(&hall, 0, 4, 900);
    let mut book = Book { clock: 20, ..Book::empty(1) };
    book.slots[..62].iter_mut().for_each(|slot| *slot = held);
    let mut one_past = book.clone();
    one_past.slots[30].tick = 1;
    let mut stale = one_past.clone();
    stale.slots[9].distance = 3;
    let (good, bad) = ([step(0, 4); 4], [step(0, 5), step(0, 4)]);
    for (book, moves, wanted) in [
        (&book, &good[..], End::AtMove(2, Refusal { number: 15, at: 0 })),
        (&one_past, &good, End::AtMove(3, Refusal { number: 15, at: 0 })),
        (&one_past, &good[..3], End::All),
        (&stale, &good, End::AtMove(0, Refusal { number: 17, at: 9 })),
        (&stale, &bad, End::AtMove(0, Refusal { number: 4, at: 0 })),
    ] {
        let outcome = trolley(20, moves).come(&mut Ledger::of(&hall, book));
        let end = match outcome {
            Outcome::Trolley(end, _) => Some(end),
            Outcome::OneByOne(_) => None,
        };
        checks.same("slots of a trolley", end, Some(wanted));
    }
}

/// A payload by hand, there and back, and what breaks the format.
fn coding(checks: &mut Checks) {
    let mut book = Book { clock: 258, ..Book::empty(3) };
    book.slots[1] = Slot { start: 1, goal: 2, distance: 772, tick: 65_536 };
    let hall = page::hall(2, &[0, 1]);
    let arrivals = vec![odd(with_room(99, 65_537, &[step(1, 0)]), 258), trolley(2, &[])];
    let case = told_each(&hall, &book, arrivals.clone());
    let front = [2, 0, 1, 0, 0, 0, 0, 0, 0, 0, 0, 0];
    let network = [2, 0, 0, 0, 2, 0, 0, 0, 1, 0, 0, 0, 0, 0, 0, 0, 0, 0, 0, 0];
    let head = [2, 1, 0, 0, 3, 0, 0, 0];
    let slots = [&[0; 10][..], &[1, 0, 2, 0, 4, 3, 0, 0, 1, 0], &[0; 620]].concat();
    let first = [1, 0, 1, 0, 99, 0, 3, 0, 1, 0, 0, 0, 2, 1];
    let payload =
        [&front[..], &network, &head, &slots, &first, &[2, 0, 0, 0, 64, 0, 0, 0]].concat();
    checks.same("payload, trolleys", case.payload(), payload);
    let back = |case: &Case| {
        let mut file = Vec::new();
        case.put(&mut file);
        cases_of(&file).map(|cases| cases.iter().map(printed_to).collect::<String>())
    };
    checks.same("trolleys, there and back", back(&case), Ok(printed_to(&case)));
    let asked = Box::new(Arrivals { hall: hall.clone(), book: book.clone(), arrivals });
    let again = Case::AdmitAll { each: 1, again: 3, asked };
    checks.same("trolleys made again", printed_to(&again), printed_to(&case));
    for none in [vec![], vec![odd(one_by_one(300, &[]), 1)]] {
        checks.same("no arrival", back(&told_each(&hall, &book, none)).is_ok(), false);
    }
}

/// A trolley by single admissions to the book that forgets: its end, and a list of
/// which every place is written by itself.
fn by_admissions(hall: &Hall, book: &mut Book, arrival: &Arrival) -> (End, Vec<u32>) {
    let mut list = vec![7777; 100];
    if arrival.room < 64 {
        return (End::Refused(Refusal { number: 9, at: 0 }), list);
    }
    list[..64].iter_mut().for_each(|place| *place = 0);
    if arrival.numbers.len() >= 130 {
        return (End::Refused(Refusal { number: 2, at: 2 }), list);
    }
    for (number, call) in arrival.calls().into_iter().enumerate() {
        match forgetful::admit(hall, book, call) {
            Ok((tick, _)) => list[number] = tick,
            Err(refusal) => return (End::AtMove(number, refusal), list),
        }
    }
    (End::All, list)
}

/// Both books give the same answers, and are told alike after each arrival.
fn forgetful_and_not(checks: &mut Checks) {
    let mut dice = Dice::new(5);
    let mut cases = random_trolleys(&mut dice, 400);
    cases.extend(slot_cases(&mut dice));
    let (mut whole, mut refused, mut differing) = (0, 0, 0);
    for case in &cases {
        if let Case::AdmitAll { asked, .. } = case {
            let mut book = asked.book.clone();
            let mut ledger = Ledger::of(&asked.hall, &book);
            for arrival in &asked.arrivals {
                let found = arrival.come(&mut ledger);
                whole += usize::from(matches!(found, Outcome::Trolley(End::All, _)));
                refused += usize::from(matches!(found, Outcome::Trolley(End::AtMove(..), _)));
                let other = match found {
                    Outcome::Trolley(..) => {
                        let (end, list) = by_admissions(&asked.hall, &mut book, arrival);
                        Outcome::Trolley(end, list)
                    }
                    Outcome::OneByOne(_) => {
                        let admit = |call| forgetful::admit(&asked.hall, &mut book, call);
                        Outcome::OneByOne(arrival.calls().into_iter().map(admit).collect())
                    }
                };
                differing += usize::from(other != found || ledger.told() != book);
            }
        }
    }
    checks.same("trolleys, forgetful and not", differing, 0);
    checks.same("trolleys of each sort", whole > 500 && refused > 1000, true);
}

pub fn run(checks: &mut Checks) {
    the_job_of_the_rules(checks);
    before_any_move(checks);
    slots(checks);
    coding(checks);
    forgetful_and_not(checks);
}
