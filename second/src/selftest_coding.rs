// The batch format: the payloads of some cases by hand, cases of every kind that
// come back from a file as they were, and files that break the format.

use crate::answers::printed_to;
use crate::asking_random::random_questions;
use crate::batch::{Case, KINDS};
use crate::book_random::random_books;
use crate::coding::cases_of;
use crate::dice::Dice;
use crate::generate::random_cases;
use crate::job::{Hall, Move};
use crate::least_cases::{move_numbers, path_of_carrier, write_again};
use crate::lent_jobs::{Listed, Record, Recorded};
use crate::page;
use crate::questions::every_question;
use crate::selftest::Checks;
use crate::trolley_random::random_trolleys;
use crate::write_jobs::as_text;

fn hall() -> Hall {
    Hall { nodes: 65_538, lane_numbers: vec![0, 1], closed: vec![256] }
}

const HALL: &[u8] = &[2, 0, 1, 0, 2, 0, 0, 0, 1, 0, 1, 0, 0, 1];

/// A case with a text, one with lists, one that writes, a job with an odd list of
/// moves, a network with a move, and a job with a record.
fn by_hand(checks: &mut Checks) {
    let asked = Move { start: 1, goal: 2 };
    let text = || b"NODES".to_vec();
    let listed = Listed { hall: hall(), moves: vec![0, 1, 5], order: vec![3], dwell: 256 };
    let record = Record { asked, distance: 7, tick: 65_536 };
    let recorded = Recorded { hall: hall(), records: vec![record], order: vec![3], dwell: 256 };
    let choice = Case::Choose { asked, own: vec![3], spare: vec![4, 5], text: text() };
    for (case, front, body) in [
        (path_of_carrier(258, text()), [&[0, 4, 2, 1, 0, 0, 0, 0, 0, 0, 0, 0][..], &[]], "NODES"),
        (choice, [&[0, 0, 1, 0, 2, 0, 0, 0], &[1, 0, 3, 0, 2, 0, 4, 0, 5, 0]], "NODES"),
        (write_again(7, 9, text()), [&[38, 184, 9, 0, 0, 0, 7, 0, 0, 0, 0, 0], &[]], "NODES"),
    ] {
        checks.same("payload, text", case.payload(), [&front.concat(), body.as_bytes()].concat());
    }
    let marks: Vec<u8> = (0..79).flat_map(|_| [97, 30, 0, 0]).collect();
    let column = |number: [u8; 4]| [&number[..], &marks].concat();
    let columns = [[1, 0, 0, 0], [2, 0, 0, 0], [7, 0, 0, 0], [0, 0, 1, 0]].map(column).concat();
    let behind = [&[0, 0, 1, 0, 3, 0, 0, 1, 0, 0][..], &columns].concat();
    for (case, front, rest) in [
        (
            Case::PlanLists { lent: [1, 2, 3], job: listed },
            [1, 0, 2, 0, 3, 0, 0, 0, 0, 0, 0, 0],
            &[3, 0, 0, 0, 1, 0, 5, 0, 1, 0, 3, 0, 0, 1, 0, 0][..],
        ),
        (
            move_numbers(hall(), asked, Vec::new()),
            [0, 4, 1, 0, 2, 0, 0, 0, 0, 0, 0, 0],
            &[0, 0, 0, 0, 0, 0, 0, 0],
        ),
        (
            Case::WriteRecords { out: 47_142, job: recorded },
            [38, 184, 0, 0, 0, 0, 1, 0, 0, 0, 0, 0],
            &behind,
        ),
    ] {
        checks.same("payload, numbers", case.payload(), [&front[..], HALL, rest].concat());
    }
}

fn file_of(kind: u8, payload: &[u8]) -> Vec<u8> {
    [&[kind], &(payload.len() as u32).to_le_bytes()[..], payload].concat()
}

/// Every kind is among the cases. What a file holds answers as what was put.
fn there_and_back(checks: &mut Checks) {
    let mut dice = Dice::new(8);
    let mut cases = random_cases(&mut dice, 640);
    cases.push(as_text(&page::printed_job()));
    cases.extend(every_question(&mut dice, &page::printed_job()));
    cases.extend(random_books(&mut dice, 40));
    cases.extend(random_trolleys(&mut dice, 40));
    cases.extend(random_questions(&mut dice, 40));
    let has = |kind: &&u8| cases.iter().any(|case| case.kind() == **kind);
    checks.same("every kind", KINDS.iter().filter(has).count(), KINDS.len());
    let mut file = Vec::new();
    cases.iter().for_each(|case| case.put(&mut file));
    let told = |cases: &[Case]| -> Vec<(u8, String)> {
        cases.iter().map(|case| (case.kind(), printed_to(case))).collect()
    };
    let back = cases_of(&file).unwrap_or_default();
    checks.same("there and back", told(&back) == told(&cases), true);
}

/// A number, a list or bytes too many, and payloads that end early.
fn broken(checks: &mut Checks) {
    let mut dice = Dice::new(9);
    let mut whole = every_question(&mut dice, &page::printed_job());
    whole.extend(random_books(&mut dice, 3));
    whole.extend(random_trolleys(&mut dice, 3));
    whole.extend(random_questions(&mut dice, 3));
    for case in &whole {
        let (kind, payload) = (case.kind(), case.payload());
        let is_read = |payload: &[u8]| cases_of(&file_of(kind, payload)).is_ok();
        checks.same("a sound payload", is_read(&payload), true);
        let cut = (0..payload.len()).filter(|&length| is_read(&payload[..length])).count();
        checks.same("a payload that ends early", cut, 0);
        checks.same("a byte behind it", is_read(&[&payload[..], &[0]].concat()), false);
        let mut used = payload.clone();
        used[6] = 1;
        checks.same("a fourth number", is_read(&used), false);
        let spare = [&payload[..10], &[1, 0, 0, 0], &payload[12..]].concat();
        checks.same("a spare list", payload[8] > 0 || !is_read(&spare), true);
    }
    for (kind, unused) in [(b'P', 0), (b'a', 2), (b'Q', 0), (b'H', 6)] {
        let mut payload = vec![0; 12];
        checks.same("no text", cases_of(&file_of(kind, &payload)).is_ok(), true);
        payload[unused] = 1;
        checks.same("an unused number", cases_of(&file_of(kind, &payload)).is_ok(), false);
    }
    checks.same("no such kind", cases_of(&file_of(b'N', &[0; 12])).is_ok(), false);
    checks.same("a file that ends early", cases_of(&[b'P', 12, 0, 0, 0]).is_ok(), false);
}

pub fn run(checks: &mut Checks) {
    by_hand(checks);
    there_and_back(checks);
    broken(checks);
}
