// What is left in lent tables, by hand for page 01's printed job: after an
// accepted question, after refusal 9, and after another refusal.

use crate::answers::printed_to;
use crate::batch::Case;
use crate::job::Move;
use crate::least_cases::{move_numbers, path_of_carrier, path_of_move};
use crate::lent::{self, MARK};
use crate::lent_jobs::{Listed, Record, Recorded};
use crate::lent_plan;
use crate::lent_read;
use crate::page;
use crate::selftest::Checks;
use crate::systematic::PRINTED_JOB;

/// Page 01's job with whole records, in this order and with this dwell.
fn recorded(order: [u16; 3], dwell: u32) -> Recorded {
    let record = |asked: Move| Record { asked, distance: MARK as u16, tick: MARK };
    let job = page::printed_job();
    let records = job.moves.into_iter().map(record).collect();
    Recorded { hall: job.hall, records, order: order.to_vec(), dwell }
}

fn reading(checks: &mut Checks) {
    let text = PRINTED_JOB.as_bytes();
    let accepted = "READ 5 4 0 3 0\nlanes 1x0 2x1 2x2 2x3 1x4 8184x0 4208x7777\n\
        closed 1024x0 76x7777\nrecords 1x0 1x4 1x2 61x0 16x7777 \
        1x4 1x0 1x1 61x0 16x7777 64x0 16x7777 64x0 16x7777\n\
        order 1x0 1x1 1x2 61x0 36x7777\n";
    for lent in [[8192, 1024, 64, 64], [12_400, 1100, 80, 100]] {
        checks.same("read", lent_read::to_records(lent, text).printed().as_str(), accepted);
    }
    let short = "REFUSED 9 0\nlanes 12400x7777\nclosed 1100x7777\nrecords 320x7777\n\
        order 100x7777\n";
    for lent in
        [[8191, 1024, 64, 64], [8192, 1023, 64, 64], [8192, 1024, 63, 64], [8192, 1024, 64, 63]]
    {
        let found = lent_read::to_records(lent, text).printed();
        checks.same("read, short", found.as_str(), short);
    }
    let refused = "REFUSED 2 11\nlanes 8192x0 4208x7777\nclosed 1024x0 76x7777\n\
        moves 128x0 72x7777\norder 64x0 36x7777\n";
    let spoiled = PRINTED_JOB.replace("ORDER 3", "ORDER 2");
    let found = lent_read::to_moves([8192, 1024, 128, 64], spoiled.as_bytes()).printed();
    checks.same("read, refused", found.as_str(), refused);
    let closed = PRINTED_JOB.replace("NODES 5", "NODES 9").replace("CARR", "CLOSED 2\n5\n7\nCARR");
    let behind = "lanes 1x0 2x1 2x2 2x3 1x4 8184x0 4208x7777\n\
        closed 1x5 1x7 1022x0 76x7777\nmoves 1x0 2x4 1x0 1x2 1x1 122x0 72x7777\n\
        order 1x0 1x1 1x2 61x0 36x7777\n";
    for (dwell, told) in [("", 0), ("DWELL 1\n", 1), ("DWELL 255\n", 255)] {
        let text = [&closed, dwell].concat();
        let found = lent_read::to_moves([12_400, 1100, 200, 100], text.as_bytes()).printed();
        let accepted = format!("READ 9 4 2 3 {}\n{}", told, behind);
        checks.same("read, closed nodes and a dwell", found, accepted);
    }
    for (dwell, told) in [("DWELL 0\n", "2 15"), ("DWELL 256\n", "2 15"), ("DWELL 2", "1 15")] {
        let text = [PRINTED_JOB, dwell].concat();
        let found = lent_read::to_moves([8192, 1024, 128, 64], text.as_bytes()).printed();
        checks.same("read, no dwell", found, refused.replace("2 11", told));
    }
}

fn planning(checks: &mut Checks) {
    let table = "table 1x0 1x4 1x2 61x0 1x4 1x0 1x2 61x0 2x2 3966x0 \
        1x4 1x0 1x1 62x0 1x4 1x3 61x0 2x2 1x1 3966x0 \
        1x4 1x3 61x0 1x4 1x0 1x1 61x0 1x3 1x1 3966x0 112x7777\n";
    let moves = "records 1x0 1x4 1x2 77x7777 1x4 1x0 1x1";
    let times = "77x7777 2x4 1x1 77x7777 1x0 1x5 1x3 77x7777\n";
    let found = lent_plan::records(12_288, &recorded([0, 1, 2], 0)).printed();
    checks.same("plan", found, format!("COST 17\n{}{} {}", table, moves, times));
    // With a dwell only ticks and cost are others.
    let found = lent_plan::records(12_288, &recorded([0, 1, 2], 2)).printed();
    let later = times.replace("1x5 1x3", "1x7 1x5");
    checks.same("plan, a dwell", found, format!("COST 21\n{}{} {}", table, moves, later));
    let as_they_came = "237x7777\n";
    let short = format!("REFUSED 9 0\ntable 12400x7777\n{} {}", moves, as_they_came);
    for dwell in [0, 2, 256] {
        let found = lent_plan::records(12_287, &recorded([0, 1, 2], dwell)).printed();
        checks.same("plan, short", &found, &short);
    }
    for (dwell, told) in [(0, "7 2"), (255, "7 2"), (256, "2 5")] {
        let found = lent_plan::records(12_300, &recorded([0, 1, 1], dwell)).printed();
        let left = "table 12288x0 112x7777";
        let refused = format!("REFUSED {}\n{}\n{} {}", told, left, moves, as_they_came);
        checks.same("plan, refused", found, refused);
    }
    let mut listed = Listed::of(&page::printed_job());
    listed.moves.push(9);
    let lists = "distances 2x4 1x1 61x0 36x7777\nticks 1x0 1x5 1x3 61x0 36x7777\n";
    let found = lent_plan::lists([12_288, 64, 64], &listed).printed();
    checks.same("plan, lists", found, format!("COST 17\n{}{}", table, lists));
    listed.dwell = 256;
    let found = lent_plan::lists([12_288, 64, 64], &listed).printed();
    let zeros = "distances 64x0 36x7777\nticks 64x0 36x7777\n";
    let refused = format!("REFUSED 2 5\ntable 12288x0 112x7777\n{}", zeros);
    checks.same("plan, lists, a dwell too long", found, refused);
}

fn paths(checks: &mut Checks) {
    let job = page::printed_job();
    let asked = job.moves[0];
    let found = lent::house_of_move(1024, asked, &job.hall).printed();
    let path = "path 1x0 1x1 1x2 1x3 1x4 1019x0 76x7777\n";
    checks.same("path", found, format!("PATH 5\n{}", path));
    let found = lent::house_of_move(1023, asked, &job.hall).printed();
    checks.same("path, short", found.as_str(), "REFUSED 9 0\npath 1100x7777\n");
    let found = lent::house_of_carrier(1024, 3, &recorded([0, 1, 2], 7).job());
    checks.same("path, no carrier", found.tables[0].1[..1025].to_vec(), {
        let mut left = vec![0; 1024];
        left.push(MARK);
        left
    });
    for (dwell, told) in [(7, "PASSED\n"), (256, "REFUSED 2 5\n")] {
        let job = recorded([0, 1, 2], dwell);
        let case = Case::JudgeRecords { carrier: 2, list: vec![2, 1], job };
        checks.same("judge", printed_to(&case).as_str(), told);
    }
    let found = lent::choice(asked, &[0, 4], &[0, 1, 2, 3, 4], &job.hall).printed();
    checks.same("choice", found.as_str(), "SPARE\n5\n");
}

/// The kinds with a text tell the same, and of a text that is not read the
/// refusal alone. Where the question about one list follows the house path,
/// there are two answers.
fn texts(checks: &mut Checks) {
    let asked = Move { start: 0, goal: 2 };
    let choice = |own: &[u16], spare: &[u16], text: &str| {
        let (own, spare) = (own.to_vec(), spare.to_vec());
        Case::Choose { asked, own, spare, text: text.as_bytes().to_vec() }
    };
    let path = |nodes: &str| format!("PATH {}x7777\n", nodes);
    for (text, of_carrier, of_move) in [
        (PRINTED_JOB, path("2\npath 1x2 1x1 1022x0 76"), path("3\npath 1x0 1x1 1x2 1021x0 76")),
        (&PRINTED_JOB[..68], "REFUSED 1 14\n".to_string(), "REFUSED 1 14\n".to_string()),
    ] {
        let bytes = || text.as_bytes().to_vec();
        checks.same("path, carrier", printed_to(&path_of_carrier(2, bytes())), of_carrier);
        checks.same("path, move", printed_to(&path_of_move(asked, bytes())), of_move);
    }
    let refused = "path 1024x0 76x7777\n";
    let found = printed_to(&path_of_carrier(3, PRINTED_JOB.as_bytes().to_vec()));
    checks.same("path, no carrier", found, format!("REFUSED 10 3\n{}", refused));
    let short = Case::PathOfMove { path: 1023, asked, text: PRINTED_JOB.as_bytes().to_vec() };
    checks.same("path, short", printed_to(&short).as_str(), "REFUSED 9 0\npath 1100x7777\n");
    for (own, spare, text, wanted) in [
        (&[0, 1, 2][..], &[][..], PRINTED_JOB, "OWN\n3\n"),
        (&[0, 2], &[0, 1, 2], PRINTED_JOB, "SPARE\n3\n"),
        (&[0, 2], &[], PRINTED_JOB, "NONE\n0\n"),
        (&[0, 1, 2], &[], &PRINTED_JOB[..68], "REFUSED 1 14\n"),
    ] {
        checks.same("choice", printed_to(&choice(own, spare, text)).as_str(), wanted);
    }
    let hall = page::printed_job().hall;
    for (asked, list, wanted) in [
        (asked, vec![0, 1, 2], path("3\npath 1x0 1x1 1x2 1021x0 76") + "PASSED\n"),
        (asked, vec![0, 2], path("3\npath 1x0 1x1 1x2 1021x0 76") + "REFUSED 11 0\n"),
        (Move { start: 0, goal: 5 }, vec![0], format!("REFUSED 4 0\n{}REFUSED 4 0\n", refused)),
    ] {
        let found = printed_to(&move_numbers(hall.clone(), asked, list));
        checks.same("path and list", found, wanted);
    }
}

pub fn run(checks: &mut Checks) {
    reading(checks);
    planning(checks);
    paths(checks);
    texts(checks);
}
