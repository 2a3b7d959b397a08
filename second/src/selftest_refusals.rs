// The refusals of texts and from numbers, and the answers about paths, that
// follow from the rules' sentences: which line decides, what goes first within
// a line, and which check goes first from numbers. Each answer is worked out
// by hand from the rules.

use crate::job::{Job, Move, Refusal};
use crate::page::{hall, job, printed_job};
use crate::paths::{
    choose, house_path_of_carrier, house_path_of_move, judge_for_carrier, judge_for_move, Choice,
};
use crate::plan::plan;
use crate::selftest::Checks;

/// A head that is sound, what comes after it, and the refusal.
pub fn refusals_of_texts(checks: &mut Checks) {
    let head = "NODES 4\nLANES 2\n0 1\n1 2\n";
    let moves = "CARRIERS 2\n0 2\n2 0\n";
    for (first, then, wanted) in [
        ("", "", "1 1"),
        ("", "\n", "1 1"),
        ("", "NODES 4", "1 1"),
        ("", "NODES 4\r\n", "1 1"),
        ("", "nodes 4\n", "1 1"),
        ("", "NODES  4\n", "1 1"),
        ("", "NODES 4 \n", "1 1"),
        ("", " NODES 4\n", "1 1"),
        ("", "NODES 4 4\n", "1 1"),
        ("", "NODES +4\n", "1 1"),
        ("", "NODES 4:\n", "1 1"),
        ("", "NODES /4\n", "1 1"),
        ("", "NODE 4\n", "1 1"),
        ("", "NUTS 4\n", "1 1"),
        ("", "NODES 4\n", "1 2"),
        ("", "NODES 4\nLANES 2\n0 1\n", "1 4"),
        ("", "NODES 4\nLANES 1\n1 0\n", "3 3"),
        ("", "NODES 4\nLANES 1\n1 1\n", "3 3"),
        ("", "NODES 4\nLANES 1\n1 4\n", "3 3"),
        ("", "NODES 4\nLANES 1\n0 1 2\n", "1 3"),
        ("", "NODES 4\nLANES 1\n0\n", "1 3"),
        ("", "NODES 4\nLANES 1\n4 05\n", "1 3"),
        ("", "NODES 4\nLANES 2\n0 1\n0 1\n", "3 4"),
        ("", "NODES 4\nLANES 2\n0 2\n0 1\n", "3 4"),
        ("", "NODES 4\nLANES 2\n1 2\n0 3\n", "3 4"),
        ("", "NODES 0\nLANES 9999\n", "2 1"),
        (head, "", "1 5"),
        (head, "CARRIERS 65\n", "2 5"),
        (head, "2 3\n", "1 5"),
        (head, "CARRIERS 1\n4 0\n", "4 6"),
        (head, "CARRIERS 1\n0 4\n", "4 6"),
        (head, "CARRIERS 1\n4 4\n", "4 6"),
        (head, "CARRIERS 1\n0 0\n", "5 6"),
        (head, "CARRIERS 1\n0 00\n", "1 6"),
        // An end that stands twice is no fault, and hides none.
        (head, "CARRIERS 2\n0 1\n0 2\n", "1 8"),
        (head, "CARRIERS 2\n0 1\n2 1\n", "1 8"),
        (head, "CARRIERS 2\n0 1\n0 1\nORDER 3\n", "2 8"),
        (head, "CARRIERS 2\n0 1\n0 1\nORDER 2\n1\n1\n", "7 10"),
        (head, "CARRIERS 3\n0 1\n0 1\n1 1\n", "5 8"),
        (head, "CARRIERS 3\n0 1\n0 1\n4 1\n", "4 8"),
        (head, "CARRIERS 2\n0 1\n0 0\n", "5 7"),
        (head, "CARRIERS 2\n0 1\n0 4\n", "4 7"),
        (head, "CARRIERS 2\n0 1\n", "1 7"),
        (moves, "", "1 8"),
        (moves, "ORDER 1\n", "2 8"),
        (moves, "ORDER 3\n", "2 8"),
        (moves, "ORDER 2 \n", "1 8"),
        (moves, "ORDER 2\n2\n0\n", "7 9"),
        (moves, "ORDER 2\n1\n1\n", "7 10"),
        (moves, "ORDER 2\n1\n", "1 10"),
        (moves, "ORDER 2\n1\n0", "1 10"),
        (moves, "ORDER 2\n1\n9", "1 10"),
        (moves, "ORDER 2\n1\n0\n\n", "1 11"),
        (moves, "ORDER 2\n1\n0\n0", "1 11"),
        ("CARRIERS 3\n0 2\n2 3\n3 0\n", "ORDER 3\n0\n1\n2\n", "8 7"),
        ("CARRIERS 3\n0 2\n2 3\n3 0\n", "ORDER 3\n0\n1\n3\n", "7 12"),
    ] {
        let opening = if first.starts_with("CARRIERS") { head } else { "" };
        let text = [opening, first, then].concat();
        checks.prints(&format!("{:?}", text), text.as_bytes(), &format!("REFUSED {}\n", wanted));
    }
    checks.prints("bytes above 127", &[255; 5], "REFUSED 1 1\n");
    checks.prints("a long text", &[b'7'; 3_000_000], "REFUSED 1 1\n");
}

/// From numbers all counts and the dwell come before all entries. Each change is
/// made on top of those before it in the list, so the check that comes first
/// wins.
pub fn refusals_of_numbers(checks: &mut Checks) {
    let changes: &[(&str, fn(&mut Job), u8, usize)] = &[
        ("8", |job| job.hall.lane_numbers.truncate(6), 8, 0),
        ("8, a start twice", |job| job.moves[2].start = 0, 8, 0),
        ("7", |job| job.order[2] = 0, 7, 2),
        ("7, a goal twice", |job| job.moves[2].goal = 4, 7, 2),
        ("5", |job| job.moves[1].goal = 4, 5, 1),
        ("4", |job| job.moves[0].start = 5, 4, 0),
        ("3", |job| job.hall.lane_numbers[4] = 0, 3, 2),
        ("2 dwell", |job| job.dwell = 256, 2, 5),
        ("2 order", |job| job.order.truncate(1), 2, 3),
        ("2 order", |job| job.order.extend([1, 1, 7]), 2, 3),
        ("2 carriers", |job| job.moves.resize(65, Move { start: 9, goal: 9 }), 2, 2),
        ("2 odd lanes", |job| job.hall.lane_numbers.push(9), 2, 1),
        ("2 lanes", |job| job.hall.lane_numbers.resize(8194, 9), 2, 1),
        ("2 nodes", |job| job.hall.nodes = 0, 2, 0),
        ("2 nodes", |job| job.hall.nodes = 1025, 2, 0),
    ];
    let mut spoiled = printed_job();
    for (name, change, number, at) in changes {
        change(&mut spoiled);
        let found = plan(&spoiled).map(|plan| plan.ticks);
        checks.same(name, found, Err(Refusal { number: *number, at: *at }));
    }
}

pub fn paths(checks: &mut Checks) {
    let square = hall(5, &[0, 1, 0, 2, 1, 3, 2, 3]);
    let over = Move { start: 0, goal: 3 };
    let refused = |number: u8, at: usize| Err(Refusal { number, at });
    let house = |start: u16, goal: u16| house_path_of_move(&square, Move { start, goal });
    checks.same("lowest neighbour", house(0, 3), Ok(vec![0, 1, 3]));
    checks.same("house path back", house(3, 0), Ok(vec![3, 1, 0]));
    checks.same("house path, no node", house(0, 5), Err(Refusal { number: 4, at: 0 }));
    checks.same("house path, equal ends", house(1, 1), Err(Refusal { number: 5, at: 0 }));
    checks.same("house path, no walk", house(0, 4), Err(Refusal { number: 8, at: 0 }));
    for (list, wanted) in [
        (&[0, 1, 3][..], Ok(())),
        (&[0, 2, 3], Ok(())),
        (&[3, 2, 0], refused(11, 0)),
        (&[0, 3], refused(11, 0)),
        (&[3, 2, 3], refused(11, 0)),
        (&[0, 2, 0], refused(11, 0)),
        (&[0, 1, 0, 1, 3], refused(11, 0)),
        (&[0, 1], refused(11, 0)),
        (&[0, 4, 3], refused(11, 0)),
        (&[0, 65_535, 3], refused(11, 0)),
        (&[], refused(11, 0)),
    ] {
        checks.same(&format!("list {:?}", list), judge_for_move(&square, over, list), wanted);
    }
    let (bad, good): (&[u16], &[u16]) = (&[0, 3], &[0, 2, 3]);
    checks.same("own list", choose(&square, over, good, bad), Choice::Own);
    checks.same("both lists", choose(&square, over, good, &[0, 1, 3]), Choice::Own);
    checks.same("spare list", choose(&square, over, bad, good), Choice::Spare);
    checks.same("neither list", choose(&square, over, bad, bad), Choice::Neither);
    let broken = hall(5, &[1, 0]);
    checks.same("faulty network", choose(&broken, over, good, good), Choice::Neither);
    checks.same("its number", judge_for_move(&broken, over, good), refused(3, 0));

    let sound = job(square.clone(), &[(0, 3), (3, 1)]);
    checks.same("carrier 1", house_path_of_carrier(&sound, 1), Ok(vec![3, 1]));
    checks.same("carrier 2", judge_for_carrier(&sound, 2, good), refused(10, 2));
    checks.same("carrier 0", judge_for_carrier(&sound, 0, bad), refused(11, 0));
    // The job's own refusal 8 goes before the question's 10 and 11.
    let apart = job(square, &[(0, 3), (1, 4)]);
    checks.same("8 before 10", judge_for_carrier(&apart, 9, good), refused(8, 1));
    checks.same("8 of another", judge_for_carrier(&apart, 0, good), refused(8, 1));
}
