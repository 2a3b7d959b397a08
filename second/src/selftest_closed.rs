// Closed nodes, by hand: plans before and after floor plates are taken up, the
// refusals of texts and from numbers with their lines and places, paths and
// lists, and what is written. Then closing nodes is held to taking out their
// lanes: between open nodes both leave the same plans and the same paths.

use crate::dice::Dice;
use crate::halls::{any_job, line, star};
use crate::job::{refuse, Hall, Job, Move, Refusal};
use crate::network::Network;
use crate::page::{self, hall, job};
use crate::paths::{choose, house_path_of_carrier, house_path_of_move, judge_for_move, Choice};
use crate::plan::plan;
use crate::selftest::Checks;
use crate::text;
use crate::write::{write, LEAST_TEXT};

fn with_closed(hall: Hall, closed: &[u16]) -> Hall {
    Hall { closed: closed.to_vec(), ..hall }
}

fn plans(checks: &mut Checks) {
    let found = |job: Job| plan(&job).map(|plan| (plan.cost(), plan.distances, plan.ticks));
    let before = found(page::plates_in_place());
    checks.same("plates in place", before, Ok((12, vec![3, 3, 2], vec![0, 4, 0])));
    let after = found(page::plates_taken_up());
    checks.same("plates taken up", after, Ok((24, vec![7, 7, 2], vec![0, 8, 0])));
    let printed = "PLAN 3\n0 0 7 7\n1 8 7 15\n2 0 2 2\nCOST 24\n";
    checks.prints("the print", &text::write(&page::plates_taken_up()), printed);
    let cut = with_closed(line(5), &[2]);
    checks.same("a walk is cut", found(job(cut.clone(), &[(0, 1), (1, 3)])), refuse(8, 1));
    checks.prints("its line", &text::write(&job(cut, &[(0, 1), (1, 3)])), "REFUSED 8 11\n");
    // The starts are in two parts of what was one hall.
    let parted = with_closed(star(5), &[0]);
    checks.same("every node apart", found(job(parted, &[(1, 2)])), refuse(8, 0));
    let away = with_closed(line(7), &[3]);
    let meeting = job(away, &[(0, 2), (6, 4), (2, 0)]);
    checks.same("two parts", found(meeting), Ok((9, vec![2, 2, 2], vec![0, 0, 3])));
    for closed in [1, 1023, 1024] {
        let empty = job(with_closed(hall(1024, &[]), &(0..closed).collect::<Vec<u16>>()), &[]);
        checks.same("no carriers", found(empty.clone()), Ok((0, vec![], vec![])));
        checks.prints("no carriers", &text::write(&empty), "PLAN 0\nCOST 0\n");
    }
}

/// What follows the lanes of a line of four nodes, and the refusal. The line
/// behind the lanes is the sixth.
fn refusals_of_texts(checks: &mut Checks) {
    let end = "CARRIERS 2\n0 1\n1 0\nORDER 2\n0\n1\n";
    for (section, rest, wanted) in [
        ("CLOSED 0\n", end, "2 6"),
        ("CLOSED 1025\n", end, "2 6"),
        ("CLOSED 9999\n", "", "2 6"),
        ("CLOSED 1024\n", end, "1 7"),
        ("CLOSED 10000\n", end, "1 6"),
        ("CLOSED 01\n3\n", end, "1 6"),
        ("CLOSED\n3\n", end, "1 6"),
        ("CLOSED \n3\n", end, "1 6"),
        ("CLOSED 1 3\n", end, "1 6"),
        ("closed 1\n3\n", end, "1 6"),
        ("CLOSED  1\n3\n", end, "1 6"),
        ("CLOSE 1\n3\n", end, "1 6"),
        ("CLOSED 1", "", "1 6"),
        ("CLOSED 1\n", end, "1 7"),
        ("CLOSED 1\n3 ", end, "1 7"),
        ("CLOSED 1\n3\n3\n", end, "1 8"),
        ("CLOSED 2\n3\n", end, "1 8"),
        ("CLOSED 1\n4\n", end, "12 7"),
        ("CLOSED 1\n9999\n", end, "12 7"),
        ("CLOSED 1\n04\n", end, "1 7"),
        ("CLOSED 2\n3\n3\n", end, "12 8"),
        ("CLOSED 2\n3\n2\n", end, "12 8"),
        ("CLOSED 2\n2\n4\n", end, "12 8"),
        ("CLOSED 2\n2 3\n", end, "1 7"),
        ("CLOSED 1\n3\nCLOSED 1\n3\n", end, "1 8"),
        ("CLOSED 1\n3\n", "CARRIERS 65\n", "2 8"),
        ("CLOSED 1\n3\n", "CARRIERS 1\n3 0\n", "13 9"),
        ("CLOSED 1\n3\n", "CARRIERS 1\n0 3\n", "13 9"),
        ("CLOSED 1\n3\n", "CARRIERS 1\n3 3\n", "5 9"),
        ("CLOSED 1\n3\n", "CARRIERS 1\n3 4\n", "4 9"),
        ("CLOSED 1\n3\n", "CARRIERS 1\n4 3\n", "4 9"),
        ("CLOSED 1\n3\n", "CARRIERS 1\n3 03\n", "1 9"),
        ("CLOSED 1\n3\n", "CARRIERS 2\n3 0\n4 4\n", "13 9"),
        ("CLOSED 1\n3\n", "CARRIERS 2\n0 0\n3 0\n", "5 9"),
        ("CLOSED 2\n2\n3\n", "CARRIERS 2\n0 1\n2 3\n", "13 11"),
        ("CLOSED 1\n1\n", "CARRIERS 1\n0 2\nORDER 1\n0\n", "8 9"),
        ("CLOSED 1\n3\n", "CARRIERS 1\n0 2\nORDER 2\n", "2 10"),
        ("CLOSED 1\n3\n", "CARRIERS 1\n0 2\nORDER 1\n1\n", "7 11"),
        ("CLOSED 4\n0\n1\n2\n3\n", "CARRIERS 0\nORDER 0\n\n", "1 13"),
        ("CARRIERS 0\nCLOSED 1\n3\nORDER 0\n", "", "1 7"),
        ("CARRIERS 0\nORDER 0\nCLOSED 1\n3\n", "", "1 8"),
    ] {
        let text = ["NODES 4\nLANES 3\n0 1\n1 2\n2 3\n", section, rest].concat();
        checks.prints(&format!("{:?}", text), text.as_bytes(), &format!("REFUSED {}\n", wanted));
    }
    checks.prints("before the lanes", b"NODES 4\nCLOSED 1\n3\nLANES 0\n", "REFUSED 1 2\n");
    checks.prints("for a lane", b"NODES 4\nLANES 1\nCLOSED 1\n3\n", "REFUSED 1 3\n");
}

/// Each change comes on top of those before it, and its check goes first.
const CHANGES: &[(&str, fn(&mut Job), u8, usize)] = &[
    ("8", |job| job.hall.closed = vec![1, 4, 5, 7], 8, 0),
    ("7", |job| job.order[2] = 0, 7, 2),
    ("13 of a goal", |job| job.moves[2].goal = 7, 13, 2),
    ("4 before it", |job| job.moves[1].goal = 12, 4, 1),
    ("13 of a start", |job| job.moves[0].start = 5, 13, 0),
    ("5 before 13", |job| job.moves[0].goal = 5, 5, 0),
    ("4 before 13", |job| job.moves[0].goal = 12, 4, 0),
    ("12, no node", |job| job.hall.closed[3] = 12, 12, 3),
    ("12, falling", |job| job.hall.closed[2] = 3, 12, 2),
    ("12, equal", |job| job.hall.closed[1] = 1, 12, 1),
    ("12, the first", |job| job.hall.closed[0] = 65_535, 12, 0),
    ("3", |job| job.hall.lane_numbers[32] = 11, 3, 16),
    ("2 dwell", |job| job.dwell = 256, 2, 5),
    ("2 order", |job| job.order.truncate(1), 2, 3),
    ("2 carriers", |job| job.moves.resize(65, Move { start: 0, goal: 2 }), 2, 2),
    ("2 closed", |job| job.hall.closed = (0..1025).collect(), 2, 4),
    ("2 closed, many", |job| job.hall.closed.resize(65_535, 0), 2, 4),
    ("2 lanes", |job| job.hall.lane_numbers.truncate(3), 2, 1),
    ("2 nodes", |job| job.hall.nodes = 1025, 2, 0),
];

/// The same jobs are planned and written; writing does not ask for 8. With one
/// move, of carrier 0, the order and the other carriers play no part.
fn refusals_of_numbers(checks: &mut Checks) {
    let mut spoiled = page::plates_taken_up();
    for (name, change, number, at) in CHANGES {
        change(&mut spoiled);
        let wanted = Refusal { number: *number, at: *at };
        let found = plan(&spoiled).map(|plan| plan.ticks);
        checks.same(&format!("planning, {}", name), found, Err(wanted));
        let written = write(&mut vec![1; LEAST_TEXT], &spoiled).map_err(|refusal| refusal.number);
        let refused = if *number == 8 { Ok(146) } else { Err(*number) };
        checks.same(&format!("writing, {}", name), written, refused);
        let of_the_move = [3, 12].contains(number) || *number == 2 && [0, 1, 4].contains(at);
        let alone = match (name, of_the_move) {
            (_, true) => wanted,
            (&"2 dwell" | &"2 order" | &"2 carriers", _) => Refusal { number: 3, at: 16 },
            (&"7" | &"13 of a goal" | &"4 before it", _) => Refusal { number: 8, at: 0 },
            _ => Refusal { number: *number, at: 0 },
        };
        let asked = spoiled.moves[0];
        let found = house_path_of_move(&spoiled.hall, asked);
        checks.same(&format!("house path, {}", name), found, Err(alone));
        let found = judge_for_move(&spoiled.hall, asked, &[]);
        checks.same(&format!("judging, {}", name), found, Err(alone));
    }
}

fn paths(checks: &mut Checks) {
    let square = hall(5, &[0, 1, 0, 2, 0, 4, 1, 3, 2, 3]);
    let over = Move { start: 0, goal: 3 };
    let (one, other): (&[u16], &[u16]) = (&[0, 1, 3], &[0, 2, 3]);
    let closed = with_closed(square.clone(), &[1]);
    checks.same("around", house_path_of_move(&closed, over), Ok(other.to_vec()));
    checks.same("a list that stands on it", judge_for_move(&closed, over, one), refuse(11, 0));
    checks.same("a list that does not", judge_for_move(&closed, over, other), Ok(()));
    checks.same("the spare", choose(&closed, over, one, other), Choice::Spare);
    checks.same("the own", choose(&closed, over, other, one), Choice::Own);
    checks.same("neither", choose(&closed, over, one, one), Choice::Neither);
    let both = with_closed(square, &[1, 2]);
    checks.same("no way", judge_for_move(&both, over, other), refuse(8, 0));
    checks.same("no choice", choose(&both, over, one, other), Choice::Neither);
    let from_closed = Move { start: 1, goal: 3 };
    checks.same("from it", judge_for_move(&both, from_closed, &[1, 3]), refuse(13, 0));
    checks.same("choice from it", choose(&both, from_closed, &[1, 3], one), Choice::Neither);
    let distances = Network::of(&both).distances_from(0);
    checks.same("distances", distances, vec![Some(0), None, None, None, Some(1)]);
    checks.same("from a closed node", Network::of(&both).distances_from(1), vec![None; 5]);
}

/// The hall without the lanes at its closed nodes, and with all nodes open.
fn lanes_taken_out(hall: &Hall) -> Hall {
    let is_closed = |node: u16| hall.closed.contains(&node);
    let left =
        hall.lanes().into_iter().filter(|&(one, other)| !is_closed(one) && !is_closed(other));
    let lane_numbers = left.flat_map(|(one, other)| [one, other]).collect();
    Hall { nodes: hall.nodes, lane_numbers, closed: Vec::new() }
}

fn same_as_without_lanes(checks: &mut Checks) {
    let mut dice = Dice::new(13);
    let mut tried = 0;
    while tried < 300 {
        let job = any_job(&mut dice, 40, true);
        if job.hall.closed.is_empty() {
            continue;
        }
        tried += 1;
        let other = Job { hall: lanes_taken_out(&job.hall), ..job.clone() };
        let ticks = |job: &Job| plan(job).map(|plan| (plan.ticks, plan.distances));
        checks.same("the same plan", ticks(&job), ticks(&other));
        let path = |job: &Job| house_path_of_carrier(job, 0);
        checks.same("the same path", path(&job), path(&other));
    }
}

pub fn run(checks: &mut Checks) {
    plans(checks);
    refusals_of_texts(checks);
    refusals_of_numbers(checks);
    paths(checks);
    same_as_without_lanes(checks);
}
