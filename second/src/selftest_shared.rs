// Carriers that share a start, a goal or both: the cases of the rules with
// their ticks and cost, what the pair rule says of such pairs, trains of every
// length, the latest ticks that there can be, all with a dwell too, and that
// nothing is ever refused with 6.

use crate::answers::answers_to;
use crate::dice::Dice;
use crate::generate::random_cases;
use crate::halls::grid;
use crate::job::{Job, Move};
use crate::limits_dwell::latest;
use crate::page;
use crate::plan::plan;
use crate::rule::{Distances, Pair};
use crate::selftest::Checks;

fn cases_of_the_rules(checks: &mut Checks) {
    for (number, (job, ticks, cost)) in page::shared_cases().into_iter().enumerate() {
        let found = plan(&job).map(|plan| (plan.cost(), plan.ticks));
        checks.same(&format!("shared ends, case {}", number), found, Ok((cost, ticks)));
    }
}

/// Texts in which an end stands twice are accepted and planned.
fn texts(checks: &mut Checks) {
    for (moves, wanted) in [
        ("0 1\n0 2", "PLAN 2\n0 0 1 1\n1 1 2 3\nCOST 4\n"),
        ("0 1\n2 1", "PLAN 2\n0 0 1 1\n1 1 1 2\nCOST 3\n"),
        ("0 2\n0 2", "PLAN 2\n0 0 2 2\n1 1 2 3\nCOST 5\n"),
        ("0 2\n1 2", "PLAN 2\n0 0 2 2\n1 0 1 1\nCOST 3\n"),
        ("0 2\n0 3", "REFUSED 8 7\n"),
        ("3 0\n3 0", "REFUSED 8 6\n"),
    ] {
        let head = "NODES 4\nLANES 2\n0 1\n1 2\nCARRIERS 2\n";
        let text = [head, moves, "\nORDER 2\n0\n1\n"].concat();
        checks.prints(moves, text.as_bytes(), wanted);
    }
}

/// Which differences the rule forbids, for all moves with one start or one
/// goal in a grid: 0, or the difference of the two distances, and what is no
/// farther from it than the dwell.
fn pair_rule(checks: &mut Checks, dwell: u32) {
    let hall = grid(12, 4);
    for shared in 0..12 {
        let others: Vec<u16> = (0..12).filter(|&node| node != shared).collect();
        let from: Vec<Move> = others.iter().map(|&goal| Move { start: shared, goal }).collect();
        let to: Vec<Move> = others.iter().map(|&start| Move { start, goal: shared }).collect();
        for (moves, one_start) in [(from, true), (to, false)] {
            let job = Job { hall: hall.clone(), moves, order: Vec::new(), dwell };
            let distances = Distances::of(&job);
            let own = distances.own().expect("all nodes are joined");
            let as_it_must = |earlier: usize, later: usize| {
                let only = if one_start { 0 } else { own[earlier] - own[later] };
                let is_far = |by: i64| (by - only).abs() > dwell.into();
                let permits = |pair: Pair| (-20..=20).all(|by| pair.permits(by) == is_far(by));
                Pair::of(&distances, dwell, earlier, later).map_or(false, permits)
            };
            let right = (0..11).all(|earlier| (0..11).all(|later| as_it_must(earlier, later)));
            checks.same(&format!("one end at {}, dwell {}", shared, dwell), right, true);
        }
    }
}

/// The carrier at place p starts at tick p, or with a dwell at p times one tick
/// more than that.
fn trains(checks: &mut Checks, dwell: u32) {
    let mut dice = Dice::new(1);
    for carriers in 1..=64 {
        let mut job = page::dwelling(dwell, page::job(grid(20, 4), &vec![(19, 0); carriers]));
        dice.shuffle(&mut job.order);
        let mut wanted = vec![0; carriers];
        for (place, &carrier) in job.order.iter().enumerate() {
            wanted[usize::from(carrier)] = place as i64 * i64::from(dwell + 1);
        }
        checks.same("a train", plan(&job).map(|plan| plan.ticks), Ok(wanted));
    }
}

/// To and fro between the ends of a line of all nodes, one carrier after the
/// other: the latest start tick and goal tick that a plan can have.
fn latest_ticks(checks: &mut Checks) {
    for (dwell, wanted) in [(0, (64_512, 65_535)), (1, (64_575, 65_598)), (255, (80_577, 81_600))] {
        let found = plan(&latest(dwell)).map(|plan| (plan.ticks[63], plan.goal_tick(63)));
        checks.same("the latest ticks", found, Ok(wanted));
    }
}

/// Of random cases, sound and damaged, each number but 6 refuses some.
fn six_is_not_in_use(checks: &mut Checks) {
    let mut refused = [0; 14];
    for case in random_cases(&mut Dice::new(6), 3000) {
        for refusal in answers_to(&case).iter().filter_map(|answer| answer.refusal()) {
            refused[usize::from(refusal.number)] += 1;
        }
    }
    for (number, &count) in refused.iter().enumerate().skip(1) {
        checks.same(&format!("some are refused with {}", number), count > 0, number != 6);
    }
}

pub fn run(checks: &mut Checks) {
    cases_of_the_rules(checks);
    texts(checks);
    for dwell in [0, 1, 2, 9] {
        pair_rule(checks, dwell);
        trains(checks, dwell);
    }
    latest_ticks(checks);
    six_is_not_in_use(checks);
}
