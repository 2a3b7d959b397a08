// The cases P1 to P11 of page 01 as jobs, with the ticks or the refusal that
// the page gives, the cases of carriers that share an end (rule 11.14) and of
// carriers that wait on their goals (rule 11.16), and a hall before and after
// floor plates are taken up.
// The selftest plans them, and every batch holds them.

use crate::halls::{grid, line};
use crate::job::{refuse, Hall, Job, Move, Refusal};

/// A job whose order is that of the carrier numbers, without a dwell.
pub fn job(hall: Hall, moves: &[(u16, u16)]) -> Job {
    let moves: Vec<Move> = moves.iter().map(|&(start, goal)| Move { start, goal }).collect();
    let order = (0..moves.len() as u16).collect();
    Job { hall, moves, order, dwell: 0 }
}

pub fn hall(nodes: u32, lane_numbers: &[u16]) -> Hall {
    Hall { nodes, lane_numbers: lane_numbers.to_vec(), closed: Vec::new() }
}

/// P2.
pub fn against() -> Job {
    job(line(5), &[(0, 4), (4, 0)])
}

/// P3.
pub fn two_nodes() -> Job {
    job(line(2), &[(0, 1), (1, 0)])
}

/// P4.
pub fn head_on() -> Job {
    job(line(4), &[(0, 3), (3, 0)])
}

/// P6, a pair with a gap above 0.
pub fn wide_apart() -> Job {
    job(line(5), &[(0, 1), (3, 4)])
}

/// P7.
pub fn all_six_lanes() -> Job {
    job(hall(4, &[0, 1, 0, 2, 0, 3, 1, 2, 1, 3, 2, 3]), &[(0, 1), (2, 3)])
}

/// P8.
pub fn printed_job() -> Job {
    job(line(5), &[(0, 4), (4, 0), (2, 1)])
}

/// P9.
pub fn printed_job_reversed() -> Job {
    let mut reversed = printed_job();
    reversed.order.reverse();
    reversed
}

/// P10.
pub fn two_lanes_apart() -> Job {
    job(hall(4, &[0, 1, 2, 3]), &[(0, 1), (2, 3)])
}

/// P11.
pub fn goal_out_of_reach() -> Job {
    job(hall(3, &[0, 1]), &[(0, 2)])
}

type Case = (&'static str, Job, Result<Vec<i64>, Refusal>);

pub fn cases() -> Vec<Case> {
    vec![
        ("P1", job(line(1), &[]), Ok(vec![])),
        ("P2", against(), Ok(vec![0, 5])),
        ("P3", two_nodes(), Ok(vec![0, 2])),
        ("P4", head_on(), Ok(vec![0, 4])),
        ("P5", job(line(5), &[(0, 3), (1, 4)]), Ok(vec![0, 0])),
        ("P6", wide_apart(), Ok(vec![0, 0])),
        ("P7", all_six_lanes(), Ok(vec![0, 0])),
        ("P8", printed_job(), Ok(vec![0, 5, 3])),
        ("P9", printed_job_reversed(), Ok(vec![5, 0, 0])),
        ("P10", two_lanes_apart(), Ok(vec![0, 0])),
        ("P11", goal_out_of_reach(), refuse(8, 0)),
    ]
}

/// Three carriers from one lift to one chute on a line of four nodes.
pub fn train() -> Job {
    job(line(4), &[(0, 3), (0, 3), (0, 3)])
}

/// Carriers that share an end, with their ticks and the cost.
pub fn shared_cases() -> Vec<(Job, Vec<i64>, i64)> {
    let mut last_first = train();
    last_first.order = vec![2, 0, 1];
    vec![
        (train(), vec![0, 1, 2], 12),
        (last_first, vec![1, 2, 0], 12),
        (job(line(4), &[(1, 0), (1, 3)]), vec![0, 1], 4),
        (one_chute(), vec![0, 0], 4),
        (job(line(4), &[(0, 1), (2, 1)]), vec![0, 1], 3),
        (job(line(5), &[(0, 4), (0, 4), (4, 0)]), vec![0, 1, 6], 19),
    ]
}

/// A square of four nodes, and two carriers along opposite sides. Without a
/// dwell the stretch of this pair is empty.
pub fn opposite_sides() -> Job {
    job(hall(4, &[0, 1, 0, 2, 1, 3, 2, 3]), &[(0, 1), (2, 3)])
}

/// Two carriers to one chute, the second from a node on the way of the first.
pub fn one_chute() -> Job {
    job(line(4), &[(0, 3), (2, 3)])
}

/// The job with this dwell.
pub fn dwelling(dwell: u32, job: Job) -> Job {
    Job { dwell, ..job }
}

/// Carriers that wait on their goals, with their ticks and the cost. Two jobs
/// come without a dwell, too.
pub fn dwell_cases() -> Vec<(Job, Vec<i64>, i64)> {
    vec![
        (dwelling(2, printed_job()), vec![0, 7, 5], 21),
        (printed_job(), vec![0, 5, 3], 17),
        (dwelling(1, all_six_lanes()), vec![0, 2], 4),
        (dwelling(2, all_six_lanes()), vec![0, 3], 5),
        (opposite_sides(), vec![0, 0], 2),
        (dwelling(1, opposite_sides()), vec![0, 1], 3),
        (dwelling(2, opposite_sides()), vec![0, 2], 4),
        (dwelling(2, one_chute()), vec![0, 5], 9),
        (dwelling(1, train()), vec![0, 2, 4], 15),
        (dwelling(255, wide_apart()), vec![0, 0], 2),
        (dwelling(255, two_lanes_apart()), vec![0, 0], 2),
        (dwelling(255, two_nodes()), vec![0, 257], 259),
    ]
}

/// Dwells that are too long, and one that is not, with other faults and without,
/// and the refusal of each.
pub fn dwell_refusals() -> Vec<(Job, Refusal)> {
    let falling = || job(hall(2, &[1, 0]), &[]);
    let mut no_places = job(line(2), &[(0, 1)]);
    no_places.order.clear();
    vec![
        (dwelling(256, job(line(2), &[])), Refusal { number: 2, at: 5 }),
        (dwelling(256, no_places), Refusal { number: 2, at: 3 }),
        (dwelling(256, falling()), Refusal { number: 2, at: 5 }),
        (dwelling(255, falling()), Refusal { number: 3, at: 0 }),
    ]
}

/// Three rows of four nodes, all of them open.
pub fn plates_in_place() -> Job {
    job(grid(12, 4), &[(0, 3), (3, 0), (9, 11)])
}

/// The same with three closed nodes: one way is left between 0 and 3, around
/// by the third row, and it is 7 lanes long in the place of 3.
pub fn plates_taken_up() -> Job {
    let mut job = plates_in_place();
    job.hall.closed = vec![1, 5, 7];
    job
}
