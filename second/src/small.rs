// All networks of one to four nodes, every subset of the possible lanes, each
// with every pair of starts and goals in order 0, 1: 17,065 texts. Pairs that
// share a start, a goal or both are among them, and so are those that are
// refused, so nothing at this size is left to chance. All nodes are open here.
// Then every three moves of which two share an end, in all networks of two or
// three nodes and in the six shapes of four joined nodes: 10,432 texts.
// All these pairs come again with a dwell of 1, 2 and 3, and the threes with a
// dwell of 1: 61,627 texts.
// Likewise every move with every list of up to three nodes in networks of up
// to three, and every house path in all of them: 3,033 cases from numbers.

use crate::batch::Case;
use crate::halls::{complete, hall_of, line, ring, star};
use crate::job::{Hall, Job, Move};
use crate::least_cases::move_numbers;
use crate::text;

pub fn all_small_halls() -> Vec<Hall> {
    let mut halls = Vec::new();
    for nodes in 1..=4 {
        let lanes: Vec<(usize, usize)> = (0..nodes)
            .flat_map(|lower| (lower + 1..nodes).map(move |higher| (lower, higher)))
            .collect();
        for subset in 0..1 << lanes.len() {
            let chosen = (lanes.iter().enumerate())
                .filter(|(place, _)| subset >> place & 1 == 1)
                .map(|(_, &lane)| lane);
            halls.push(hall_of(nodes, chosen.collect()));
        }
    }
    halls
}

/// Every list of `length` nodes out of the first `nodes`.
pub fn all_lists(nodes: u16, length: usize) -> Vec<Vec<u16>> {
    let mut lists = vec![Vec::new()];
    for _ in 0..length {
        lists = (lists.iter())
            .flat_map(|list| (0..nodes).map(move |node| [&list[..], &[node]].concat()))
            .collect();
    }
    lists
}

/// A job of carriers with these ends, a start and a goal by turns.
fn job_of(hall: &Hall, dwell: u32, ends: &[u16]) -> Job {
    let moves: Vec<Move> =
        ends.chunks_exact(2).map(|two| Move { start: two[0], goal: two[1] }).collect();
    let order = (0..moves.len() as u16).collect();
    Job { hall: hall.clone(), moves, order, dwell }
}

/// Every pair of moves in a hall.
pub fn pairs_in(hall: &Hall, dwell: u32) -> Vec<Job> {
    all_lists(hall.nodes as u16, 4).iter().map(|ends| job_of(hall, dwell, ends)).collect()
}

/// A line, a star, a ring, a triangle with a tail, a ring with one lane across
/// it, and all six lanes: every joined network of four nodes is one of these,
/// numbered in some way.
fn joined_fours() -> Vec<Hall> {
    let tail = hall_of(4, vec![(0, 1), (0, 2), (1, 2), (2, 3)]);
    let across = hall_of(4, vec![(0, 1), (1, 2), (2, 3), (0, 3), (0, 2)]);
    vec![line(4), star(4), ring(4), tail, across, complete(4)]
}

/// Whether two of three moves have one start or one goal.
fn share_an_end(ends: &[u16]) -> bool {
    (0..6).any(|one| (0..one).any(|other| one % 2 == other % 2 && ends[one] == ends[other]))
}

fn threes_in(hall: &Hall, dwell: u32) -> Vec<Job> {
    (all_lists(hall.nodes as u16, 6).iter())
        .filter(|ends| ends.chunks_exact(2).all(|two| two[0] != two[1]) && share_an_end(ends))
        .map(|ends| job_of(hall, dwell, ends))
        .collect()
}

fn all_pairs(dwell: u32) -> Vec<Job> {
    all_small_halls().iter().flat_map(|hall| pairs_in(hall, dwell)).collect()
}

fn all_threes(dwell: u32) -> Vec<Job> {
    let mut halls = all_small_halls();
    halls.retain(|hall| hall.nodes <= 3);
    halls.extend(joined_fours());
    halls.iter().flat_map(|hall| threes_in(hall, dwell)).collect()
}

fn planned(jobs: Vec<Job>) -> impl Iterator<Item = Case> {
    jobs.into_iter().map(|job| Case::Plan { text: text::write(&job) })
}

fn paths_in(hall: &Hall) -> Vec<Case> {
    let mut cases = Vec::new();
    let nodes = hall.nodes as u16;
    for ends in all_lists(nodes, 2) {
        let asked = Move { start: ends[0], goal: ends[1] };
        let lists = match nodes {
            1..=3 if ends[0] != ends[1] => {
                (0..=3).flat_map(|length| all_lists(nodes, length)).collect()
            }
            _ => vec![ends],
        };
        for list in lists {
            cases.push(move_numbers(hall.clone(), asked, list));
        }
    }
    cases
}

pub fn all_small_cases() -> Vec<Case> {
    let mut cases: Vec<Case> = planned(all_pairs(0)).collect();
    cases.extend(planned(all_threes(0)));
    cases.extend(all_small_halls().iter().flat_map(paths_in));
    for dwell in 1..=3 {
        cases.extend(planned(all_pairs(dwell)));
    }
    cases.extend(planned(all_threes(1)));
    cases
}
