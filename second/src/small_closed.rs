// All networks of one to four nodes with every set of closed nodes but the
// empty one, and every two moves whose ends are nodes and differ, in order 0, 1.
// They come as texts, which is quickest; of those with a closed end, which are
// refused with 13, some come from numbers.
// Then the house path of every move in these networks, and for moves between
// open nodes the question about lists, with closed nodes in them or not.

use crate::batch::Case;
use crate::job::{Hall, Job, Move};
use crate::least_cases::{move_numbers, path_of_move, plan_numbers};
use crate::network::Network;
use crate::page;
use crate::small::{all_lists, all_small_halls};
use crate::text;

/// Every small hall with every set of closed nodes but the empty one.
fn all_closed_halls() -> Vec<Hall> {
    let mut halls = Vec::new();
    for hall in all_small_halls() {
        for set in 1_u32..1 << hall.nodes {
            let closed = (0..hall.nodes as u16).filter(|node| set >> node & 1 == 1).collect();
            halls.push(Hall { closed, ..hall.clone() });
        }
    }
    halls
}

/// Every move between two different nodes.
fn moves_in(hall: &Hall) -> Vec<Move> {
    (all_lists(hall.nodes as u16, 2).into_iter())
        .filter(|ends| ends[0] != ends[1])
        .map(|ends| Move { start: ends[0], goal: ends[1] })
        .collect()
}

fn has_open_ends(hall: &Hall, asked: Move) -> bool {
    !hall.closed.contains(&asked.start) && !hall.closed.contains(&asked.goal)
}

/// Every two moves in a hall, as jobs.
fn pairs_in(hall: &Hall) -> Vec<Job> {
    let mut jobs = Vec::new();
    for one in moves_in(hall) {
        for other in moves_in(hall) {
            let (moves, order) = (vec![one, other], vec![0, 1]);
            jobs.push(Job { hall: hall.clone(), moves, order, dwell: 0 });
        }
    }
    jobs
}

/// As a text, save every 37th job if it has a closed end. No row of pairs is a
/// multiple of that long, so each pair comes from numbers in some hall.
fn planned((number, job): (usize, Job)) -> Case {
    let all_open = job.moves.iter().all(|&asked| has_open_ends(&job.hall, asked));
    if all_open || number % 37 > 0 {
        Case::Plan { text: text::write(&job) }
    } else {
        plan_numbers(&job)
    }
}

/// The lists that are asked about for a move between open nodes: of up to three
/// nodes every list of up to three, and of four nodes every list from the start
/// to the goal in which no node comes twice.
fn lists_for(hall: &Hall, asked: Move) -> Vec<Vec<u16>> {
    let nodes = hall.nodes as u16;
    if nodes <= 3 {
        return (0..=3).flat_map(|length| all_lists(nodes, length)).collect();
    }
    let ends = [asked.start, asked.goal];
    let between: Vec<u16> = (0..nodes).filter(|node| !ends.contains(node)).collect();
    let (one, other) = (between[0], between[1]);
    [&[][..], &[one], &[other], &[one, other], &[other, one]]
        .into_iter()
        .map(|inner| [&ends[..1], inner, &ends[1..]].concat())
        .collect()
}

/// The house path of a move with closed ends is asked for with a text, and that
/// of any other move from numbers with its first list. The other lists come
/// with a text. Without a walk no list can pass, and only one is asked about.
fn paths_in(hall: &Hall) -> Vec<Case> {
    let text = text::write(&page::job(hall.clone(), &[]));
    let network = Network::of(hall);
    let mut cases = Vec::new();
    for asked in moves_in(hall) {
        if !has_open_ends(hall, asked) {
            cases.push(path_of_move(asked, text.clone()));
            continue;
        }
        let has_walk =
            network.distances_from(asked.start.into())[usize::from(asked.goal)].is_some();
        let lists = if has_walk { lists_for(hall, asked) } else { vec![Vec::new()] };
        for (number, list) in lists.into_iter().enumerate() {
            cases.push(match number {
                0 => move_numbers(hall.clone(), asked, list),
                _ => Case::JudgeForMove { asked, list, text: text.clone() },
            });
        }
    }
    cases
}

pub fn small_closed_cases() -> Vec<Case> {
    let halls = all_closed_halls();
    let mut cases: Vec<Case> = halls.iter().flat_map(pairs_in).enumerate().map(planned).collect();
    cases.extend(halls.iter().flat_map(paths_in));
    cases
}
