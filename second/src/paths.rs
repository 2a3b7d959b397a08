// Paths of one move: the house path, the question about one list, and the
// choice between two lists. All three take a network and a move. The first two
// also take a job and one of its carriers by number, and then every check of
// the job comes first, its refusal 8 for any carrier included.

use crate::job::{refuse, Hall, Job, Move, Refusal};
use crate::network::Network;
use crate::rule::Distances;

/// The house path with a network and a move: refusals 2, 3, 12, 4, 5, 13, 8.
pub fn house_path_of_move(hall: &Hall, asked: Move) -> Result<Vec<u16>, Refusal> {
    hall.check_with_move(asked)?;
    let network = Network::of(hall);
    let to_goal = network.distances_from(asked.goal.into());
    let mut node = usize::from(asked.start);
    let mut left = match to_goal[node] {
        None => return refuse(8, 0),
        Some(distance) => distance,
    };
    let mut path = vec![asked.start];
    while left > 0 {
        left -= 1;
        // Neighbours come lowest number first. One of them is nearer, because
        // a node at this distance has a shortest walk through one.
        let nearer = network.neighbours(node).into_iter().find(|&next| to_goal[next] == Some(left));
        node = nearer.expect("a nearer neighbour exists");
        path.push(node as u16);
    }
    Ok(path)
}

/// The question about one list with a network and a move: refusals 2, 3, 12, 4,
/// 5, 13, 8 and 11. A list that stands on a closed node fails at the lanes to
/// it, which join nothing.
pub fn judge_for_move(hall: &Hall, asked: Move, list: &[u16]) -> Result<(), Refusal> {
    hall.check_with_move(asked)?;
    let network = Network::of(hall);
    let distance = match network.distances_from(asked.start.into())[usize::from(asked.goal)] {
        None => return refuse(8, 0),
        Some(distance) => distance,
    };
    let has_length = list.len() as i64 == distance + 1;
    let begins = list.first() == Some(&asked.start);
    let ends = list.last() == Some(&asked.goal);
    let joins = list.windows(2).all(|two| network.joined(two[0].into(), two[1].into()));
    if has_length && begins && ends && joins {
        Ok(())
    } else {
        refuse(11, 0)
    }
}

/// The move of a carrier, after all checks of the job and then 10.
fn move_of_carrier(job: &Job, carrier: u16) -> Result<Move, Refusal> {
    job.check()?;
    Distances::of(job).own()?;
    match job.moves.get(usize::from(carrier)) {
        Some(&asked) => Ok(asked),
        None => refuse(10, carrier.into()),
    }
}

pub fn house_path_of_carrier(job: &Job, carrier: u16) -> Result<Vec<u16>, Refusal> {
    house_path_of_move(&job.hall, move_of_carrier(job, carrier)?)
}

pub fn judge_for_carrier(job: &Job, carrier: u16, list: &[u16]) -> Result<(), Refusal> {
    judge_for_move(&job.hall, move_of_carrier(job, carrier)?, list)
}

#[derive(Clone, Copy, Debug, PartialEq, Eq)]
pub enum Choice {
    Own,
    Spare,
    /// The empty part.
    Neither,
}

/// The drive shop's own list where it is a shortest path; failing that, the
/// spare where it is one. A faulty network or move passes no list.
pub fn choose(hall: &Hall, asked: Move, own: &[u16], spare: &[u16]) -> Choice {
    if judge_for_move(hall, asked, own).is_ok() {
        Choice::Own
    } else if judge_for_move(hall, asked, spare).is_ok() {
        Choice::Spare
    } else {
        Choice::Neither
    }
}
