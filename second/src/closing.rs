// Nodes closed by dice, for the generator: in about a third of the halls, most
// often a few nodes, at times many or all of them. What is closed may cut walks
// and part a hall; the moves are dealt after that, or nodes are closed that no
// move has as an end.

use crate::dice::Dice;
use crate::job::{Hall, Job};

/// So many of the nodes, or all if there are not as many, in rising order.
fn some_of(dice: &mut Dice, mut nodes: Vec<u16>, count: usize) -> Vec<u16> {
    dice.shuffle(&mut nodes);
    nodes.truncate(count);
    nodes.sort_unstable();
    nodes
}

fn all_nodes(hall: &Hall) -> Vec<u16> {
    (0..hall.nodes as u16).collect()
}

/// How many of so many nodes to close, one at least.
fn some_count(dice: &mut Dice, nodes: usize) -> usize {
    match dice.below(6) {
        0..=2 => dice.between(1, 1 + nodes / 8),
        3 | 4 => dice.between(1, 1 + nodes / 3),
        _ => dice.between(1, nodes),
    }
}

/// The hall with so many of its nodes closed.
pub fn with_closed(dice: &mut Dice, mut hall: Hall, count: usize) -> Hall {
    hall.closed = some_of(dice, all_nodes(&hall), count);
    hall
}

/// The hall, in about a third of the throws with nodes closed.
pub fn closed_at_times(dice: &mut Dice, hall: Hall) -> Hall {
    if dice.once_in(3) {
        let count = some_count(dice, hall.nodes as usize);
        with_closed(dice, hall, count)
    } else {
        hall
    }
}

/// The nodes that no move has as an end.
pub fn free_nodes(job: &Job) -> Vec<u16> {
    let is_end =
        |node: u16| job.moves.iter().any(|asked| asked.start == node || asked.goal == node);
    all_nodes(&job.hall).into_iter().filter(|&node| !is_end(node)).collect()
}

/// Closes so many nodes that are no ends, in so far as there are any.
pub fn close_free(dice: &mut Dice, job: &mut Job, count: usize) {
    job.hall.closed = some_of(dice, free_nodes(job), count);
}

/// Closes some nodes that are no ends in about a third of the throws.
pub fn close_free_at_times(dice: &mut Dice, job: &mut Job) {
    if dice.once_in(3) {
        let count = some_count(dice, job.hall.nodes as usize);
        close_free(dice, job, count);
    }
}
