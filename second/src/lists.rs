// Lists of nodes that the drive shop might propose for a move: shortest paths
// chosen at random, and lists that fail in one of the terms or in several.
// Where nodes are closed, some lists are those of a shop that does not know it:
// shortest paths of the hall with all its nodes open.
// A move without a walk gets arbitrary lists, because then none can pass.

use crate::dice::Dice;
use crate::job::{Hall, Move};
use crate::network::Network;

/// A shortest path that turns at random, if the move has a walk.
fn random_shortest(dice: &mut Dice, network: &Network, asked: Move) -> Option<Vec<u16>> {
    let (start, goal) = (usize::from(asked.start), usize::from(asked.goal));
    if start >= network.nodes() || goal >= network.nodes() {
        return None;
    }
    let to_goal = network.distances_from(goal);
    let mut left = to_goal[start]?;
    let mut node = start;
    let mut path = vec![asked.start];
    while left > 0 {
        left -= 1;
        let next: Vec<usize> = (network.neighbours(node).into_iter())
            .filter(|&next| to_goal[next] == Some(left))
            .collect();
        node = dice.pick(&next);
        path.push(node as u16);
    }
    Some(path)
}

fn random_walk(dice: &mut Dice, network: &Network, start: u16, length: usize) -> Vec<u16> {
    let mut walk = vec![start];
    for _ in 1..length {
        let next = network.neighbours(walk[walk.len() - 1].into());
        if next.is_empty() {
            break;
        }
        walk.push(dice.pick(&next) as u16);
    }
    walk
}

fn arbitrary(dice: &mut Dice, nodes: usize) -> Vec<u16> {
    let length = dice.below(8);
    (0..length).map(|_| dice.below(nodes + 1) as u16).collect()
}

/// A damage gets the list and the network. The list is a shortest path of at
/// least two nodes when it comes in.
type ListDamage = fn(&mut Vec<u16>, &Network, &mut Dice);

const LIST_DAMAGES: &[ListDamage] = &[
    |list, _, _| list.clear(),
    |list, _, _| {
        list.pop();
    },
    |list, _, _| {
        list.remove(0);
    },
    |list, _, _| list.push(list[list.len() - 1]),
    |list, network, dice| {
        let next = network.neighbours(list[list.len() - 1].into());
        list.push(dice.pick(&next) as u16);
    },
    |list, network, dice| {
        let at = dice.below(list.len());
        list[at] = dice.below(network.nodes()) as u16;
    },
    |list, network, dice| {
        let at = dice.below(list.len());
        list[at] = dice.pick(&[network.nodes() as u16, 1024, 1025, 32_768, 65_535]);
    },
    |list, _, _| list.reverse(),
    |list, _, dice| {
        let (one, other) = (dice.below(list.len()), dice.below(list.len()));
        list.swap(one, other);
    },
    |list, _, dice| {
        // One lane is walked to and fro: a true walk, two lanes too long.
        let at = dice.below(list.len() - 1);
        let again = [list[at], list[at + 1]];
        list.splice(at..at, again);
    },
    |list, network, dice| *list = random_walk(dice, network, list[0], list.len()),
    |list, network, dice| {
        // The ends are right, what lies between is arbitrary.
        let last = list.len() - 1;
        for node in list[1..last].iter_mut() {
            *node = dice.below(network.nodes()) as u16;
        }
    },
    |list, _, _| {
        // A node stands twice in a row instead of the next one.
        if list.len() > 2 {
            list[1] = list[0];
        }
    },
    |list, network, dice| {
        // Only the beginning is wrong: another neighbour of the second node.
        list[0] = dice.pick(&network.neighbours(list[1].into())) as u16;
    },
    |list, network, dice| {
        // Only the end is wrong: another neighbour of the last node but one.
        let last = list.len() - 1;
        list[last] = dice.pick(&network.neighbours(list[last - 1].into())) as u16;
    },
    |list, _, dice| {
        let goal = list[list.len() - 1];
        list.resize(dice.between(1023, 1100), goal);
    },
];

/// A list for a move: sound in about half of the cases that allow it.
pub fn proposal(dice: &mut Dice, hall: &Hall, asked: Move) -> Vec<u16> {
    if !hall.closed.is_empty() && dice.once_in(3) {
        let all_open = Hall { closed: Vec::new(), ..hall.clone() };
        return proposal(dice, &all_open, asked);
    }
    let network = Network::of(hall);
    match random_shortest(dice, &network, asked) {
        None => arbitrary(dice, hall.nodes as usize),
        // Start and goal are one node, so the move itself is refused.
        Some(path) if path.len() == 1 => path,
        Some(mut path) => {
            if dice.once_in(2) {
                dice.pick(LIST_DAMAGES)(&mut path, &network, dice);
            }
            path
        }
    }
}

/// A move in a hall: mostly with a walk, sometimes with none, with equal ends,
/// with a closed end or with an end that is no node.
pub fn some_move(dice: &mut Dice, hall: &Hall) -> Move {
    let nodes = hall.nodes as usize;
    let network = Network::of(hall);
    let start = dice.below(nodes);
    let reach = network.distances_from(start);
    let reached: Vec<usize> =
        (0..nodes).filter(|&node| node != start && reach[node].is_some()).collect();
    let no_node = dice.pick(&[nodes, nodes + 1, 1024, 65_535]);
    let (start, goal) = match dice.below(18) {
        0 => (start, start),
        1 => (no_node, dice.below(nodes)),
        2 => (start, no_node),
        3 => (no_node, no_node),
        4 => (start, dice.below(nodes)),
        _ if reached.is_empty() => (start, dice.below(nodes)),
        _ => (start, dice.pick(&reached)),
    };
    Move { start: start as u16, goal: goal as u16 }
}
