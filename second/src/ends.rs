// How the carriers of a job get their starts and goals. Any number of carriers
// may have one start, one goal or both, so a job may have more carriers than
// nodes. Ends are dealt in several ways, taken by dice: in about a quarter of
// the jobs no end is shared, in the others few nodes serve many carriers. No
// end is a closed node.

use crate::dice::Dice;
use crate::job::{Hall, Move};
use crate::network::Network;

/// A hall, and whether each goal must lie in reach of its start.
struct Floor {
    network: Network,
    reachable: bool,
}

impl Floor {
    /// Which nodes can be the goal of a move from this start, by node number.
    fn goals_of(&self, start: usize) -> Vec<bool> {
        let reach = self.network.distances_from(start);
        let is_open = |node: usize| self.network.is_open(node);
        (0..self.network.nodes())
            .map(|goal| goal != start && is_open(start) && is_open(goal))
            .zip(reach)
            .map(|(fits, distance)| fits && (!self.reachable || distance.is_some()))
            .collect()
    }

    fn shuffled_nodes(&self, dice: &mut Dice) -> Vec<usize> {
        let mut nodes: Vec<usize> = (0..self.network.nodes()).collect();
        dice.shuffle(&mut nodes);
        nodes
    }

    /// So many nodes that have a goal, or fewer if there are not as many.
    fn lifts(&self, dice: &mut Dice, count: usize) -> Vec<usize> {
        (self.shuffled_nodes(dice).into_iter())
            .filter(|&start| self.goals_of(start).contains(&true))
            .take(count)
            .collect()
    }

    /// So many nodes that are a goal of one of the lifts, or fewer.
    fn chutes(&self, dice: &mut Dice, lifts: &[usize], count: usize) -> Vec<usize> {
        let goals: Vec<Vec<bool>> = lifts.iter().map(|&lift| self.goals_of(lift)).collect();
        (self.shuffled_nodes(dice).into_iter())
            .filter(|&chute| goals.iter().any(|fits| fits[chute]))
            .take(count)
            .collect()
    }

    /// Each carrier gets one of the moves that lead from a lift to a chute:
    /// either each of these once before any comes again, or as the dice will.
    /// Without any such move there are no carriers.
    fn deal(
        &self,
        dice: &mut Dice,
        carriers: usize,
        lifts: &[usize],
        chutes: &[usize],
    ) -> Vec<Move> {
        let mut possible = Vec::new();
        for &lift in lifts {
            let fits = self.goals_of(lift);
            for &chute in chutes.iter().filter(|&&chute| fits[chute]) {
                possible.push(Move { start: lift as u16, goal: chute as u16 });
            }
        }
        dice.shuffle(&mut possible);
        if possible.is_empty() || dice.once_in(2) {
            return possible.into_iter().cycle().take(carriers).collect();
        }
        (0..carriers).map(|_| dice.pick(&possible)).collect()
    }
}

/// Moves with distinct starts and distinct goals. If `reachable`, each goal
/// lies in reach of its start. There may come out fewer than asked for.
pub fn moves_apart(dice: &mut Dice, hall: &Hall, carriers: usize, reachable: bool) -> Vec<Move> {
    let floor = Floor { network: Network::of(hall), reachable };
    let starts = floor.shuffled_nodes(dice);
    let mut goals = floor.shuffled_nodes(dice);
    let mut moves = Vec::new();
    for start in starts {
        if moves.len() == carriers {
            break;
        }
        let fits = floor.goals_of(start);
        if let Some(at) = goals.iter().position(|&goal| fits[goal]) {
            let goal = goals.swap_remove(at);
            moves.push(Move { start: start as u16, goal: goal as u16 });
        }
    }
    moves
}

/// Moves whose ends are dealt in one of six ways. If `reachable`, each goal
/// lies in reach of its start. Fewer than asked for come out where no end is
/// shared and the hall is too small, and none where no start has a goal.
pub fn moves_in(dice: &mut Dice, hall: &Hall, carriers: usize, reachable: bool) -> Vec<Move> {
    let floor = Floor { network: Network::of(hall), reachable };
    let few = dice.between(1, 3);
    let (lifts, chutes) = match dice.below(8) {
        0 | 1 => return moves_apart(dice, hall, carriers, reachable),
        // A few lifts and many chutes, and the other way round.
        2 => (few, carriers),
        3 => (carriers, 1),
        4 | 5 => (few, dice.between(1, 3)),
        // A train: all from one lift to one chute.
        6 => (1, 1),
        _ => {
            // A few nodes, each a lift and a chute, so that carriers with
            // shared ends go against each other.
            let mut nodes = floor.lifts(dice, 1);
            nodes.extend(floor.chutes(dice, &nodes, few));
            return floor.deal(dice, carriers, &nodes, &nodes);
        }
    };
    let lifts = floor.lifts(dice, lifts);
    let chutes = floor.chutes(dice, &lifts, chutes);
    floor.deal(dice, carriers, &lifts, &chutes)
}
