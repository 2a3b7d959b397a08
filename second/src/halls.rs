// Sound halls and jobs of many shapes for the generator: lines, rings, stars,
// grids, trees, aisles, ladders, dense and sparse ones, some in two parts.
// Shapes matter more than chance here: long corridors make late ticks, grids
// and dense halls make gap 0 and its exception, parts make "no walk". In about
// a third of the random halls some nodes are closed, and about a third of the
// random jobs have a dwell.

use crate::closing::closed_at_times;
use crate::dice::Dice;
use crate::dwelling::dwelling_at_times;
use crate::ends::{moves_apart, moves_in};
use crate::job::{Hall, Job, Move, MOST_CARRIERS, MOST_LANES};

/// A hall from lanes in any order and direction; repeated lanes count once.
pub fn hall_of(nodes: usize, lanes: Vec<(usize, usize)>) -> Hall {
    let mut sorted: Vec<(usize, usize)> = lanes
        .into_iter()
        .filter(|(one, other)| one != other)
        .map(|(one, other)| (one.min(other), one.max(other)))
        .collect();
    sorted.sort_unstable();
    sorted.dedup();
    let lane_numbers =
        sorted.iter().flat_map(|&(lower, higher)| [lower as u16, higher as u16]).collect();
    Hall { nodes: nodes as u32, lane_numbers, closed: Vec::new() }
}

pub fn line(nodes: usize) -> Hall {
    hall_of(nodes, (1..nodes).map(|node| (node - 1, node)).collect())
}

/// A line that is numbered in zigzag, last number, first, last but one, second
/// and so on: its neighbours' numbers add up to one or two less than there are
/// nodes. Lanes that follow each other on the line are far apart in the sorted
/// list, so that a walk which sweeps the list reaches few nodes a sweep.
pub fn zigzag(nodes: usize) -> Hall {
    let joins = |sum: usize| (0..=sum).map(move |node| (node, sum - node));
    hall_of(nodes, joins(nodes - 1).chain(joins(nodes.max(2) - 2)).collect())
}

pub fn ring(nodes: usize) -> Hall {
    hall_of(nodes, (0..nodes).map(|node| (node, (node + 1) % nodes)).collect())
}

pub fn star(nodes: usize) -> Hall {
    hall_of(nodes, (1..nodes).map(|node| (0, node)).collect())
}

pub fn complete(nodes: usize) -> Hall {
    let pairs = (0..nodes).flat_map(|lower| (lower + 1..nodes).map(move |higher| (lower, higher)));
    hall_of(nodes, pairs.take(MOST_LANES).collect())
}

/// Rows of `width` nodes; the last row may be shorter.
pub fn grid(nodes: usize, width: usize) -> Hall {
    let mut lanes = Vec::new();
    for node in 0..nodes {
        if node % width > 0 {
            lanes.push((node - 1, node));
        }
        if node >= width {
            lanes.push((node - width, node));
        }
    }
    hall_of(nodes, lanes)
}

/// A corridor of `width` nodes with an aisle of nodes hanging from each.
pub fn aisles(nodes: usize, width: usize) -> Hall {
    let hang = |node: usize| if node < width { node - 1 } else { node - width };
    hall_of(nodes, (1..nodes).map(|node| (hang(node), node)).collect())
}

pub fn tree(dice: &mut Dice, nodes: usize) -> Hall {
    hall_of(nodes, (1..nodes).map(|node| (dice.below(node), node)).collect())
}

/// Each node is on one of two sides and every lane joins the sides.
pub fn two_sided(left: usize, right: usize) -> Hall {
    let pairs = (0..left).flat_map(|node| (left..left + right).map(move |other| (node, other)));
    hall_of(left + right, pairs.take(MOST_LANES).collect())
}

/// As many random lanes as asked for, in so far as the hall has room.
pub fn scattered(dice: &mut Dice, nodes: usize, lanes: usize) -> Hall {
    let room = nodes * (nodes - 1) / 2;
    let wanted = lanes.min(room);
    let mut chosen = std::collections::BTreeSet::new();
    while chosen.len() < wanted {
        let (one, other) = (dice.below(nodes), dice.below(nodes));
        if one != other {
            chosen.insert((one.min(other), one.max(other)));
        }
    }
    hall_of(nodes, chosen.into_iter().collect())
}

/// Two lines that no lane joins.
pub fn two_parts(nodes: usize) -> Hall {
    let cut = nodes / 2;
    hall_of(nodes, (1..nodes).filter(|&node| node != cut).map(|node| (node - 1, node)).collect())
}

/// The same hall with its nodes numbered anew at random.
pub fn renumbered(dice: &mut Dice, hall: &Hall) -> Hall {
    let nodes = hall.nodes as usize;
    let mut names: Vec<usize> = (0..nodes).collect();
    dice.shuffle(&mut names);
    let lanes = hall.lanes();
    let renamed = lanes.iter().map(|&(one, other)| (names[one as usize], names[other as usize]));
    hall_of(nodes, renamed.collect())
}

/// A hall in which a walk joins any two nodes.
pub fn joined_hall(dice: &mut Dice, nodes: usize) -> Hall {
    let width = dice.between(2, 8);
    let hall = match dice.below(10) {
        0 => line(nodes),
        1 => ring(nodes),
        2 => star(nodes),
        3 => grid(nodes, width),
        4 => aisles(nodes, width),
        5 => tree(dice, nodes),
        6 => grid(nodes, 2),
        7 => complete(nodes.min(20)),
        8 => two_sided(nodes.min(20) / 2, nodes.min(20) - nodes.min(20) / 2),
        _ => {
            let mut lanes = tree(dice, nodes).lane_numbers;
            lanes.extend(scattered(dice, nodes, nodes / 2).lane_numbers);
            let pairs = lanes.chunks(2).map(|two| (two[0].into(), two[1].into()));
            hall_of(nodes, pairs.collect())
        }
    };
    if dice.once_in(2) {
        renumbered(dice, &hall)
    } else {
        hall
    }
}

/// A hall of any shape, joined or not.
pub fn any_hall(dice: &mut Dice, nodes: usize) -> Hall {
    let hall = match dice.below(8) {
        0 => two_parts(nodes),
        1 => scattered(dice, nodes, nodes / 2),
        2 => scattered(dice, nodes, nodes),
        3 => scattered(dice, nodes, 3 * nodes),
        _ => joined_hall(dice, nodes),
    };
    closed_at_times(dice, hall)
}

/// A job with these moves, its order by number or shuffled.
fn ordered(dice: &mut Dice, hall: Hall, moves: Vec<Move>) -> Job {
    let mut order: Vec<u16> = (0..moves.len() as u16).collect();
    if !dice.once_in(4) {
        dice.shuffle(&mut order);
    }
    Job { hall, moves, order, dwell: 0 }
}

/// A job over a hall, whose carriers mostly share ends.
pub fn job_over(dice: &mut Dice, hall: Hall, carriers: usize, reachable: bool) -> Job {
    let moves = moves_in(dice, &hall, carriers, reachable);
    ordered(dice, hall, moves)
}

/// A job over a hall in which no two carriers share an end.
pub fn job_apart(dice: &mut Dice, hall: Hall, carriers: usize, reachable: bool) -> Job {
    let moves = moves_apart(dice, &hall, carriers, reachable);
    ordered(dice, hall, moves)
}

/// How many carriers a random job gets: mostly a few, often as many as there
/// are nodes or more, and often as many as there may be or nearly so.
fn some_carriers(dice: &mut Dice, nodes: usize) -> usize {
    match dice.below(6) {
        0 => dice.between(0, nodes.min(MOST_CARRIERS)),
        1 => dice.between(nodes.min(MOST_CARRIERS), MOST_CARRIERS),
        2 => dice.between(MOST_CARRIERS - 2, MOST_CARRIERS),
        _ => dice.between(0, 8),
    }
}

/// A job that every check but perhaps 8 accepts; 8 only if not `reachable`.
pub fn any_job(dice: &mut Dice, most_nodes: usize, reachable: bool) -> Job {
    let nodes = dice.between(1, most_nodes);
    let hall = any_hall(dice, nodes);
    let carriers = some_carriers(dice, nodes);
    let job = job_over(dice, hall, carriers, reachable);
    dwelling_at_times(dice, job)
}

/// Bays at each end of one corridor, and carriers that go from end to end and
/// back in turn, two for each pair of bays. Each is held back until the one
/// before has left, so ticks come late; with 32 bays and 960 nodes between
/// them they come close to the greatest that can be. Carrier numbers are dealt
/// out at random, so that a number taken for a place shows. With an even
/// number of bays at one end no two carriers share an end. With an odd one the
/// two of a pair of bays go the same way, save one pair, and share both.
pub fn through_one_corridor(dice: &mut Dice, bays: usize, corridor: usize) -> Job {
    let far_end = bays + corridor;
    let along = (bays + 1..far_end).map(|node| (node - 1, node));
    let aside = (0..bays).flat_map(|bay| [(bay, bays), (far_end - 1, far_end + bay)]);
    let hall = hall_of(far_end + bays, along.chain(aside).collect());
    let mut order: Vec<u16> = (0..2 * bays as u16).collect();
    dice.shuffle(&mut order);
    let mut moves = vec![Move { start: 0, goal: 0 }; 2 * bays];
    for (place, &carrier) in order.iter().enumerate() {
        // A bay's two carriers are kept apart in the order: next to each
        // other they would leave ticks free for a third.
        let bay = if place < bays { place } else { (place + 1) % bays };
        let (near, far) = (bay as u16, (far_end + bay) as u16);
        moves[usize::from(carrier)] = match place % 2 {
            0 => Move { start: near, goal: far },
            _ => Move { start: far, goal: near },
        };
    }
    Job { hall, moves, order, dwell: 0 }
}

/// A job in a hall of several parts, where some goals are out of reach.
pub fn parted_job(dice: &mut Dice, most_nodes: usize) -> Job {
    let nodes = dice.between(2, most_nodes);
    let hall = match dice.below(2) {
        0 => two_parts(nodes),
        _ => scattered(dice, nodes, nodes * 2 / 3),
    };
    let renumbered = renumbered(dice, &hall);
    let hall = closed_at_times(dice, renumbered);
    let carriers = dice.between(1, 8);
    let job = job_over(dice, hall, carriers, false);
    dwelling_at_times(dice, job)
}

/// A job with at least two carriers and two lanes, so that each kind of
/// damage finds an entry to spoil. All goals are in reach.
pub fn ample_job(dice: &mut Dice, most_nodes: usize) -> Job {
    let nodes = dice.between(4, most_nodes);
    let hall = joined_hall(dice, nodes);
    let carriers = match dice.below(8) {
        0 => dice.between(13, MOST_CARRIERS),
        _ => dice.between(2, 12),
    };
    let partly_closed = closed_at_times(dice, hall.clone());
    let mut job = job_over(dice, partly_closed, carriers, true);
    // What is closed may leave too few moves; then nothing is.
    if job.moves.len() < 2 {
        job = job_over(dice, hall, carriers, true);
    }
    dwelling_at_times(dice, job)
}
