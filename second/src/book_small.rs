// Days in small halls: every network of up to four nodes, with all nodes open and
// with some closed, every shape of five and of six joined nodes, and lines, rings,
// grids, stars and trees of up to sixteen, each with several dwells. Every move of
// the hall is asked for, those that are refused too, while the clock stands still,
// creeps, strides, waits for a carrier to leave, or goes back. Some days begin so
// late that they reach the last clock value there is.

use crate::batch::Case;
use crate::book::{Book, LATEST_CLOCK};
use crate::book_make::{Day, Pace};
use crate::closing::with_closed;
use crate::dice::Dice;
use crate::halls::{aisles, complete, grid, hall_of, line, ring, star, tree, two_parts};
use crate::job::{Hall, Move};
use crate::small::all_small_halls;

const PACES: [Pace; 5] =
    [Pace::Still, Pace::Creeping, Pace::Striding(9), Pace::Leaving, Pace::Mixed];

/// Every two numbers of nodes, equal ones too, in any order.
fn all_pairs(dice: &mut Dice, hall: &Hall) -> Vec<Move> {
    let nodes = hall.nodes as u16;
    let mut moves: Vec<Move> =
        (0..nodes).flat_map(|start| (0..nodes).map(move |goal| Move { start, goal })).collect();
    dice.shuffle(&mut moves);
    moves
}

/// The clock value of a day's first call: 0, a little later, or shortly before
/// the end.
fn dawn(turn: usize) -> u32 {
    match turn % 6 {
        0..=2 => 0,
        3 => 1,
        4 => 1000,
        _ => LATEST_CLOCK - 12,
    }
}

/// A day on which these moves are asked for, told after every call or not.
fn day(dice: &mut Dice, hall: &Hall, dwell: u32, moves: &[Move], turn: usize) -> Case {
    let mut day = Day::new(hall, Book::empty(dwell));
    let pace = PACES[turn % PACES.len()];
    for (number, &asked) in moves.iter().enumerate() {
        let now = if number == 0 { dawn(turn) } else { day.next(dice, pace) };
        // What it answers is not needed here.
        let _ = day.call(now, asked);
    }
    if turn % 3 > 0 {
        day.told_each()
    } else {
        day.told_last()
    }
}

/// Every network of up to four nodes, once with all nodes open and once with some
/// closed, with each of these dwells.
fn smallest(dice: &mut Dice) -> Vec<Case> {
    let mut cases = Vec::new();
    for hall in all_small_halls() {
        let count = dice.between(1, hall.nodes as usize);
        let closed = with_closed(dice, hall.clone(), count);
        for dwell in [0, 1, 2, 3, 255] {
            for hall in [&hall, &closed] {
                let moves = all_pairs(dice, hall);
                let turn = cases.len();
                cases.push(day(dice, hall, dwell, &moves, turn));
            }
        }
    }
    cases
}

/// All ways to number so many nodes.
fn numberings(nodes: usize) -> Vec<Vec<usize>> {
    let mut all = vec![Vec::new()];
    for _ in 0..nodes {
        all = (all.iter())
            .flat_map(|begun: &Vec<usize>| {
                let left = (0..nodes).filter(move |node| !begun.contains(node));
                left.map(move |node| [&begun[..], &[node]].concat())
            })
            .collect();
    }
    all
}

/// Every shape of so many joined nodes: of all networks that differ in their
/// numbers alone the one whose set of lanes has the lowest number.
pub fn joined_shapes(nodes: usize) -> Vec<Hall> {
    let lanes: Vec<(usize, usize)> =
        (0..nodes).flat_map(|low| (low + 1..nodes).map(move |high| (low, high))).collect();
    let mut bits = vec![vec![0_u32; nodes]; nodes];
    for (place, &(low, high)) in lanes.iter().enumerate() {
        bits[low][high] = 1 << place;
        bits[high][low] = 1 << place;
    }
    let numberings = numberings(nodes);
    let mut halls = Vec::new();
    for set in 0_u32..1 << lanes.len() {
        let chosen: Vec<(usize, usize)> =
            (lanes.iter()).filter(|&&(low, high)| set & bits[low][high] > 0).copied().collect();
        let renumbered =
            |names: &Vec<usize>| chosen.iter().map(|&(a, b)| bits[names[a]][names[b]]).sum::<u32>();
        let is_least = numberings.iter().all(|names| renumbered(names) >= set);
        if is_least && is_joined(nodes, &chosen) {
            halls.push(hall_of(nodes, chosen));
        }
    }
    halls
}

fn is_joined(nodes: usize, lanes: &[(usize, usize)]) -> bool {
    let mut reached = vec![0];
    let mut at = 0;
    while at < reached.len() {
        let node: usize = reached[at];
        for &(one, other) in lanes {
            for (from, to) in [(one, other), (other, one)] {
                if from == node && !reached.contains(&to) {
                    reached.push(to);
                }
            }
        }
        at += 1;
    }
    reached.len() == nodes
}

/// The shapes of five and six joined nodes, each without a dwell and with one.
fn shapes(dice: &mut Dice) -> Vec<Case> {
    let mut cases = Vec::new();
    for hall in joined_shapes(5).into_iter().chain(joined_shapes(6)) {
        let dwell = dice.pick(&[1, 1, 2, 3, 7, 254, 255]);
        for dwell in [0, dwell] {
            let moves = all_pairs(dice, &hall);
            let turn = cases.len();
            cases.push(day(dice, &hall, dwell, &moves, turn));
        }
    }
    cases
}

/// Larger shapes, with all nodes open and with some closed.
fn larger(dice: &mut Dice) -> Vec<Case> {
    let mut halls = vec![line(9), ring(10), grid(9, 3), grid(16, 4), grid(14, 2), star(8)];
    halls.extend([aisles(12, 4), complete(7), two_parts(10)]);
    halls.extend([7, 11, 15].map(|nodes| tree(dice, nodes)));
    let closed: Vec<Hall> = halls.iter().map(|hall| with_closed(dice, hall.clone(), 2)).collect();
    halls.extend(closed);
    let mut cases = Vec::new();
    for hall in &halls {
        for dwell in [0, 1, 2, 3, 255, 40] {
            let moves = all_pairs(dice, hall);
            let turn = cases.len();
            cases.push(day(dice, hall, dwell, &moves[..moves.len().min(70)], turn));
        }
    }
    cases
}

pub fn small_days(dice: &mut Dice) -> Vec<Case> {
    let mut cases = smallest(dice);
    cases.extend(shapes(dice));
    cases.extend(larger(dice));
    cases
}
