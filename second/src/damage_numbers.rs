// Ways to spoil a job or a network given as numbers, for the refusals that
// only planning from numbers can give or whose order differs there: all
// counts and the dwell before all entries, and an odd list of lanes. Some close
// nodes that are ends or that cut a walk. Some repeat the ends of another
// carrier, which is no fault by itself and hides none.
// Several can strike one job; none of them says which refusal comes out.

use crate::dice::Dice;
use crate::dwelling::{some_dwell, TOO_LONG_DWELLS};
use crate::job::{Hall, Job, Move};

fn no_node(hall: &Hall, dice: &mut Dice) -> u16 {
    let nodes = hall.nodes.min(65_000) as u16;
    dice.pick(&[nodes, nodes, nodes + 1, 1024.max(nodes), 32_768, 65_534, 65_535])
}

fn some_lane(hall: &Hall, dice: &mut Dice) -> Option<usize> {
    match hall.lane_numbers.len() / 2 {
        0 => None,
        lanes => Some(2 * dice.below(lanes)),
    }
}

type HallDamage = fn(&mut Hall, &mut Dice);

pub const HALL_DAMAGES: &[HallDamage] = &[
    |hall, dice| {
        hall.nodes =
            dice.pick(&[0, 0, 1025, 1025, 1026, 65_535, 65_536, 65_537, 1 << 31, u32::MAX]);
    },
    |hall, dice| hall.nodes = dice.between(1, hall.nodes.clamp(1, 1024) as usize) as u32,
    |hall, dice| hall.lane_numbers.push(dice.below(8) as u16),
    |hall, _| {
        hall.lane_numbers.pop();
    },
    |hall, dice| {
        if let Some(at) = some_lane(hall, dice) {
            hall.lane_numbers.swap(at, at + 1);
        }
    },
    |hall, dice| {
        if let Some(at) = some_lane(hall, dice) {
            hall.lane_numbers[at] = hall.lane_numbers[at + 1];
        }
    },
    |hall, dice| {
        if let Some(at) = some_lane(hall, dice) {
            let end = dice.below(2);
            hall.lane_numbers[at + end] = no_node(hall, dice);
        }
    },
    |hall, dice| {
        // The lane before stands again.
        if let Some(at) = some_lane(hall, dice).filter(|&at| at >= 2) {
            hall.lane_numbers.copy_within(at - 2..at, at);
        }
    },
    |hall, dice| {
        // Two neighbouring lanes change places.
        if let Some(at) = some_lane(hall, dice).filter(|&at| at >= 2) {
            hall.lane_numbers.swap(at - 2, at);
            hall.lane_numbers.swap(at - 1, at + 1);
        }
    },
    |hall, dice| {
        // Every lane at one node goes, which may cut a move's walk.
        let lonely = dice.below(hall.nodes.clamp(1, 1024) as usize) as u16;
        let left = hall.lanes().into_iter().filter(|&(a, b)| a != lonely && b != lonely);
        hall.lane_numbers = left.flat_map(|(first, second)| [first, second]).collect();
    },
    |hall, dice| {
        // One node is closed, which may cut a walk or be an end.
        let node = dice.below(hall.nodes.clamp(1, 1024) as usize) as u16;
        close(hall, node);
    },
    |hall, _| hall.closed = (0..hall.nodes.min(1024) as u16).collect(),
    |hall, _| hall.closed.clear(),
    |hall, dice| {
        // An entry that is no node, in place of one or behind all.
        let place = dice.below(hall.closed.len() + 1);
        let node = no_node(hall, dice);
        hall.closed.truncate(place);
        hall.closed.push(node);
    },
    |hall, dice| {
        // An entry stands twice, or two entries change places.
        close(hall, 0);
        let place = dice.below(hall.closed.len());
        hall.closed.insert(place, hall.closed[place]);
        let other = dice.below(hall.closed.len());
        hall.closed.swap(place, other);
    },
    |hall, dice| {
        // Too many entries, be they rising or not.
        let count = dice.pick(&[1025, 1025, 1026, 1100, 2000]);
        match dice.below(2) {
            0 => hall.closed = (0..count).collect(),
            _ => hall.closed.resize(count.into(), 0),
        }
    },
];

/// Closes one node more, in its place.
fn close(hall: &mut Hall, node: u16) {
    if let Err(place) = hall.closed.binary_search(&node) {
        hall.closed.insert(place, node);
    }
}

type JobDamage = fn(&mut Job, &mut Dice);

pub const JOB_DAMAGES: &[JobDamage] = &[
    |job, dice| {
        // Too many carriers, and as many or fewer order entries.
        let wanted = dice.between(65, 70);
        while job.moves.len() < wanted {
            let start = dice.below(1024) as u16;
            job.moves.push(Move { start, goal: dice.below(1024) as u16 });
        }
        let places = dice.pick(&[wanted, wanted, wanted - 1, 64]);
        job.order = (0..places as u16).collect();
    },
    |job, dice| job.order.push(dice.below(70) as u16),
    |job, _| {
        job.order.pop();
    },
    |job, dice| job.order = (0..dice.between(0, 70) as u16).collect(),
    |job, dice| {
        if let Some(carrier) = some_carrier(job, dice) {
            job.moves[carrier].start = no_node(&job.hall, dice);
        }
    },
    |job, dice| {
        if let Some(carrier) = some_carrier(job, dice) {
            job.moves[carrier].goal = no_node(&job.hall, dice);
        }
    },
    |job, dice| {
        if let Some(carrier) = some_carrier(job, dice) {
            job.moves[carrier].goal = job.moves[carrier].start;
        }
    },
    |job, dice| {
        // An earlier start stands again. Only where it is this carrier's goal
        // too is there a fault.
        if let Some(carrier) = some_carrier(job, dice) {
            job.moves[carrier].start = job.moves[dice.below(carrier.max(1))].start;
        }
    },
    |job, dice| {
        // An earlier goal stands again, likewise.
        if let Some(carrier) = some_carrier(job, dice) {
            job.moves[carrier].goal = job.moves[dice.below(carrier.max(1))].goal;
        }
    },
    |job, dice| {
        // A whole move stands again.
        if let Some(carrier) = some_carrier(job, dice) {
            job.moves[carrier] = job.moves[dice.below(carrier.max(1))];
        }
    },
    |job, dice| {
        // All carriers make one move, save one, whose goal is its start or no
        // node.
        if let Some(carrier) = some_carrier(job, dice) {
            let shared = job.moves[carrier];
            job.moves.iter_mut().for_each(|asked| *asked = shared);
            let no_node = no_node(&job.hall, dice);
            job.moves[carrier].goal = dice.pick(&[shared.start, no_node]);
        }
    },
    |job, dice| {
        // All carriers make one move, and the last place in the order names
        // one of them, mostly for the second time.
        if let Some(carrier) = some_carrier(job, dice) {
            let shared = job.moves[carrier];
            job.moves.iter_mut().for_each(|asked| *asked = shared);
            if let Some(last) = job.order.last_mut() {
                *last = carrier as u16;
            }
        }
    },
    |job, dice| {
        let carriers = job.moves.len() as u16;
        if !job.order.is_empty() {
            let place = dice.below(job.order.len());
            job.order[place] = dice.pick(&[carriers, carriers + 1, 64, 256, 65_535]);
        }
    },
    |job, dice| {
        if !job.order.is_empty() {
            let place = dice.below(job.order.len());
            job.order[place] = job.order[dice.below(place.max(1))];
        }
    },
    |job, dice| {
        // An end is closed.
        if let Some(carrier) = some_carrier(job, dice) {
            let asked = job.moves[carrier];
            close(&mut job.hall, dice.pick(&[asked.start, asked.goal]));
        }
    },
    |job, dice| {
        // Two carriers have a closed end, one of them also equal ends or an end
        // that is no node.
        if let (Some(one), Some(other)) = (some_carrier(job, dice), some_carrier(job, dice)) {
            close(&mut job.hall, job.moves[one].start);
            close(&mut job.hall, job.moves[other].goal);
            let no_node = no_node(&job.hall, dice);
            job.moves[one].goal = dice.pick(&[job.moves[one].start, no_node]);
        }
    },
    |job, dice| {
        // A dwell that is too long, or one that is not.
        let sound = some_dwell(dice);
        let too_long = dice.pick(&TOO_LONG_DWELLS);
        job.dwell = dice.pick(&[sound, too_long, too_long]);
    },
];

fn some_carrier(job: &Job, dice: &mut Dice) -> Option<usize> {
    match job.moves.len() {
        0 => None,
        carriers => Some(dice.below(carriers)),
    }
}

/// Strikes a job once, in its network or in its moves and order.
pub fn damaged_job(dice: &mut Dice, job: &mut Job) {
    let which = dice.below(HALL_DAMAGES.len() + JOB_DAMAGES.len());
    match HALL_DAMAGES.get(which) {
        Some(damage) => damage(&mut job.hall, dice),
        None => JOB_DAMAGES[which - HALL_DAMAGES.len()](job, dice),
    }
}

pub fn damaged_hall(dice: &mut Dice, hall: &mut Hall) {
    dice.pick(HALL_DAMAGES)(hall, dice);
}
