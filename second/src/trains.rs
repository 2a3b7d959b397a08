// Trains: carriers that all have one lift and one chute, in small halls
// and at the limit of 1,024 nodes, in the order of the numbers and shuffled.
// Then lifts and chutes that many carriers share in other ways: one lift into
// many chutes, many lifts into one chute, two trains against each other, and
// trains that cross. Each job comes as a text and from numbers, and once more
// with a dwell.

use crate::batch::Case;
use crate::dice::Dice;
use crate::halls::{grid, hall_of, line, scattered, tree};
use crate::job::{Hall, Job, Move, MOST_DWELL};
use crate::least_cases::plan_numbers;
use crate::network::Network;
use crate::text;

const LENGTHS: [usize; 5] = [2, 3, 10, 63, 64];
/// The dwells of trains, by turns.
const DWELLS: [u32; 7] = [1, 2, 3, 10, 100, 254, 255];

fn one_move(start: usize, goal: usize) -> Move {
    Move { start: start as u16, goal: goal as u16 }
}

/// A job in the order of the carrier numbers.
fn in_turn(hall: &Hall, moves: Vec<Move>) -> Job {
    let order = (0..moves.len() as u16).collect();
    Job { hall: hall.clone(), moves, order, dwell: 0 }
}

fn shuffled(dice: &mut Dice, job: &Job) -> Job {
    let mut job = job.clone();
    dice.shuffle(&mut job.order);
    job
}

/// A hall with a lift and a chute that lie far from each other.
struct Site {
    hall: Hall,
    lift: usize,
    chute: usize,
}

impl Site {
    fn of(hall: Hall, lift: usize, chute: usize) -> Site {
        Site { hall, lift, chute }
    }

    /// A random hall in which all nodes are joined. The lift is node 0, and
    /// the chute one of the nodes that are farthest from it.
    fn random(dice: &mut Dice, nodes: usize, lanes: usize) -> Site {
        let mut pairs = tree(dice, nodes).lanes();
        let all = scattered(dice, nodes, lanes).lanes();
        let more: Vec<(u16, u16)> = all.into_iter().filter(|lane| !pairs.contains(lane)).collect();
        pairs.extend(more.into_iter().take(lanes - (nodes - 1)));
        let lanes = pairs.into_iter().map(|(one, other)| (one.into(), other.into()));
        let hall = hall_of(nodes, lanes.collect());
        let from_lift = Network::of(&hall).distances_from(0);
        let chute = (1..nodes).max_by_key(|&node| from_lift[node]).expect("two nodes");
        Site { hall, lift: 0, chute }
    }

    /// Other nodes than the lift and the chute, spread over the hall.
    fn others(&self, count: usize) -> Vec<usize> {
        let nodes = self.hall.nodes as usize;
        let free: Vec<usize> =
            (0..nodes).filter(|&node| node != self.lift && node != self.chute).collect();
        (0..count).map(|place| free[place * free.len() / count]).collect()
    }

    fn train(&self, carriers: usize) -> Job {
        in_turn(&self.hall, vec![one_move(self.lift, self.chute); carriers])
    }

    /// Two trains against each other: lift and chute are exchanged for every
    /// other carrier.
    fn against(&self, carriers: usize) -> Job {
        let there = one_move(self.lift, self.chute);
        let back = one_move(self.chute, self.lift);
        in_turn(&self.hall, (0..carriers).map(|carrier| [there, back][carrier % 2]).collect())
    }

    /// The same carriers, but first all that go there and then all others.
    fn one_after_the_other(&self, carriers: usize) -> Job {
        let mut job = self.against(carriers);
        job.order.sort_by_key(|carrier| carrier % 2);
        job
    }

    fn one_lift(&self, carriers: usize) -> Job {
        let chutes = self.others(carriers);
        in_turn(&self.hall, chutes.into_iter().map(|chute| one_move(self.lift, chute)).collect())
    }

    fn one_chute(&self, carriers: usize) -> Job {
        let lifts = self.others(carriers);
        in_turn(&self.hall, lifts.into_iter().map(|lift| one_move(lift, self.chute)).collect())
    }
}

/// Trains across a square of nodes: from left to right, from top to bottom,
/// and with four of them also back, all through the middle.
fn crossing(width: usize, trains: usize, carriers: usize) -> Job {
    let (row, column) = (width / 2 * width, width / 2);
    let (right, bottom) = (row + width - 1, width * (width - 1) + column);
    let ends = [
        one_move(row, right),
        one_move(column, bottom),
        one_move(right, row),
        one_move(bottom, column),
    ];
    let moves = (0..carriers).map(|carrier| ends[carrier % trains]).collect();
    in_turn(&grid(width * width, width), moves)
}

/// The job as a text and from numbers.
fn both_ways(job: Job) -> [Case; 2] {
    [Case::Plan { text: text::write(&job) }, plan_numbers(&job)]
}

fn small_sites(dice: &mut Dice) -> Vec<Site> {
    vec![
        Site::of(line(12), 0, 11),
        Site::of(line(2), 1, 0),
        Site::of(grid(16, 4), 0, 15),
        Site::of(grid(36, 6), 0, 35),
        Site::of(grid(10, 2), 9, 0),
        Site::random(dice, 24, 40),
    ]
}

/// 1,023 lanes in a row, a square from corner to corner, and 4,096 lanes.
fn full_sites(dice: &mut Dice) -> Vec<Site> {
    vec![
        Site::of(line(1024), 0, 1023),
        Site::of(grid(1024, 32), 0, 1023),
        Site::random(dice, 1024, 4096),
    ]
}

fn small_jobs(dice: &mut Dice) -> Vec<Job> {
    let mut jobs = Vec::new();
    for site in small_sites(dice) {
        for carriers in LENGTHS {
            jobs.extend([site.train(carriers), site.against(carriers)]);
            jobs.push(site.one_after_the_other(carriers));
        }
    }
    for site in [Site::of(line(64), 0, 63), Site::of(grid(64, 8), 0, 63)] {
        for carriers in [2, 10, 62] {
            jobs.extend([site.one_lift(carriers), site.one_chute(carriers)]);
        }
    }
    for width in [3, 8] {
        jobs.extend([crossing(width, 2, 10), crossing(width, 2, 64), crossing(width, 4, 64)]);
    }
    let mixed: Vec<Job> = jobs.iter().map(|job| shuffled(dice, job)).collect();
    jobs.extend(mixed);
    jobs
}

fn full_jobs(dice: &mut Dice) -> Vec<Job> {
    let mut jobs = Vec::new();
    for site in full_sites(dice) {
        jobs.extend([site.train(64), site.against(64), site.one_after_the_other(64)]);
        jobs.extend([site.one_lift(64), site.one_chute(64)]);
    }
    jobs.extend([crossing(32, 2, 64), crossing(32, 4, 64)]);
    jobs
}

/// The jobs, each with one of the dwells.
fn dwelling(jobs: &[Job]) -> Vec<Job> {
    let dwells = DWELLS.into_iter().cycle();
    jobs.iter().zip(dwells).map(|(job, dwell)| Job { dwell, ..job.clone() }).collect()
}

/// Small trains come both ways. At the limit the order of the numbers comes as
/// a text, and a shuffled one from numbers; with the longest dwell there too.
pub fn train_cases(dice: &mut Dice) -> Vec<Case> {
    let small = small_jobs(dice);
    let mut cases: Vec<Case> = dwelling(&small).into_iter().flat_map(both_ways).collect();
    cases.extend(small.into_iter().flat_map(both_ways));
    for mut job in full_jobs(dice) {
        for dwell in [0, MOST_DWELL] {
            job.dwell = dwell;
            cases.push(Case::Plan { text: text::write(&job) });
            cases.push(plan_numbers(&shuffled(dice, &job)));
        }
    }
    cases
}
