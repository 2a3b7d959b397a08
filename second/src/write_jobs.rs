// Jobs to be written, and the three ways to put one into a case: as a text,
// from numbers and from records. The sound jobs have numbers of one to four
// digits in every field. Whether walks join the ends plays no part in writing,
// so many of these jobs have carriers without a walk. About a third of the
// random ones have closed nodes, and about a third have a dwell.

use crate::batch::Case;
use crate::closing::close_free_at_times;
use crate::dice::Dice;
use crate::dwelling::dwelling_at_times;
use crate::halls::{ample_job, any_job, hall_of, line, parted_job, two_parts};
use crate::job::{Job, Move, MOST_CARRIERS, MOST_DWELL, MOST_LANES};
use crate::least_cases::write_text;
use crate::lent_jobs::{Listed, Record, Recorded};
use crate::lent_write::TEXT_PLACES;
use crate::page;
use crate::program_texts::longest_job;
use crate::text;
use crate::write::LEAST_TEXT;

/// Numbers on both sides of each step to one digit more.
const EDGES: [u16; 9] = [0, 1, 9, 10, 99, 100, 999, 1000, 1023];

pub fn as_text(job: &Job) -> Case {
    write_text(text::write(job))
}

pub fn as_numbers(job: &Job, out: usize) -> Case {
    Case::WriteNumbers { out: out as u16, job: Listed::of(job) }
}

/// The same with one number more behind the moves, which is in none.
pub fn as_odd_numbers(dice: &mut Dice, job: &Job, out: usize) -> Case {
    let mut job = Listed::of(job);
    let last = job.moves.last().copied().unwrap_or(0);
    job.moves.push(dice.pick(&[0, 1, last, 1024, 65_535]));
    Case::WriteNumbers { out: out as u16, job }
}

/// Distances and ticks are any numbers at all: they are not written.
pub fn as_records(dice: &mut Dice, job: &Job, out: usize) -> Case {
    let record = |asked: &Move| {
        let (distance, tick) = (dice.word() as u16, dice.word() as u32);
        Record {
            asked: *asked,
            distance: dice.pick(&[0, 1, 65_535, distance, distance]),
            tick: dice.pick(&[0, 1, u32::MAX, tick, tick]),
        }
    };
    let records = job.moves.iter().map(record).collect();
    let (hall, order) = (job.hall.clone(), job.order.clone());
    let job = Recorded { hall, records, order, dwell: job.dwell };
    Case::WriteRecords { out: out as u16, job }
}

/// A length that is long enough.
pub fn enough(dice: &mut Dice) -> usize {
    let between = dice.between(LEAST_TEXT, TEXT_PLACES);
    dice.pick(&[LEAST_TEXT, LEAST_TEXT, LEAST_TEXT + 1, between, TEXT_PLACES])
}

/// A number below the bound, of each count of digits about as often.
fn some_number(dice: &mut Dice, bound: usize) -> usize {
    let digits = dice.pick(&[10, 100, 1000, bound]);
    dice.below(digits.min(bound))
}

/// A node count of one to four digits, the least and the greatest among them.
fn some_nodes(dice: &mut Dice) -> usize {
    let (low, high) =
        dice.pick(&[(1, 1), (2, 9), (10, 99), (100, 999), (1000, 1023), (1024, 1024)]);
    dice.between(low, high)
}

/// A sound job with ends wherever the dice put them. Carriers often share them,
/// and often no walk joins them.
fn loose_job(dice: &mut Dice) -> Job {
    let nodes = some_nodes(dice);
    let lanes = dice.pick(&[0, 1, 9, 10, 30, 120]);
    let pairs = (0..lanes).map(|_| (some_number(dice, nodes), some_number(dice, nodes))).collect();
    let hall = hall_of(nodes, pairs);
    let few = dice.between(0, 11);
    let carriers = if nodes == 1 { 0 } else { dice.pick(&[0, 1, few, few, few, 63, 64]) };
    let one_move = |_| {
        let start = some_number(dice, nodes);
        let goal = some_number(dice, nodes);
        let goal = if goal == start { (start + 1) % nodes } else { goal };
        Move { start: start as u16, goal: goal as u16 }
    };
    let moves: Vec<Move> = (0..carriers).map(one_move).collect();
    let mut order: Vec<u16> = (0..carriers as u16).collect();
    dice.shuffle(&mut order);
    let mut job = Job { hall, moves, order, dwell: 0 };
    close_free_at_times(dice, &mut job);
    dwelling_at_times(dice, job)
}

/// A random job that can be written: mostly a loose one, at times a hall of
/// some shape.
pub fn sound_job(dice: &mut Dice) -> Job {
    match dice.below(8) {
        0 => parted_job(dice, 24),
        1 => any_job(dice, 48, false),
        2 => ample_job(dice, 48),
        _ => loose_job(dice),
    }
}

/// One lane or one move for each pair of edges, and all of them together.
fn edge_jobs() -> Vec<Job> {
    let mut jobs = Vec::new();
    let (mut lanes, mut moves) = (Vec::new(), Vec::new());
    for one in EDGES {
        for other in EDGES.into_iter().filter(|&other| other != one) {
            if one < other {
                lanes.extend([one, other]);
                jobs.push(page::job(page::hall(1024, &[one, other]), &[]));
            }
            moves.push((one, other));
            jobs.push(page::job(page::hall(u32::from(one.max(other)) + 1, &[]), &[(one, other)]));
        }
    }
    jobs.push(page::job(page::hall(1024, &lanes), &moves[..MOST_CARRIERS]));
    jobs.push(page::job(page::hall(1024, &lanes), &moves[moves.len() - MOST_CARRIERS..]));
    jobs
}

/// Counts on both sides of each step, and every count of carriers.
fn counted_jobs(dice: &mut Dice) -> Vec<Job> {
    let mut jobs = Vec::new();
    for nodes in [1, 2, 9, 10, 11, 99, 100, 101, 999, 1000, 1001, 1023, 1024] {
        let ends: &[(u16, u16)] = if nodes == 1 { &[] } else { &[(nodes - 1, 0)] };
        jobs.push(page::job(line(nodes.min(11).into()), ends));
        let last = jobs.len() - 1;
        jobs[last].hall.nodes = nodes.into();
    }
    for lanes in [1, 9, 10, 11, 99, 100, 101, 999, 1000, 1001, 4095, MOST_LANES] {
        let mut job = longest_job();
        job.hall.lane_numbers.truncate(2 * lanes);
        job.moves.truncate(lanes % 7);
        job.order = (0..job.moves.len() as u16).collect();
        jobs.push(job);
    }
    for carriers in 0..=MOST_CARRIERS {
        let mut job = page::job(line(3), &vec![(0, 2); carriers]);
        dice.shuffle(&mut job.order);
        jobs.push(job);
    }
    jobs
}

/// Jobs with a carrier, or with all carriers, that no walk helps.
fn walkless_jobs() -> Vec<Job> {
    let apart: Vec<(u16, u16)> = (0..64).map(|carrier| (carrier, 1023 - carrier)).collect();
    vec![
        page::goal_out_of_reach(),
        page::job(page::hall(2, &[]), &[(0, 1)]),
        page::job(page::hall(1024, &[]), &apart),
        page::job(two_parts(10), &[(0, 4), (4, 5), (9, 0)]),
        page::job(two_parts(1024), &apart),
    ]
}

/// Closed nodes on both sides of each step to one digit more, one by one and
/// together, and counts of them on both sides of those steps.
fn closed_jobs() -> Vec<Job> {
    let closing = |closed: Vec<u16>, moves: &[(u16, u16)]| {
        let mut job = page::job(page::hall(1024, &[2, 3]), moves);
        job.hall.closed = closed;
        job
    };
    let mut jobs: Vec<Job> = EDGES.map(|node| closing(vec![node], &[(2, 3)])).to_vec();
    jobs.push(closing(EDGES.to_vec(), &[(2, 3), (3, 4)]));
    for count in [2, 9, 10, 11, 99, 100, 101, 999, 1000, 1001, 1021, 1022] {
        jobs.push(closing((0..count).collect(), &[(1022, 1023)]));
        jobs.push(closing((1024 - count..1024).collect(), &[(0, 1), (1, 0)]));
    }
    jobs.extend([1023, 1024].map(|count| closing((0..count).collect(), &[])));
    jobs.extend([page::plates_in_place(), page::plates_taken_up()]);
    jobs
}

/// Dwells on both sides of each step to one digit more, and none: with carriers,
/// without, with closed nodes, and in the longest text.
fn dwell_jobs() -> Vec<Job> {
    let mut jobs = Vec::new();
    for dwell in [0, 1, 9, 10, 99, 100, MOST_DWELL] {
        for job in [
            page::printed_job(),
            page::job(page::hall(1, &[]), &[]),
            page::plates_taken_up(),
            page::goal_out_of_reach(),
            longest_job(),
        ] {
            jobs.push(page::dwelling(dwell, job));
        }
    }
    jobs
}

/// The sound jobs that every batch writes.
pub fn sound_jobs(dice: &mut Dice) -> Vec<Job> {
    let mut jobs: Vec<Job> = page::cases().into_iter().map(|(_, job, _)| job).collect();
    jobs.extend(page::shared_cases().into_iter().map(|(job, _, _)| job));
    jobs.extend(edge_jobs());
    jobs.extend(counted_jobs(dice));
    jobs.extend(walkless_jobs());
    jobs.extend(closed_jobs());
    jobs.extend(dwell_jobs());
    jobs
}
