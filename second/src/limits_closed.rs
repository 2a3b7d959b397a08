// Closed nodes at the limits: all nodes closed, one entry too many, all but a
// path closed on a line and in a grid, and full networks in which few or nearly
// all nodes are closed. They are few, because each takes long.

use crate::batch::Case;
use crate::closing::with_closed;
use crate::dice::Dice;
use crate::halls::{grid, job_apart, job_over, line, ring, scattered, star};
use crate::job::{Hall, Job, Move};
use crate::least_cases::{move_numbers, path_of_move, plan_numbers, read_text};
use crate::lent_cases::{list_for, recorded};
use crate::lent_lengths::{least, most, FOR_MOVES, FOR_RECORDS, TABLE};
use crate::network::Network;
use crate::page;
use crate::paths::house_path_of_move;
use crate::program_texts::longest_job;
use crate::text;

fn closing(mut hall: Hall, closed: impl Iterator<Item = u16>) -> Hall {
    hall.closed = closed.collect();
    hall
}

/// One way through a square of 32 rows: every other row is open from end to
/// end, and of the rows between them one node each, at the right and at the
/// left by turns. 528 nodes are open, and the way has 527 lanes.
fn winding() -> Hall {
    let is_open = |node: u16| match (node / 32 % 4, node % 32) {
        (1, column) => column == 31,
        (3, column) => column == 0,
        _ => true,
    };
    closing(grid(1024, 32), (0..1024).filter(|&node| !is_open(node)))
}

/// The hall with all nodes closed but those of one house path, and carriers
/// from end to end of it, by turns there and back.
fn along_one_path(hall: Hall, start: u16, goal: u16) -> Job {
    let path = house_path_of_move(&hall, Move { start, goal }).expect("a walk joins the two");
    let ends = |carrier: usize| if carrier % 2 == 0 { (start, goal) } else { (goal, start) };
    let only = closing(hall, (0..1024).filter(|node| !path.contains(node)));
    page::job(only, &(0..16).map(ends).collect::<Vec<(u16, u16)>>())
}

/// Halls at full size and the carriers that go there.
fn full_jobs(dice: &mut Dice) -> Vec<Job> {
    let part_of_a_line = closing(line(1024), (0..200).chain(800..1024));
    let every_tenth = closing(line(1024), (0..1024).filter(|node| node % 10 == 9));
    let cut_ring = closing(ring(1024), std::iter::once(512));
    let no_middle = closing(star(1024), std::iter::once(0));
    let two_left = closing(scattered(dice, 1024, 4096), 2..1024);
    let random = scattered(dice, 1024, 4096);
    let few = with_closed(dice, random.clone(), 10);
    let many = with_closed(dice, random, 700);
    let holes = with_closed(dice, grid(1024, 32), 300);
    let mut jobs = vec![page::job(no_middle, &[]), page::job(two_left, &[])];
    for hall in [part_of_a_line, every_tenth, cut_ring, winding(), few, many, holes] {
        jobs.push(job_apart(dice, hall.clone(), 64, true));
        jobs.push(job_over(dice, hall, 24, true));
    }
    let some = scattered(dice, 1024, 4096);
    let reach = Network::of(&some).distances_from(0);
    let farthest = (0..1024).max_by_key(|&node| reach[node]).expect("there are nodes");
    jobs.push(along_one_path(some, 0, farthest as u16));
    jobs.push(along_one_path(line(1024), 300, 700));
    jobs.push(along_one_path(grid(1024, 32), 0, 1023));
    jobs.push(along_one_path(winding(), 0, 992));
    jobs
}

/// No carrier, and all numbers below `count` closed, be they nodes or not.
fn all_closed(hall: Hall, count: u16) -> Job {
    page::job(closing(hall, 0..count), &[])
}

/// Counts of closed nodes at and past the limit, by text and from numbers, with
/// tables that are lent for them.
fn counts(dice: &mut Dice) -> Vec<Case> {
    let bare = || page::hall(1024, &[]);
    let mut cases = Vec::new();
    let mut jobs: Vec<Job> =
        [1, 1023, 1024, 1025, 1026].map(|count| all_closed(bare(), count)).to_vec();
    jobs.push(all_closed(line(1024), 1024));
    jobs.push(all_closed(page::hall(1023, &[]), 1024));
    jobs.push(all_closed(page::hall(1, &[]), 1));
    jobs.push(all_closed(page::hall(1, &[]), 2));
    for job in jobs {
        let text = text::write(&job);
        let [table] = least([TABLE]);
        cases.push(Case::Plan { text: text.clone() });
        cases.push(read_text(text.clone()));
        cases.push(Case::ReadRecords { lent: least(FOR_RECORDS), text: text.clone() });
        cases.push(Case::ReadMoves { lent: most(FOR_MOVES), text });
        cases.push(Case::PlanRecords { table, job: recorded(dice, &job) });
        cases.push(plan_numbers(&job));
    }
    for count in [2000, 5000, 65_535] {
        cases.push(plan_numbers(&all_closed(bare(), count)));
        let hall = closing(line(1024), 0..count);
        cases.push(move_numbers(hall, Move { start: 0, goal: 1 }, vec![0, 1]));
    }
    cases
}

/// The paths of jobs at full size, and tables lent for their plans.
fn paths(dice: &mut Dice) -> Vec<Case> {
    let mut cases = Vec::new();
    let partly = with_closed(dice, grid(1024, 32), 200);
    for job in [page::job(winding(), &[(0, 992)]), job_over(dice, partly, 8, true), longest_job()] {
        let asked = job.moves[0];
        let text = text::write(&job);
        let list = list_for(dice, &job.hall, asked);
        let all_open = closing(job.hall.clone(), std::iter::empty());
        let unaware = list_for(dice, &all_open, asked);
        cases.push(path_of_move(asked, text.clone()));
        cases.push(Case::JudgeForCarrier { carrier: 0, list: list.clone(), text: text.clone() });
        cases.push(Case::Choose { asked, own: unaware.clone(), spare: list, text });
        cases.push(move_numbers(job.hall.clone(), asked, unaware));
        cases.push(plan_numbers(&job));
    }
    cases
}

/// Every accepted job at full size comes as a text. Then some that are refused
/// at their last entry.
pub fn limit_cases(dice: &mut Dice) -> Vec<Case> {
    let mut texts: Vec<Vec<u8>> = full_jobs(dice).iter().map(text::write).collect();
    let spoil = |change: fn(&mut Job)| {
        let mut job = longest_job();
        change(&mut job);
        text::write(&job)
    };
    texts.extend([
        text::write(&longest_job()),
        spoil(|job| job.hall.closed[1021] = 1024),
        spoil(|job| job.hall.closed[1021] = 1020),
        spoil(|job| job.hall.closed[1021] = 1022),
        spoil(|job| job.moves[63].goal = 1021),
        spoil(|job| job.order[63] = job.order[62]),
    ]);
    let mut cases: Vec<Case> = texts.into_iter().map(|text| Case::Plan { text }).collect();
    cases.extend(counts(dice));
    cases.extend(paths(dice));
    cases
}
