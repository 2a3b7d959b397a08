// Cases that lend tables: every question with every table at its least
// length, one short, and longer, over jobs that are accepted or refused with
// each number. What lies past a least length must keep its mark, so most lent
// tables are longer than they need to be. Reading has a file of its own.

use crate::batch::Case;
use crate::damage_numbers::{damaged_job, HALL_DAMAGES, JOB_DAMAGES};
use crate::dice::Dice;
use crate::halls::{ample_job, any_hall, any_job, grid, job_apart, job_over, line, parted_job};
use crate::job::{Hall, Job, Move};
use crate::lent::MARK;
use crate::lent_jobs::{Listed, Record, Recorded};
use crate::lent_lengths::{
    least, length_rows, some_lengths, BYTES, FOR_MOVES, FOR_RECORDS, PATH, TABLE, TIMES,
};
use crate::lent_texts::text_cases;
use crate::lists::{proposal, some_move};
use crate::page;

/// What a record brings along is not looked at, so it is any number.
pub fn recorded(dice: &mut Dice, job: &Job) -> Recorded {
    let record = |asked: &Move| Record {
        asked: *asked,
        distance: dice.pick(&[0, 1, MARK as u16, 65_535]),
        tick: dice.pick(&[0, 1, MARK, 65_536, u32::MAX]),
    };
    let records = job.moves.iter().map(record).collect();
    Recorded { hall: job.hall.clone(), records, order: job.order.clone(), dwell: job.dwell }
}

/// Jobs from numbers: those of the rules, full ones, one for each damage, and
/// more records than a job may have.
fn jobs(dice: &mut Dice) -> Vec<Job> {
    let mut jobs: Vec<Job> = page::cases().into_iter().map(|(_, job, _)| job).collect();
    jobs.extend(page::shared_cases().into_iter().map(|(job, _, _)| job));
    jobs.extend([page::printed_job_reversed(), page::plates_taken_up(), page::plates_in_place()]);
    jobs.extend([1, 255, 256].map(|dwell| page::dwelling(dwell, page::printed_job())));
    jobs.push(job_apart(dice, grid(256, 16), 64, true));
    jobs.push(job_over(dice, line(1024), 5, true));
    for damage in HALL_DAMAGES {
        let mut job = ample_job(dice, 16);
        damage(&mut job.hall, dice);
        jobs.push(job);
    }
    for damage in JOB_DAMAGES {
        let mut job = ample_job(dice, 16);
        damage(&mut job, dice);
        jobs.push(job);
    }
    for carriers in [63, 64, 65, 66, 70, 80] {
        jobs.push(job_over(dice, grid(128, 16), carriers, true));
    }
    jobs.push(parted_job(dice, 12));
    jobs
}

fn job_cases(dice: &mut Dice) -> Vec<Case> {
    let mut cases = Vec::new();
    for (number, job) in jobs(dice).iter().enumerate() {
        let most = job.moves.len() as u16;
        for [table] in length_rows([TABLE]) {
            cases.push(Case::PlanRecords { table, job: recorded(dice, job) });
        }
        for lent in length_rows([TABLE, TIMES, TIMES]) {
            cases.push(Case::PlanLists { lent, job: Listed::of(job) });
        }
        for [path] in length_rows([PATH]) {
            let carrier = dice.pick(&[0, most / 2, most.max(1) - 1, most, 64, 65_535]);
            cases.push(Case::PathOfRecords { path, carrier, job: recorded(dice, job) });
        }
        for carrier in [0, most.max(1) - 1, most] {
            let list = proposal_for(dice, job, carrier);
            cases.push(Case::JudgeRecords { carrier, list, job: recorded(dice, job) });
        }
        let asked = some_asked(dice, job);
        let [path] = length_rows([PATH])[number % 6];
        cases.push(Case::PathLent { path, asked, hall: job.hall.clone() });
        cases.push(choice_case(dice, &job.hall, asked));
    }
    // An odd list of moves is no fault, and an odd list of lanes is one.
    let mut odd = Listed::of(&page::printed_job());
    odd.moves.push(3);
    let lent = least([TABLE, TIMES, TIMES]);
    cases.push(Case::PlanLists { lent, job: odd.clone() });
    odd.hall.lane_numbers.push(4);
    cases.push(Case::PlanLists { lent, job: odd });
    cases
}

/// A hall that only a damage can make has moves of its own.
fn some_asked(dice: &mut Dice, job: &Job) -> Move {
    match job.moves.len() {
        0 => Move { start: 0, goal: 1 },
        carriers => job.moves[dice.below(carriers)],
    }
}

/// A list for a move. A damaged hall has no network to find paths in.
pub fn list_for(dice: &mut Dice, hall: &Hall, asked: Move) -> Vec<u16> {
    if hall.check().is_ok() {
        proposal(dice, hall, asked)
    } else {
        vec![asked.start, asked.goal]
    }
}

fn proposal_for(dice: &mut Dice, job: &Job, carrier: u16) -> Vec<u16> {
    let asked = match job.moves.get(usize::from(carrier)) {
        Some(&asked) => asked,
        None => some_asked(dice, job),
    };
    list_for(dice, &job.hall, asked)
}

fn choice_case(dice: &mut Dice, hall: &Hall, asked: Move) -> Case {
    let own = list_for(dice, hall, asked);
    let spare = list_for(dice, hall, asked);
    Case::ChooseNumbers { asked, own, spare, hall: hall.clone() }
}

pub fn lent_cases(dice: &mut Dice) -> Vec<Case> {
    let mut cases = text_cases(dice);
    cases.extend(job_cases(dice));
    cases
}

/// A random job: sound, cut off, or damaged once or twice.
fn some_job(dice: &mut Dice) -> Job {
    let mut job = match dice.below(4) {
        0 => parted_job(dice, 16),
        1 => any_job(dice, 32, true),
        _ => ample_job(dice, 16),
    };
    if dice.once_in(2) {
        for _ in 0..dice.between(1, 2) {
            damaged_job(dice, &mut job);
        }
    }
    job
}

/// A random case of each kind in turn. The text is the caller's.
pub fn random_lent(dice: &mut Dice, turn: usize, text: Vec<u8>) -> Case {
    let job = some_job(dice);
    match turn % 9 {
        0 => Case::ReadRecords { lent: some_lengths(dice, FOR_RECORDS), text },
        1 => Case::ReadMoves { lent: some_lengths(dice, FOR_MOVES), text },
        7 => {
            let [out] = some_lengths(dice, [BYTES]);
            Case::PrintTo { out, text }
        }
        2 => {
            let [table] = some_lengths(dice, [TABLE]);
            Case::PlanRecords { table, job: recorded(dice, &job) }
        }
        3 => {
            let lent = some_lengths(dice, [TABLE, TIMES, TIMES]);
            let mut job = Listed::of(&job);
            if dice.once_in(4) {
                job.moves.push(dice.below(1024) as u16);
            }
            Case::PlanLists { lent, job }
        }
        4 => {
            let [path] = some_lengths(dice, [PATH]);
            let carrier = dice.below(job.moves.len() + 2) as u16;
            Case::PathOfRecords { path, carrier, job: recorded(dice, &job) }
        }
        5 => {
            let [path] = some_lengths(dice, [PATH]);
            let nodes = dice.between(1, 24);
            let hall = any_hall(dice, nodes);
            Case::PathLent { path, asked: some_move(dice, &hall), hall }
        }
        6 => {
            let carrier = dice.below(job.moves.len() + 2) as u16;
            let list = proposal_for(dice, &job, carrier);
            Case::JudgeRecords { carrier, list, job: recorded(dice, &job) }
        }
        _ => {
            let asked = some_asked(dice, &job);
            choice_case(dice, &job.hall, asked)
        }
    }
}
