// Jobs from numbers with one fault or with two, to be written: from numbers,
// from records, and from numbers with an odd list by turns. Single faults come
// in a small job, in a larger one and in one at the limits.

use crate::batch::Case;
use crate::dice::Dice;
use crate::faults::{double_faults, larger_job, single_faults};
use crate::job::Job;
use crate::page;
use crate::program_texts::longest_job;
use crate::write_jobs::{as_numbers, as_odd_numbers, as_records, enough};

fn by_turns(dice: &mut Dice, job: &Job, turn: usize) -> Case {
    let out = enough(dice);
    match turn % 3 {
        0 => as_numbers(job, out),
        1 => as_records(dice, job, out),
        _ => as_odd_numbers(dice, job, out),
    }
}

pub fn fault_cases(dice: &mut Dice) -> Vec<Case> {
    let mut jobs = Vec::new();
    for base in [page::plates_taken_up(), larger_job(dice), longest_job()] {
        jobs.extend(single_faults(&base));
    }
    jobs.extend(double_faults(dice));
    jobs.iter().enumerate().map(|(turn, job)| by_turns(dice, job, turn)).collect()
}
