// The cases of carriers that wait on their goals, besides those of all small
// networks and those of trains: the cases of the rules, every dwell up to some
// that are too long, texts with a damaged last line, dwells that are too long by
// themselves and beside every other fault, put to every question with a whole
// job. The cases at the limits have a file of their own.

use crate::batch::Case;
use crate::dice::Dice;
use crate::dwell_texts::{line_texts, spoiled_texts};
use crate::faults::{faults_beside, too_long_dwells};
use crate::job::Job;
use crate::least_cases::read_text;
use crate::limits_dwell::limit_cases;
use crate::page;
use crate::questions::{every_question, text_cases, with_a_move, with_the_job};
use crate::text;
use crate::write_jobs::{as_numbers, as_records, as_text, enough};

fn cases_of_the_rules(dice: &mut Dice) -> Vec<Case> {
    let mut jobs: Vec<Job> = page::dwell_cases().into_iter().map(|(job, _, _)| job).collect();
    jobs.extend(page::dwell_refusals().into_iter().map(|(job, _)| job));
    let mut cases = Vec::new();
    for job in jobs {
        cases.extend([Case::Plan { text: text::write(&job) }, as_text(&job)]);
        cases.extend(every_question(dice, &job));
    }
    cases
}

/// Every dwell up to 300 with two carriers to one chute, whose second tick tells
/// it: as a text, and by turns from numbers, written and read.
fn every_dwell(dice: &mut Dice) -> Vec<Case> {
    let mut cases = Vec::new();
    for dwell in 0..=300 {
        let job = page::dwelling(dwell, page::one_chute());
        let (text, out) = (text::write(&job), enough(dice));
        cases.push(Case::Plan { text: text.clone() });
        cases.push(with_the_job(dice, &job, (dwell % 3) as usize));
        cases.push(match dwell % 4 {
            0 => read_text(text),
            1 => as_text(&job),
            2 => as_numbers(&job, out),
            _ => as_records(dice, &job, out),
        });
    }
    cases
}

/// A dwell without carriers, for whom alone it is: one that is too long is
/// refused all the same.
fn without_carriers(dice: &mut Dice) -> Vec<Case> {
    let with = |dwell: u32| page::dwelling(dwell, page::job(page::hall(3, &[0, 1]), &[]));
    let jobs = [0, 1, 255, 256, 65_536, u32::MAX].map(with);
    jobs.iter().flat_map(|job| every_question(dice, job)).collect()
}

/// Dwells that are too long come before every entry and behind every other count.
/// A dwell that is not too long changes no other refusal.
fn fault_cases(dice: &mut Dice) -> Vec<Case> {
    let mut jobs = too_long_dwells();
    for dwell in [256, 65_536, u32::MAX] {
        jobs.extend(faults_beside(dice, dwell));
    }
    let mut cases: Vec<Case> = jobs.iter().flat_map(|job| every_question(dice, job)).collect();
    let beside: Vec<Job> =
        [1, 255].into_iter().flat_map(|dwell| faults_beside(dice, dwell)).collect();
    for (turn, job) in beside.iter().enumerate() {
        cases.extend([with_the_job(dice, job, turn), with_a_move(dice, job, turn)]);
    }
    cases
}

pub fn dwell_cases(dice: &mut Dice) -> Vec<Case> {
    let mut cases = cases_of_the_rules(dice);
    cases.extend(every_dwell(dice));
    cases.extend(without_carriers(dice));
    cases.extend(text_cases(line_texts()));
    cases.extend(spoiled_texts(dice).into_iter().map(|text| Case::Plan { text }));
    cases.extend(fault_cases(dice));
    cases.extend(limit_cases(dice));
    cases
}
