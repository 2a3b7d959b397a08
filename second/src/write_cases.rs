// Cases that hand a job back as its text. Sound jobs of all sizes come as
// texts, from numbers and from records, lent bytes have all lengths, and jobs
// and texts are spoiled. Most jobs are small; the ones at the limits are few.

use crate::batch::Case;
use crate::damage_numbers::damaged_job;
use crate::dice::Dice;
use crate::faults::faulty_jobs;
use crate::generate::{noise, one_damage, several_damages, two_in_one_line};
use crate::job::{Job, MOST_NODES};
use crate::least_cases::{write_again, write_text};
use crate::lent_texts::texts;
use crate::lent_write::TEXT_PLACES;
use crate::limits::full_jobs;
use crate::page;
use crate::program_texts;
use crate::systematic::{spoiled_bytes, PRINTED_JOB};
use crate::write::LEAST_TEXT;
use crate::write_faults::fault_cases;
use crate::write_jobs::{
    as_numbers, as_odd_numbers, as_records, as_text, enough, sound_job, sound_jobs,
};

/// Lengths of the lent bytes: at the ends of what there is, on both sides of
/// the least length, that of the longest text, what would be the least without a
/// dwell, and some between.
const LENGTHS: [usize; 16] = [
    0,
    1,
    2,
    69,
    100,
    2048,
    20_000,
    42_000,
    42_027,
    LEAST_TEXT - 10,
    LEAST_TEXT - 2,
    LEAST_TEXT - 1,
    LEAST_TEXT,
    LEAST_TEXT + 1,
    LEAST_TEXT + 50,
    TEXT_PLACES,
];

/// Texts that are read and written again: every count of nodes, texts of all
/// lengths with sound and with spoiled ends, faults of each number, and page
/// 01's printed job with every seventh of the faults that a byte can have. Some
/// are read and written more than once.
fn text_cases(dice: &mut Dice) -> Vec<Case> {
    let counted = |nodes: u32| as_text(&page::job(page::hall(nodes, &[]), &[]));
    let mut cases: Vec<Case> = (1..=MOST_NODES + 1).map(counted).collect();
    cases.extend(program_texts::texts().into_iter().map(write_text));
    cases.extend(texts(dice).into_iter().map(write_text));
    cases.extend(spoiled_bytes(PRINTED_JOB.as_bytes()).into_iter().step_by(7).map(write_text));
    for (readings, writings) in [(1, 0), (0, 1), (1, 1), (2, 3), (100, 0), (0, 100)] {
        for text in texts(dice) {
            cases.push(write_again(readings, writings, text));
        }
    }
    cases
}

/// The sound jobs of every batch, in each way; every other list is odd.
fn sound_cases(dice: &mut Dice) -> Vec<Case> {
    let mut cases = Vec::new();
    for (turn, job) in sound_jobs(dice).iter().enumerate() {
        let out = enough(dice);
        cases.extend([as_text(job), as_records(dice, job, out)]);
        cases.push(match turn % 2 {
            0 => as_numbers(job, out),
            _ => as_odd_numbers(dice, job, out),
        });
    }
    cases
}

/// Jobs at full size: each as a text, and by turns from numbers and records.
fn full_cases(dice: &mut Dice) -> Vec<Case> {
    let mut cases = Vec::new();
    for (turn, job) in full_jobs(dice).iter().enumerate() {
        cases.push(as_text(job));
        cases.push(match turn % 3 {
            0 => as_numbers(job, LEAST_TEXT),
            1 => as_odd_numbers(dice, job, LEAST_TEXT),
            _ => as_records(dice, job, LEAST_TEXT),
        });
    }
    cases
}

/// Every length of the lent bytes with good jobs and with faulty ones. Too few
/// bytes are refused before all else.
fn length_cases(dice: &mut Dice) -> Vec<Case> {
    let mut jobs = vec![
        page::printed_job(),
        page::plates_taken_up(),
        page::goal_out_of_reach(),
        page::job(page::hall(1, &[]), &[]),
        program_texts::longest_job(),
    ];
    jobs.extend(faulty_jobs().into_iter().step_by(3));
    let mut cases = Vec::new();
    for (number, job) in jobs.iter().enumerate() {
        for (turn, out) in LENGTHS.into_iter().enumerate() {
            cases.push(match (number + turn) % 2 {
                0 => as_numbers(job, out),
                _ => as_records(dice, job, out),
            });
        }
    }
    cases
}

/// A sound job, as a text, from numbers (with an odd list at times) or from
/// records.
fn random_sound(dice: &mut Dice, turn: usize) -> Case {
    let job = sound_job(dice);
    let out = enough(dice);
    match turn % 3 {
        0 => as_text(&job),
        1 if dice.once_in(3) => as_odd_numbers(dice, &job, out),
        1 => as_numbers(&job, out),
        _ => as_records(dice, &job, out),
    }
}

fn damaged_text(dice: &mut Dice, turn: usize) -> Vec<u8> {
    match turn % 5 {
        0..=2 => one_damage(dice, turn),
        3 if dice.once_in(3) => noise(dice),
        3 => two_in_one_line(dice),
        _ => several_damages(dice),
    }
}

fn damaged(dice: &mut Dice) -> Job {
    let mut job = sound_job(dice);
    for _ in 0..dice.between(1, 3) {
        damaged_job(dice, &mut job);
    }
    job
}

/// A text or a job that is damaged, though not always so that it is refused,
/// or too few bytes.
fn random_faulty(dice: &mut Dice, turn: usize) -> Case {
    let job = damaged(dice);
    let few = dice.below(LEAST_TEXT);
    let out = if dice.once_in(6) { few } else { enough(dice) };
    match turn % 3 {
        0 => write_text(damaged_text(dice, turn / 3)),
        1 if dice.once_in(3) => as_odd_numbers(dice, &job, out),
        1 => as_numbers(&job, out),
        _ => as_records(dice, &job, out),
    }
}

/// The cases of writing: those of every batch, `count` random sound ones and a
/// third as many random damaged ones.
pub fn write_cases(dice: &mut Dice, count: usize) -> Vec<Case> {
    let mut cases = text_cases(dice);
    cases.extend(sound_cases(dice));
    cases.extend(full_cases(dice));
    cases.extend(length_cases(dice));
    cases.extend(fault_cases(dice));
    cases.extend((0..count).map(|turn| random_sound(dice, turn)));
    cases.extend((0..count / 3).map(|turn| random_faulty(dice, turn)));
    cases
}
