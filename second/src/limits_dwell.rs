// Dwells at the limits: the latest ticks that there can be, jobs of 64 carriers
// at full size with short and with long dwells, and texts at full size whose last
// line is at fault. They are few, because each takes long. Trains at full size
// stand with the other trains.

use crate::batch::Case;
use crate::dice::Dice;
use crate::halls::line;
use crate::job::{Job, MOST_DWELL};
use crate::least_cases::plan_numbers;
use crate::lent_cases::recorded;
use crate::lent_lengths::{least, BYTES, TABLE};
use crate::limits::full_jobs;
use crate::page;
use crate::program_texts::longest_job;
use crate::text;

/// Carriers between the ends of a line of all nodes, by turns there and back:
/// each goes when the one before it is gone, so with the longest dwell the last
/// one starts and ends as late as can be.
pub fn latest(dwell: u32) -> Job {
    let ends = |carrier: usize| if carrier % 2 == 0 { (0, 1023) } else { (1023, 0) };
    let moves: Vec<(u16, u16)> = (0..64).map(ends).collect();
    page::dwelling(dwell, page::job(line(1024), &moves))
}

/// The latest ticks in every form of planning and printing, with the longest
/// dwell, with others, and with one that is too long.
fn latest_ticks(dice: &mut Dice) -> Vec<Case> {
    let mut cases = Vec::new();
    for dwell in [1, 127, 128, 254, MOST_DWELL, MOST_DWELL + 1] {
        let job = latest(dwell);
        let [table] = least([TABLE]);
        let [out] = least([BYTES]);
        cases.push(Case::Plan { text: text::write(&job) });
        cases.push(Case::PrintTo { out, text: text::write(&job) });
        cases.push(Case::PlanRecords { table, job: recorded(dice, &job) });
        cases.push(plan_numbers(&job));
        let mut shuffled = job;
        dice.shuffle(&mut shuffled.order);
        cases.push(plan_numbers(&shuffled));
    }
    cases
}

/// All shapes at full size, with the dwells by turns.
fn full_plans(dice: &mut Dice) -> Vec<Case> {
    let dwells = [1, 2, 30, 254, MOST_DWELL].into_iter().cycle();
    (full_jobs(dice).into_iter().zip(dwells))
        .map(|(job, dwell)| Case::Plan { text: text::write(&page::dwelling(dwell, job)) })
        .collect()
}

/// The longest text with another last line, or with none, and with something
/// behind it.
fn last_lines() -> Vec<Case> {
    let bare = text::write(&page::dwelling(0, longest_job()));
    let ends = "|DWELL 255\n|DWELL 9\n|DWELL 0\n|DWELL 256\n|DWELL 9999\n|DWELL 10000\n|\
        DWELL 0255\n|DWELL 255|DWELL|DWELL 255 \n|DWELL 255\nDWELL 255\n|DWELL 255\n\n|\
        CLOSED 1\n|\n";
    let with = |end: &str| [&bare[..], end.as_bytes()].concat();
    ends.split('|').map(|end| Case::Plan { text: with(end) }).collect()
}

pub fn limit_cases(dice: &mut Dice) -> Vec<Case> {
    let mut cases = latest_ticks(dice);
    cases.extend(full_plans(dice));
    cases.extend(last_lines());
    cases
}
