// A text, a whole job from numbers, or a network with one move, put to the
// questions that take it: to each by turns, or to all of them. Tables that are
// lent have their least lengths here, save where one question comes twice.

use crate::batch::Case;
use crate::dice::Dice;
use crate::job::{move_fault, Job, Move};
use crate::least_cases::{move_numbers, path_of_carrier, plan_numbers, read_text, write_text};
use crate::lent_cases::{list_for, recorded};
use crate::lent_jobs::Listed;
use crate::lent_lengths::{least, most, FOR_RECORDS, PATH, TABLE, TIMES};
use crate::write_jobs::{as_numbers, as_records, enough};

/// Each text is planned, and by turns read or written, or a path is asked for.
pub fn text_cases(texts: Vec<Vec<u8>>) -> Vec<Case> {
    let mut cases = Vec::new();
    for (turn, text) in texts.into_iter().enumerate() {
        cases.push(Case::Plan { text: text.clone() });
        cases.push(match turn % 5 {
            0 | 2 => read_text(text),
            1 => Case::ReadRecords { lent: least(FOR_RECORDS), text },
            3 => write_text(text),
            _ => path_of_carrier(0, text),
        });
    }
    cases
}

/// A question with a whole job, each by turns. Where it has no carriers, carrier
/// 0 is asked about.
pub fn with_the_job(dice: &mut Dice, job: &Job, turn: usize) -> Case {
    let carrier = dice.below(job.moves.len().max(1)) as u16;
    let [table] = least([TABLE]);
    match turn % 5 {
        0 | 2 => plan_numbers(job),
        1 => Case::PlanRecords { table, job: recorded(dice, job) },
        3 => {
            let [path] = least([PATH]);
            Case::PathOfRecords { path, carrier, job: recorded(dice, job) }
        }
        _ => {
            let asked = job.moves.get(usize::from(carrier));
            let list = asked.map_or(Vec::new(), |&asked| list_for(dice, &job.hall, asked));
            Case::JudgeRecords { carrier, list, job: recorded(dice, job) }
        }
    }
}

/// Every question with a whole job, and the job written from numbers and from
/// records. Planning from numbers has two turns, and at the second one its
/// tables have all their places.
pub fn every_question(dice: &mut Dice, job: &Job) -> Vec<Case> {
    let mut cases: Vec<Case> = (0..5).map(|turn| with_the_job(dice, job, turn)).collect();
    cases[2] = Case::PlanLists { lent: most([TABLE, TIMES, TIMES]), job: Listed::of(job) };
    let out = enough(dice);
    cases.extend([as_numbers(job, out), as_records(dice, job, out)]);
    cases
}

/// A question with the job's network and its first faulty move, or carrier 0's
/// if all are sound.
pub fn with_a_move(dice: &mut Dice, job: &Job, turn: usize) -> Case {
    let hall = job.hall.clone();
    let is_faulty = |asked: &Move| move_fault(hall.nodes, &hall.closed, *asked).is_some();
    let asked = job.moves.iter().copied().find(is_faulty).unwrap_or(job.moves[0]);
    let list = list_for(dice, &hall, asked);
    match turn % 3 {
        0 => move_numbers(hall, asked, list),
        1 => {
            let [path] = least([PATH]);
            Case::PathLent { path, asked, hall }
        }
        _ => {
            let spare = list_for(dice, &hall, asked);
            Case::ChooseNumbers { asked, own: list, spare, hall }
        }
    }
}
