// The cases of closed nodes besides those of all small networks: a hall before
// and after floor plates are taken up, texts with a damaged section, jobs from
// numbers with one fault or two, put to every question from numbers with a
// whole job or with one move, and lists of a drive shop that does not know what
// is closed. The cases at the limits have a file of their own.

use crate::batch::Case;
use crate::closed_texts::{section_texts, spoiled_texts};
use crate::dice::Dice;
use crate::faults::{double_faults, larger_job, single_faults};
use crate::halls::grid;
use crate::job::{Hall, Move};
use crate::least_cases::move_numbers;
use crate::lent_cases::recorded;
use crate::limits_closed::limit_cases;
use crate::page;
use crate::paths::house_path_of_move;
use crate::questions::{text_cases, with_a_move, with_the_job};
use crate::text;

fn fault_cases(dice: &mut Dice) -> Vec<Case> {
    let mut jobs = single_faults(&page::plates_taken_up());
    jobs.extend(single_faults(&larger_job(dice)));
    jobs.extend(double_faults(dice));
    let mut cases = Vec::new();
    for (turn, job) in jobs.iter().enumerate() {
        cases.extend([with_the_job(dice, job, turn), with_a_move(dice, job, turn)]);
    }
    cases
}

/// Three rows of four nodes with each node closed in turn, and every move whose
/// house path stood on it: the old path is put forward, as by a drive shop that
/// does not know, and in a choice the new one is the spare. Where the new path
/// is no longer, the closed node is all that is wrong with the old one.
fn unaware_cases(dice: &mut Dice) -> Vec<Case> {
    let open = grid(12, 4);
    let mut cases = Vec::new();
    for closed in 0..12 {
        let hall = Hall { closed: vec![closed], ..open.clone() };
        for (start, goal) in (0..12).flat_map(|start| (0..12).map(move |goal| (start, goal))) {
            let asked = Move { start, goal };
            let path = |hall: &Hall| house_path_of_move(hall, asked);
            let (own, spare) = match (path(&open), path(&hall)) {
                (Ok(old), Ok(new)) if old != new => (old, new),
                _ => continue,
            };
            let (hall, job) = (hall.clone(), page::job(hall.clone(), &[(start, goal)]));
            let text = text::write(&job);
            cases.push(match cases.len() % 6 {
                0 => move_numbers(hall, asked, own),
                1 => Case::JudgeForMove { asked, list: own, text },
                2 => Case::JudgeForCarrier { carrier: 0, list: own, text },
                3 => Case::JudgeRecords { carrier: 0, list: own, job: recorded(dice, &job) },
                4 => Case::Choose { asked, own, spare, text },
                _ => Case::ChooseNumbers { asked, own, spare, hall },
            });
        }
    }
    cases
}

pub fn closed_cases(dice: &mut Dice) -> Vec<Case> {
    let plates = [page::plates_in_place(), page::plates_taken_up()];
    let mut cases = text_cases(plates.iter().map(text::write).collect());
    cases.extend(text_cases(section_texts()));
    cases.extend(spoiled_texts(dice).into_iter().map(|text| Case::Plan { text }));
    cases.extend(fault_cases(dice));
    cases.extend(unaware_cases(dice));
    cases.extend(limit_cases(dice));
    cases
}
