// A batch: all small networks, also with closed nodes or a dwell, the systematic
// faults, carriers that wait on their goals, trains, the limits, lent tables of
// all lengths, as many random cases as asked for, jobs that are written as texts,
// floor books, trolleys, and questions whether a move may go. Random cases take turns
// through every kind and every damage, so that even a short run has some of each.

use crate::asking_cases::asking_cases;
use crate::batch::Case;
use crate::book_cases::book_cases;
use crate::closed_cases::closed_cases;
use crate::damage_bytes::BYTE_DAMAGES;
use crate::damage_entries::entry_damages;
use crate::damage_form::{FORM_DAMAGES, LINE_DAMAGES};
use crate::damage_numbers::{damaged_hall, damaged_job, HALL_DAMAGES, JOB_DAMAGES};
use crate::dice::Dice;
use crate::draft::Draft;
use crate::dwell_cases::dwell_cases;
use crate::dwelling::dwelling_at_times;
use crate::halls::{ample_job, any_hall, any_job, parted_job, through_one_corridor};
use crate::job::Job;
use crate::least_cases::{move_numbers, path_of_carrier, path_of_move, plan_numbers, read_text};
use crate::lent_cases::{lent_cases, random_lent};
use crate::limits::limit_cases;
use crate::lists::{proposal, some_move};
use crate::small::all_small_cases;
use crate::small_closed::small_closed_cases;
use crate::systematic::systematic_cases;
use crate::text;
use crate::trains::train_cases;
use crate::trolley_cases::trolley_cases;
use crate::write_cases::write_cases;

/// Most nodes in a random hall. The limits have cases of their own.
const MOST_NODES: usize = 64;

/// A text with exactly one damage, the damages taking turns.
pub fn one_damage(dice: &mut Dice, turn: usize) -> Vec<u8> {
    let job = ample_job(dice, 16);
    let mut draft = Draft::of(job);
    let in_group = turn / 3;
    match turn % 9 {
        0 | 3 | 6 => {
            let damages = entry_damages();
            damages[in_group % damages.len()](&mut draft, dice);
        }
        1 | 4 | 7 => {
            let line = dice.below(draft.lines.len());
            FORM_DAMAGES[in_group % FORM_DAMAGES.len()](&mut draft.lines[line], dice);
        }
        2 => LINE_DAMAGES[in_group % LINE_DAMAGES.len()](&mut draft.lines, dice),
        _ => {
            let mut bytes = text::join(&draft.lines);
            BYTE_DAMAGES[in_group % BYTE_DAMAGES.len()](&mut bytes, dice);
            return bytes;
        }
    }
    text::join(&draft.lines)
}

/// A text with two or more damages on any lines.
pub fn several_damages(dice: &mut Dice) -> Vec<u8> {
    let job = ample_job(dice, 16);
    let mut draft = Draft::of(job);
    for _ in 0..dice.between(1, 3) {
        dice.pick(&entry_damages())(&mut draft, dice);
    }
    for _ in 0..dice.below(3) {
        let line = dice.below(draft.lines.len());
        dice.pick(FORM_DAMAGES)(&mut draft.lines[line], dice);
    }
    if dice.once_in(4) {
        dice.pick(LINE_DAMAGES)(&mut draft.lines, dice);
    }
    let mut bytes = text::join(&draft.lines);
    if dice.once_in(3) {
        dice.pick(BYTE_DAMAGES)(&mut bytes, dice);
    }
    bytes
}

/// A text with a fault of value and a fault of form on one line, and perhaps
/// a fault of value further on.
pub fn two_in_one_line(dice: &mut Dice) -> Vec<u8> {
    let job = ample_job(dice, 16);
    let mut draft = Draft::of(job);
    let line = dice.pick(&entry_damages())(&mut draft, dice);
    dice.pick(FORM_DAMAGES)(&mut draft.lines[line], dice);
    if dice.once_in(2) {
        dice.pick(&entry_damages())(&mut draft, dice);
    }
    text::join(&draft.lines)
}

pub fn noise(dice: &mut Dice) -> Vec<u8> {
    let length = dice.pick(&[0, 1, 2, 7, 8, 9, 60, 1000]);
    if dice.once_in(2) {
        (0..length).map(|_| dice.word() as u8).collect()
    } else {
        (0..length).map(|_| dice.pick(b"NODESLACW 0123456789\n\n ")).collect()
    }
}

/// A text for the questions about paths, sound in most cases, and its job.
fn some_text(dice: &mut Dice) -> (Vec<u8>, Job) {
    let job = match dice.below(6) {
        0 => parted_job(dice, 16),
        1 | 2 => any_job(dice, MOST_NODES, true),
        _ => ample_job(dice, MOST_NODES),
    };
    if dice.once_in(10) {
        (several_damages(dice), job)
    } else {
        (text::write(&job), job)
    }
}

/// A small hall with late ticks.
fn corridor_job(dice: &mut Dice) -> Job {
    let bays = dice.between(1, 10);
    let corridor = dice.between(1, 30);
    let mut job = through_one_corridor(dice, bays, corridor);
    if dice.once_in(3) {
        dice.shuffle(&mut job.order);
    }
    dwelling_at_times(dice, job)
}

fn some_plan_text(dice: &mut Dice, turn: usize) -> Vec<u8> {
    match turn % 24 {
        0..=2 => text::write(&any_job(dice, 12, true)),
        3 => text::write(&corridor_job(dice)),
        4..=6 => text::write(&any_job(dice, MOST_NODES, true)),
        7 => text::write(&ample_job(dice, MOST_NODES)),
        8 | 9 => text::write(&parted_job(dice, 16)),
        place @ 10..=18 => one_damage(dice, turn / 24 * 9 + place - 10),
        19 | 20 => several_damages(dice),
        21 | 22 => two_in_one_line(dice),
        _ => noise(dice),
    }
}

/// A carrier number: one that the job has, or one just or far past its last.
fn some_carrier(dice: &mut Dice, carriers: usize) -> u16 {
    if carriers > 0 && !dice.once_in(5) {
        return dice.below(carriers) as u16;
    }
    dice.pick(&[carriers, carriers + 1, 63.max(carriers), 64, 65, 255, 256, 65_535]) as u16
}

fn question_case(dice: &mut Dice, turn: usize) -> Case {
    let (text, job) = some_text(dice);
    let carrier = some_carrier(dice, job.moves.len());
    let asked = some_move(dice, &job.hall);
    match turn % 5 {
        0 => path_of_carrier(carrier, text),
        1 => path_of_move(asked, text),
        2 => {
            let own_move = job.moves.get(usize::from(carrier)).copied().unwrap_or(asked);
            let list = proposal(dice, &job.hall, own_move);
            Case::JudgeForCarrier { carrier, list, text }
        }
        3 => Case::JudgeForMove { asked, list: proposal(dice, &job.hall, asked), text },
        _ => {
            let own = proposal(dice, &job.hall, asked);
            let spare = proposal(dice, &job.hall, asked);
            Case::Choose { asked, own, spare, text }
        }
    }
}

/// A job from numbers: sound, with one damage of each sort in turn, or with
/// several.
fn numbers_case(dice: &mut Dice, turn: usize) -> Case {
    let mut job = ample_job(dice, 24);
    let in_group = turn / 6;
    match turn % 6 {
        0 => {
            job = match dice.below(3) {
                0 => parted_job(dice, 16),
                _ => any_job(dice, MOST_NODES, true),
            };
        }
        1 => HALL_DAMAGES[in_group % HALL_DAMAGES.len()](&mut job.hall, dice),
        place @ 2..=4 => JOB_DAMAGES[(3 * in_group + place) % JOB_DAMAGES.len()](&mut job, dice),
        _ => {
            for _ in 0..dice.between(2, 4) {
                damaged_job(dice, &mut job);
            }
        }
    }
    plan_numbers(&job)
}

fn move_numbers_case(dice: &mut Dice) -> Case {
    let nodes = dice.between(1, 24);
    let mut hall = any_hall(dice, nodes);
    let asked = some_move(dice, &hall);
    let list = proposal(dice, &hall, asked);
    if dice.once_in(2) {
        for _ in 0..dice.between(1, 2) {
            damaged_hall(dice, &mut hall);
        }
    }
    move_numbers(hall, asked, list)
}

fn random_case(dice: &mut Dice, number: usize) -> Case {
    let turn = number / 16;
    match number % 16 {
        place @ 0..=3 => Case::Plan { text: some_plan_text(dice, 4 * turn + place) },
        place @ 4..=7 => question_case(dice, 4 * turn + place - 4),
        place @ 8..=9 => numbers_case(dice, 2 * turn + place - 8),
        10 => move_numbers_case(dice),
        place @ 11..=14 => {
            let text = some_plan_text(dice, turn);
            random_lent(dice, 4 * turn + place - 11, text)
        }
        _ => read_text(some_plan_text(dice, turn)),
    }
}

pub fn random_cases(dice: &mut Dice, count: usize) -> Vec<Case> {
    (0..count).map(|number| random_case(dice, number)).collect()
}

pub fn batch(seed: u64, count: usize) -> Vec<Case> {
    let mut dice = Dice::new(seed);
    let mut cases = all_small_cases();
    cases.extend(small_closed_cases());
    cases.extend(systematic_cases(&mut dice));
    cases.extend(closed_cases(&mut dice));
    cases.extend(dwell_cases(&mut dice));
    cases.extend(train_cases(&mut dice));
    cases.extend(limit_cases(&mut dice));
    cases.extend(lent_cases(&mut dice));
    cases.extend(random_cases(&mut dice, count));
    cases.extend(write_cases(&mut dice, count));
    cases.extend(book_cases(&mut dice, count));
    cases.extend(trolley_cases(&mut dice, count));
    cases.extend(asking_cases(&mut dice, count));
    cases
}
