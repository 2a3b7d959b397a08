// Cases that lend every table with its least length, so that refusal 9 is not
// among their answers.

use crate::batch::Case;
use crate::job::{Hall, Job, Move};
use crate::lent_jobs::Listed;
use crate::lent_lengths::{least, FOR_MOVES, PATH, TABLE, TIMES};
use crate::write::LEAST_TEXT;

/// A text is read, and no more.
pub fn read_text(text: Vec<u8>) -> Case {
    Case::ReadMoves { lent: least(FOR_MOVES), text }
}

/// A job is planned from numbers.
pub fn plan_numbers(job: &Job) -> Case {
    Case::PlanLists { lent: least([TABLE, TIMES, TIMES]), job: Listed::of(job) }
}

pub fn path_of_carrier(carrier: u16, text: Vec<u8>) -> Case {
    let [path] = least([PATH]);
    Case::PathOfCarrier { path, carrier, text }
}

pub fn path_of_move(asked: Move, text: Vec<u8>) -> Case {
    let [path] = least([PATH]);
    Case::PathOfMove { path, asked, text }
}

pub fn move_numbers(hall: Hall, asked: Move, list: Vec<u16>) -> Case {
    let [path] = least([PATH]);
    Case::MoveNumbers { path, asked, list, hall }
}

/// The job of a text is written, with so many further readings and writings.
pub fn write_again(readings: u16, writings: u16, text: Vec<u8>) -> Case {
    Case::WriteText { out: LEAST_TEXT as u16, readings, writings, text }
}

pub fn write_text(text: Vec<u8>) -> Case {
    write_again(0, 0, text)
}
