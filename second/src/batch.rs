// The batch format: many questions in one file, so that one process answers
// them all. A case is one byte of kind, the payload's length as four bytes,
// and the payload, which has one layout for all kinds. This file has the cases
// and their kinds; coding.rs puts them into a file and takes them out. How many
// places of a table are lent is in the case; least_cases.rs makes those that
// lend the least.

use crate::book::Admissions;
use crate::job::{Hall, Move};
use crate::lent_jobs::{Listed, Recorded};
use crate::trolley::Arrivals;

#[derive(Clone)]
pub enum Case {
    /// `P`: plan a text.
    Plan { text: Vec<u8> },
    /// `H`: house path of a carrier of a job, into a lent list.
    PathOfCarrier { path: u16, carrier: u16, text: Vec<u8> },
    /// `h`: house path of a move, into a lent list.
    PathOfMove { path: u16, asked: Move, text: Vec<u8> },
    /// `Q`: question about one list for a carrier of a job.
    JudgeForCarrier { carrier: u16, list: Vec<u16>, text: Vec<u8> },
    /// `q`: question about one list for a move.
    JudgeForMove { asked: Move, list: Vec<u16>, text: Vec<u8> },
    /// `C`: choice between two lists for a move.
    Choose { asked: Move, own: Vec<u16>, spare: Vec<u16>, text: Vec<u8> },
    /// `n`: house path, into a lent list, and question about one list from
    /// numbers.
    MoveNumbers { path: u16, asked: Move, list: Vec<u16>, hall: Hall },
    /// `W`: write the job of a text into lent bytes, with so many further
    /// readings and writings.
    WriteText { out: u16, readings: u16, writings: u16, text: Vec<u8> },
    /// `r`: read a text into lanes, closed nodes, records and order of these
    /// lengths.
    ReadRecords { lent: [u16; 4], text: Vec<u8> },
    /// `m`: the same with a list of moves in the place of the records.
    ReadMoves { lent: [u16; 4], text: Vec<u8> },
    /// `a`: print the answer to a text into lent bytes.
    PrintTo { out: u16, text: Vec<u8> },
    /// `p`: plan a job of records into a lent table.
    PlanRecords { table: u16, job: Recorded },
    /// `t`: the same on numbers, with lists for distances and ticks.
    PlanLists { lent: [u16; 3], job: Listed },
    /// `o`: house path of a carrier of a job of records, into a lent list.
    PathOfRecords { path: u16, carrier: u16, job: Recorded },
    /// `w`: house path of a move into a lent list.
    PathLent { path: u16, asked: Move, hall: Hall },
    /// `j`: question about one list for a carrier of a job of records.
    JudgeRecords { carrier: u16, list: Vec<u16>, job: Recorded },
    /// `c`: choice between two lists with a network and a move.
    ChooseNumbers { asked: Move, own: Vec<u16>, spare: Vec<u16>, hall: Hall },
    /// `x`: write a job from numbers into lent bytes.
    WriteNumbers { out: u16, job: Listed },
    /// `y`: write a job of records into lent bytes.
    WriteRecords { out: u16, job: Recorded },
    /// `B`: admit carriers to a floor book, call by call. The book is told after
    /// the last call, or after each if the first number is not 0; the second says
    /// how many times more each call is made, on a copy of the book.
    Admit { each: u16, again: u16, asked: Box<Admissions> },
    /// `T`: the same with trolleys, each with a lent answer list, and with moves that
    /// are admitted one by one.
    AdmitAll { each: u16, again: u16, asked: Box<Arrivals> },
    /// `G`: ask a floor book whether moves may start at ticks, with its calls as the
    /// questions.
    Ask { each: u16, again: u16, asked: Box<Admissions> },
}

/// All kinds, in the order in which the histogram shows them.
pub const KINDS: &[u8] = b"PHhQqCnWrmaptowjcxyBTG";

impl Case {
    pub fn kind(&self) -> u8 {
        match self {
            Case::Plan { .. } => b'P',
            Case::PathOfCarrier { .. } => b'H',
            Case::PathOfMove { .. } => b'h',
            Case::JudgeForCarrier { .. } => b'Q',
            Case::JudgeForMove { .. } => b'q',
            Case::Choose { .. } => b'C',
            Case::MoveNumbers { .. } => b'n',
            Case::WriteText { .. } => b'W',
            Case::ReadRecords { .. } => b'r',
            Case::ReadMoves { .. } => b'm',
            Case::PrintTo { .. } => b'a',
            Case::PlanRecords { .. } => b'p',
            Case::PlanLists { .. } => b't',
            Case::PathOfRecords { .. } => b'o',
            Case::PathLent { .. } => b'w',
            Case::JudgeRecords { .. } => b'j',
            Case::ChooseNumbers { .. } => b'c',
            Case::WriteNumbers { .. } => b'x',
            Case::WriteRecords { .. } => b'y',
            Case::Admit { .. } => b'B',
            Case::AdmitAll { .. } => b'T',
            Case::Ask { .. } => b'G',
        }
    }
}
