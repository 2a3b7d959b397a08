// How cases are put into a batch file and taken out again. All payloads have
// the same parts, and what these are to each kind stands here twice, once each
// way. A file that breaks the format is an error of the caller and is never
// guessed at.

use crate::batch::Case;
use crate::book::Admissions;
use crate::job::{Hall, Move};
use crate::lent_jobs::{Listed, Recorded};
use crate::payload::{
    put_admissions, put_arrivals, put_list, put_listed, put_long, put_recorded, put_shorts, Rest,
};
use crate::trolley::Arrivals;

/// More bytes than this the batch program does not take.
const MOST_BYTES: usize = 262_144;

/// The parts of a payload. A number or a list that the kind has no use for is 0
/// or empty. The body is a text, or the bytes of a job from numbers.
struct Parts {
    numbers: [u16; 4],
    own: Vec<u16>,
    spare: Vec<u16>,
    body: Vec<u8>,
}

impl Parts {
    /// Without lists, which few kinds have.
    fn new(numbers: [u16; 4], body: Vec<u8>) -> Parts {
        Parts { numbers, own: Vec::new(), spare: Vec::new(), body }
    }

    fn with(self, own: &[u16], spare: &[u16]) -> Parts {
        Parts { own: own.to_vec(), spare: spare.to_vec(), ..self }
    }

    fn put(&self) -> Vec<u8> {
        let mut out = Vec::new();
        put_shorts(&mut out, &self.numbers);
        put_list(&mut out, &self.own);
        put_list(&mut out, &self.spare);
        out.extend(&self.body);
        out
    }

    fn take(payload: &[u8]) -> Result<Parts, String> {
        let mut rest = Rest(payload);
        let numbers = [rest.short()?, rest.short()?, rest.short()?, rest.short()?];
        Ok(Parts { numbers, own: rest.list()?, spare: rest.list()?, body: rest.text() })
    }
}

fn listed(job: &Listed) -> Vec<u8> {
    let mut out = Vec::new();
    put_listed(&mut out, job);
    out
}

fn recorded(job: &Recorded) -> Vec<u8> {
    let mut out = Vec::new();
    put_recorded(&mut out, job);
    out
}

/// A network, and behind it a book and calls or questions.
fn admissions(asked: &Admissions) -> Vec<u8> {
    let mut out = network(&asked.hall);
    put_admissions(&mut out, asked);
    out
}

fn arrivals(asked: &Arrivals) -> Vec<u8> {
    let mut out = network(&asked.hall);
    put_arrivals(&mut out, asked);
    out
}

/// How many records a job has, the last number of its payload.
fn count(job: &Recorded) -> u16 {
    job.records.len() as u16
}

/// A network alone is a job without carriers.
fn network(hall: &Hall) -> Vec<u8> {
    listed(&Listed { hall: hall.clone(), moves: Vec::new(), order: Vec::new(), dwell: 0 })
}

/// The numbers of a question with a move, the first of them a length.
fn with_move(lent: u16, asked: Move) -> [u16; 4] {
    [lent, asked.start, asked.goal, 0]
}

impl Case {
    fn parts(&self) -> Parts {
        match self {
            Case::Plan { text } => Parts::new([0; 4], text.clone()),
            Case::PrintTo { out, text } => Parts::new([*out, 0, 0, 0], text.clone()),
            Case::ReadRecords { lent, text } | Case::ReadMoves { lent, text } => {
                Parts::new(*lent, text.clone())
            }
            Case::PathOfCarrier { path, carrier, text } => {
                Parts::new([*path, *carrier, 0, 0], text.clone())
            }
            Case::PathOfMove { path, asked, text } => {
                Parts::new(with_move(*path, *asked), text.clone())
            }
            Case::JudgeForCarrier { carrier, list, text } => {
                Parts::new([0, *carrier, 0, 0], text.clone()).with(list, &[])
            }
            Case::JudgeForMove { asked, list, text } => {
                Parts::new(with_move(0, *asked), text.clone()).with(list, &[])
            }
            Case::Choose { asked, own, spare, text } => {
                Parts::new(with_move(0, *asked), text.clone()).with(own, spare)
            }
            Case::WriteText { out, readings, writings, text } => {
                Parts::new([*out, *writings, 0, *readings], text.clone())
            }
            Case::PlanLists { lent: [table, distances, ticks], job } => {
                Parts::new([*table, *distances, *ticks, 0], listed(job))
            }
            Case::PathLent { path, asked, hall } => {
                Parts::new(with_move(*path, *asked), network(hall))
            }
            Case::MoveNumbers { path, asked, list, hall } => {
                Parts::new(with_move(*path, *asked), network(hall)).with(list, &[])
            }
            Case::ChooseNumbers { asked, own, spare, hall } => {
                Parts::new(with_move(0, *asked), network(hall)).with(own, spare)
            }
            Case::WriteNumbers { out, job } => Parts::new([*out, 0, 0, 0], listed(job)),
            Case::PlanRecords { table, job } => {
                Parts::new([*table, 0, 0, count(job)], recorded(job))
            }
            Case::PathOfRecords { path, carrier, job } => {
                Parts::new([*path, *carrier, 0, count(job)], recorded(job))
            }
            Case::JudgeRecords { carrier, list, job } => {
                Parts::new([0, *carrier, 0, count(job)], recorded(job)).with(list, &[])
            }
            Case::WriteRecords { out, job } => Parts::new([*out, 0, 0, count(job)], recorded(job)),
            Case::Admit { each, again, asked } | Case::Ask { each, again, asked } => {
                Parts::new([asked.calls.len() as u16, *each, *again, 0], admissions(asked))
            }
            Case::AdmitAll { each, again, asked } => {
                Parts::new([asked.arrivals.len() as u16, *each, *again, 0], arrivals(asked))
            }
        }
    }

    pub fn payload(&self) -> Vec<u8> {
        self.parts().put()
    }

    pub fn put(&self, out: &mut Vec<u8>) {
        let payload = self.payload();
        assert!(payload.len() <= MOST_BYTES, "a payload has at most 262,144 bytes");
        out.push(self.kind());
        put_long(out, payload.len() as u32);
        out.extend(payload);
    }

    /// A case has one payload, so whatever its kind has no use for is found out.
    fn take(kind: u8, payload: &[u8]) -> Result<Case, String> {
        let Parts { numbers, own, spare, body } = Parts::take(payload)?;
        let [a0, a1, a2, a3] = numbers;
        let (carrier, asked) = (a1, Move { start: a1, goal: a2 });
        let mut body = Rest(&body);
        let case = match kind {
            b'P' => Case::Plan { text: body.text() },
            b'a' => Case::PrintTo { out: a0, text: body.text() },
            b'r' => Case::ReadRecords { lent: numbers, text: body.text() },
            b'm' => Case::ReadMoves { lent: numbers, text: body.text() },
            b'H' => Case::PathOfCarrier { path: a0, carrier, text: body.text() },
            b'h' => Case::PathOfMove { path: a0, asked, text: body.text() },
            b'Q' => Case::JudgeForCarrier { carrier, list: own, text: body.text() },
            b'q' => Case::JudgeForMove { asked, list: own, text: body.text() },
            b'C' => Case::Choose { asked, own, spare, text: body.text() },
            b'W' => Case::WriteText { out: a0, readings: a3, writings: a1, text: body.text() },
            b't' => Case::PlanLists { lent: [a0, a1, a2], job: body.listed()? },
            b'w' => Case::PathLent { path: a0, asked, hall: body.listed()?.hall },
            b'n' => Case::MoveNumbers { path: a0, asked, list: own, hall: body.listed()?.hall },
            b'c' => Case::ChooseNumbers { asked, own, spare, hall: body.listed()?.hall },
            b'x' => Case::WriteNumbers { out: a0, job: body.listed()? },
            b'p' => Case::PlanRecords { table: a0, job: body.recorded(a3)? },
            b'o' => Case::PathOfRecords { path: a0, carrier, job: body.recorded(a3)? },
            b'j' => Case::JudgeRecords { carrier, list: own, job: body.recorded(a3)? },
            b'y' => Case::WriteRecords { out: a0, job: body.recorded(a3)? },
            b'B' => {
                let hall = body.listed()?.hall;
                let asked = Box::new(body.admissions(a0, hall)?);
                Case::Admit { each: a1, again: a2, asked }
            }
            b'T' => {
                let hall = body.listed()?.hall;
                let asked = Box::new(body.arrivals(a0, hall)?);
                Case::AdmitAll { each: a1, again: a2, asked }
            }
            b'G' => {
                let hall = body.listed()?.hall;
                let asked = Box::new(body.admissions(a0, hall)?);
                Case::Ask { each: a1, again: a2, asked }
            }
            other => return Err(format!("no kind has the byte {}", other)),
        };
        if case.payload() == payload {
            Ok(case)
        } else {
            Err("the payload holds what its kind has no use for".to_string())
        }
    }
}

/// All cases of a file, or what is wrong with it and where.
pub fn cases_of(file: &[u8]) -> Result<Vec<Case>, String> {
    let mut rest = Rest(file);
    let mut cases: Vec<Case> = Vec::new();
    while !rest.0.is_empty() {
        let at = |fault: String| format!("case {}: {}", cases.len(), fault);
        let kind = rest.bytes(1).map_err(at)?[0];
        let length = rest.long().map_err(at)?;
        let payload = rest.bytes(length as usize).map_err(at)?;
        let case = Case::take(kind, payload).map_err(at)?;
        cases.push(case);
    }
    Ok(cases)
}
