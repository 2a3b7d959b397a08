// What is answered to each case of a batch, and how an answer prints.
// An answer is kept apart from its print so that the histogram can count
// refusals without reading print back.

use crate::batch::Case;
use crate::job::{Job, Refusal};
use crate::lent::{self, Lent};
use crate::lent_asking;
use crate::lent_book;
use crate::lent_plan;
use crate::lent_read;
use crate::lent_trolley;
use crate::lent_write;
use crate::paths::{judge_for_carrier, judge_for_move};
use crate::plan::{plan, Plan};
use crate::text;
use crate::write::read_again;

pub enum Answer {
    Refused(Refusal),
    /// The plan of a text, printed as page 01 says.
    Planned(Plan),
    Passed,
    /// The answer of a question whose tables were lent, and what they hold.
    Left(Lent),
    /// The same of a trolley that was refused at the move with this number.
    OfMove(usize, Lent),
}

fn either<T>(result: Result<T, Refusal>, accepted: impl Fn(T) -> Answer) -> Answer {
    match result {
        Ok(value) => accepted(value),
        Err(refusal) => Answer::Refused(refusal),
    }
}

/// The answer to one job text. Reading refuses with the line; planning can then
/// only give 8, whose place is turned into the carrier's line.
pub fn answer_to_text(text: &[u8]) -> Answer {
    let planned = text::read(text).and_then(|job| {
        plan(&job).map_err(|refusal| Refusal {
            number: refusal.number,
            at: text::line_of_carrier(&job, refusal.at),
        })
    });
    either(planned, Answer::Planned)
}

/// The answer to a question with the job of a text. Of a text that is not read
/// the refusal is all, and no table is told.
fn of_text(text: &[u8], asked: impl Fn(&Job) -> Answer) -> Answer {
    either(text::read(text), |job| asked(&job))
}

fn judged(result: Result<(), Refusal>) -> Answer {
    either(result, |()| Answer::Passed)
}

/// All answers to one case: two for `n`, one for each call of `B` and each question of
/// `G`, one for each trolley of `T` and each move there that comes by itself, and one
/// for every other kind.
pub fn answers_to(case: &Case) -> Vec<Answer> {
    let one = match case {
        Case::Plan { text } => answer_to_text(text),
        Case::PathOfCarrier { path, carrier, text } => {
            of_text(text, |job| Answer::Left(lent::house_of_carrier(*path, *carrier, job)))
        }
        Case::PathOfMove { path, asked, text } => {
            of_text(text, |job| Answer::Left(lent::house_of_move(*path, *asked, &job.hall)))
        }
        Case::JudgeForCarrier { carrier, list, text } => {
            of_text(text, |job| judged(judge_for_carrier(job, *carrier, list)))
        }
        Case::JudgeForMove { asked, list, text } => {
            of_text(text, |job| judged(judge_for_move(&job.hall, *asked, list)))
        }
        Case::Choose { asked, own, spare, text } => {
            of_text(text, |job| Answer::Left(lent::choice(*asked, own, spare, &job.hall)))
        }
        Case::MoveNumbers { path, asked, list, hall } => {
            return vec![
                Answer::Left(lent::house_of_move(*path, *asked, hall)),
                judged(judge_for_move(hall, *asked, list)),
            ];
        }
        Case::WriteText { out, readings, writings, text } => {
            let written = |job: Job| Answer::Left(lent_write::again(*out, *writings, &job));
            either(read_again(*readings, text), written)
        }
        Case::ReadRecords { lent, text } => Answer::Left(lent_read::to_records(*lent, text)),
        Case::ReadMoves { lent, text } => Answer::Left(lent_read::to_moves(*lent, text)),
        Case::PrintTo { out, text } => {
            Answer::Left(lent::print_to(*out, &answer_to_text(text).printed()))
        }
        Case::PlanRecords { table, job } => Answer::Left(lent_plan::records(*table, job)),
        Case::PlanLists { lent, job } => Answer::Left(lent_plan::lists(*lent, job)),
        Case::PathOfRecords { path, carrier, job } => {
            Answer::Left(lent::house_of_carrier(*path, *carrier, &job.job()))
        }
        Case::PathLent { path, asked, hall } => {
            Answer::Left(lent::house_of_move(*path, *asked, hall))
        }
        Case::JudgeRecords { carrier, list, job } => {
            judged(judge_for_carrier(&job.job(), *carrier, list))
        }
        Case::ChooseNumbers { asked, own, spare, hall } => {
            Answer::Left(lent::choice(*asked, own, spare, hall))
        }
        Case::WriteNumbers { out, job } => Answer::Left(lent_write::again(*out, 0, &job.job())),
        Case::WriteRecords { out, job } => Answer::Left(lent_write::again(*out, 0, &job.job())),
        Case::Admit { each, again, asked } => {
            let answers = lent_book::admissions(*each > 0, *again, asked);
            return answers.into_iter().map(Answer::Left).collect();
        }
        Case::AdmitAll { each, again, asked } => {
            return lent_trolley::arrivals(*each > 0, *again, asked);
        }
        Case::Ask { each, again, asked } => {
            let answers = lent_asking::questions(*each > 0, *again, asked);
            return answers.into_iter().map(Answer::Left).collect();
        }
    };
    vec![one]
}

/// All answers to one case as they print.
pub fn printed_to(case: &Case) -> String {
    answers_to(case).iter().map(|answer| answer.printed()).collect()
}

fn printed_plan(plan: &Plan) -> String {
    let mut out = format!("PLAN {}\n", plan.ticks.len());
    for (carrier, tick) in plan.ticks.iter().enumerate() {
        let (distance, goal_tick) = (plan.distances[carrier], plan.goal_tick(carrier));
        out += &format!("{} {} {} {}\n", carrier, tick, distance, goal_tick);
    }
    out + &format!("COST {}\n", plan.cost())
}

impl Answer {
    /// The refusal that an answer is or tells.
    pub fn refusal(&self) -> Option<Refusal> {
        match self {
            Answer::Refused(refusal) => Some(*refusal),
            Answer::Left(lent) | Answer::OfMove(_, lent) => lent.said.as_ref().err().copied(),
            _ => None,
        }
    }

    pub fn printed(&self) -> String {
        match self {
            Answer::Refused(refusal) => format!("REFUSED {} {}\n", refusal.number, refusal.at),
            Answer::Planned(plan) => printed_plan(plan),
            Answer::Passed => "PASSED\n".to_string(),
            Answer::Left(lent) => lent.printed(),
            Answer::OfMove(number, lent) => format!("MOVE {} {}", number, lent.printed()),
        }
    }
}
