// What the cases of a batch that write a job amount to: how many there are,
// and what the jobs have that were written. It stands below the table that
// says how often each kind is accepted and refused.

use crate::answers::Answer;
use crate::batch::Case;
use crate::job::{Job, MOST_CARRIERS, MOST_LANES};
use crate::rule::Distances;
use crate::text;

/// Cases that write a job, and what the jobs that were written have.
#[derive(Default)]
pub struct Written {
    cases: usize,
    written: usize,
    refused: usize,
    /// Texts of the shortest and of the longest written job.
    least: usize,
    most: usize,
    /// Some carrier has no walk, or the moves are a list of odd length.
    no_walk: usize,
    odd: usize,
    /// Some node is closed, or carriers wait on their goals.
    closed: usize,
    dwelling: usize,
    /// As many lanes or as many carriers as there may be.
    full: usize,
}

/// The job of a case that writes one, and whether its moves are an odd list.
fn to_write(case: &Case) -> Option<(Option<Job>, bool)> {
    match case {
        Case::WriteText { text, .. } => Some((text::read(text).ok(), false)),
        Case::WriteNumbers { job, .. } => Some((Some(job.job()), job.moves.len() % 2 == 1)),
        Case::WriteRecords { job, .. } => Some((Some(job.job()), false)),
        _ => None,
    }
}

impl Written {
    pub fn note(&mut self, case: &Case, answer: &Answer) {
        let (job, odd) = match to_write(case) {
            Some(found) => found,
            None => return,
        };
        self.cases += 1;
        let job = match job {
            Some(job) if answer.refusal().is_none() => job,
            _ => {
                self.refused += 1;
                return;
            }
        };
        let length = text::write(&job).len();
        self.least = if self.written == 0 { length } else { self.least.min(length) };
        self.most = self.most.max(length);
        self.written += 1;
        self.no_walk += usize::from(Distances::of(&job).own().is_err());
        self.odd += usize::from(odd);
        self.closed += usize::from(!job.hall.closed.is_empty());
        self.dwelling += usize::from(job.dwell > 0);
        let full =
            job.hall.lane_numbers.len() == 2 * MOST_LANES || job.moves.len() == MOST_CARRIERS;
        self.full += usize::from(full);
    }

    pub fn printed(&self) -> String {
        format!(
            "\ncases of writing: {}; written {}, with texts of {} to {} bytes; refused {}\
             \nof the written jobs {} have a carrier without a walk, {} an odd list of moves, \
             {} closed nodes, {} a dwell, {} 4,096 lanes or 64 carriers",
            self.cases,
            self.written,
            self.least,
            self.most,
            self.refused,
            self.no_walk,
            self.odd,
            self.closed,
            self.dwelling,
            self.full
        )
    }
}
