// Jobs from numbers in the two forms in which they are lent: with a record for
// each carrier, and with the moves as a list of numbers. Either gives the job
// that the checks and the planner work on.

use crate::job::{Hall, Job, Move};

/// What a record brings along; its distance and its tick are not looked at.
#[derive(Clone, Copy)]
pub struct Record {
    pub asked: Move,
    pub distance: u16,
    pub tick: u32,
}

/// A job with whole records.
#[derive(Clone)]
pub struct Recorded {
    pub hall: Hall,
    pub records: Vec<Record>,
    pub order: Vec<u16>,
    pub dwell: u32,
}

/// A job with its moves as a list, a start and a goal by turns.
#[derive(Clone)]
pub struct Listed {
    pub hall: Hall,
    pub moves: Vec<u16>,
    pub order: Vec<u16>,
    pub dwell: u32,
}

impl Recorded {
    pub fn job(&self) -> Job {
        let moves = self.records.iter().map(|record| record.asked).collect();
        Job { hall: self.hall.clone(), moves, order: self.order.clone(), dwell: self.dwell }
    }
}

impl Listed {
    pub fn of(job: &Job) -> Listed {
        let moves = job.moves.iter().flat_map(|asked| [asked.start, asked.goal]).collect();
        Listed { hall: job.hall.clone(), moves, order: job.order.clone(), dwell: job.dwell }
    }

    /// An odd last number of the moves is in no move.
    pub fn job(&self) -> Job {
        let pairs = self.moves.chunks_exact(2);
        let moves = pairs.map(|two| Move { start: two[0], goal: two[1] }).collect();
        Job { hall: self.hall.clone(), moves, order: self.order.clone(), dwell: self.dwell }
    }
}
