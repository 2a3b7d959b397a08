// What is left in lent tables after reading a text: lanes, closed nodes, the
// moves in records or in a list, and the order. Each is untouched after
// refusal 9, zero up to its least length after any other refusal, and filled
// from the front otherwise.

use crate::job::{refuse, Job, Move, Refusal};
use crate::lent::{
    filled, untouched, wide, Columns, Lent, CLOSED_PLACES, LANE_PLACES, LEAST_CLOSED, LEAST_LANES,
    LEAST_MOVES, LEAST_ORDER, LEAST_RECORDS, MOVE_PLACES, ORDER_PLACES, RECORD_PLACES,
};
use crate::text;

/// What an accepted text is answered with: its counts, and the dwell.
fn counts(job: &Job) -> String {
    let hall = &job.hall;
    let (lanes, closed) = (hall.lane_numbers.len() / 2, hall.closed.len());
    format!("READ {} {} {} {} {}", hall.nodes, lanes, closed, job.moves.len(), job.dwell)
}

/// A reading. The job is absent if a table was too short.
struct Reading(Option<Result<Job, Refusal>>);

impl Reading {
    fn of(lent: [u16; 4], least: [usize; 4], source: &[u8]) -> Reading {
        let enough =
            lent.into_iter().zip(least).all(|(length, least)| usize::from(length) >= least);
        Reading(enough.then(|| text::read(source)))
    }

    fn said(&self) -> Result<String, Refusal> {
        match &self.0 {
            None => refuse(9, 0),
            Some(Err(refusal)) => Err(*refusal),
            Some(Ok(job)) => Ok(counts(job)),
        }
    }

    /// A table, from the numbers that it takes of a job.
    fn left(&self, places: usize, least: usize, numbers: impl Fn(&Job) -> Vec<u32>) -> Vec<u32> {
        match &self.0 {
            None => untouched(places),
            Some(Err(_)) => filled(places, least, &[]),
            Some(Ok(job)) => filled(places, least, &numbers(job)),
        }
    }

    /// All tables, in their order; those of the moves are the caller's.
    fn tables(&self, moves: Vec<(&'static str, Vec<u32>)>) -> Lent {
        let lanes = self.left(LANE_PLACES, LEAST_LANES, |job| wide(&job.hall.lane_numbers));
        let closed = self.left(CLOSED_PLACES, LEAST_CLOSED, |job| wide(&job.hall.closed));
        let order = self.left(ORDER_PLACES, LEAST_ORDER, |job| wide(&job.order));
        let mut tables = vec![("lanes", lanes), ("closed", closed)];
        tables.extend(moves);
        tables.push(("order", order));
        Lent { said: self.said(), tables }
    }
}

/// Reading into lanes, closed nodes, records and order of these lengths.
pub fn to_records(lent: [u16; 4], source: &[u8]) -> Lent {
    let reading =
        Reading::of(lent, [LEAST_LANES, LEAST_CLOSED, LEAST_RECORDS, LEAST_ORDER], source);
    let column = |number: fn(&Move) -> u32| {
        reading.left(RECORD_PLACES, LEAST_RECORDS, |job| job.moves.iter().map(number).collect())
    };
    let columns = Columns([
        column(|asked| asked.start.into()),
        column(|asked| asked.goal.into()),
        column(|_| 0),
        column(|_| 0),
    ]);
    reading.tables(vec![columns.table()])
}

/// Reading into lanes, closed nodes, moves and order of these lengths.
pub fn to_moves(lent: [u16; 4], source: &[u8]) -> Lent {
    let reading = Reading::of(lent, [LEAST_LANES, LEAST_CLOSED, LEAST_MOVES, LEAST_ORDER], source);
    let moves = reading.left(MOVE_PLACES, LEAST_MOVES, |job| {
        job.moves.iter().flat_map(|asked| [asked.start.into(), asked.goal.into()]).collect()
    });
    reading.tables(vec![("moves", moves)])
}
