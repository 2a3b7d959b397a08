// What lent tables hold after a question. Every place of every table holds
// the mark before, and each table is lent up to a length of its own. The
// answer tells all places, those past the lent part too, so that a program
// that writes where it may not, or leaves a place as it was, is found out.
// Section 9 of the rules is written down here: refusal 9 before all else, least
// lengths, what is filled and what stays. Reading, planning and writing have
// files of their own; printing and paths are here.

use crate::job::{
    refuse, Hall, Job, Move, Refusal, MOST_CARRIERS, MOST_CLOSED, MOST_LANES, MOST_NODES,
};
use crate::lent_jobs::Record;
use crate::paths::{choose, house_path_of_carrier, house_path_of_move, Choice};

pub const MARK: u32 = 7777;
/// The mark of a lent byte.
pub const BYTE_MARK: u32 = 77;

/// How many places the batch program has for each table. A longer one is not
/// lent; the generator stays below.
pub const LANE_PLACES: usize = 12_400;
pub const CLOSED_PLACES: usize = 1100;
pub const RECORD_PLACES: usize = 80;
pub const ORDER_PLACES: usize = 100;
pub const MOVE_PLACES: usize = 200;
pub const TABLE_PLACES: usize = 12_400;
pub const TIME_PLACES: usize = 100;
pub const PATH_PLACES: usize = 1100;
pub const BYTE_PLACES: usize = 2100;

/// The least lengths.
pub const LEAST_LANES: usize = 2 * MOST_LANES;
pub const LEAST_CLOSED: usize = MOST_CLOSED;
pub const LEAST_RECORDS: usize = MOST_CARRIERS;
pub const LEAST_ORDER: usize = MOST_CARRIERS;
pub const LEAST_MOVES: usize = 2 * MOST_CARRIERS;
pub const BLOCK: usize = MOST_CARRIERS * MOST_CARRIERS;
pub const LEAST_TABLE: usize = 3 * BLOCK;
pub const LEAST_TIMES: usize = MOST_CARRIERS;
pub const LEAST_PATH: usize = MOST_NODES as usize;
pub const LEAST_BYTES: usize = 2048;

/// The line that tells the answer, or the refusal, and all tables by name.
pub struct Lent {
    pub said: Result<String, Refusal>,
    pub tables: Vec<(&'static str, Vec<u32>)>,
}

/// A table that no question has touched.
pub fn untouched(places: usize) -> Vec<u32> {
    vec![MARK; places]
}

/// A table with the numbers at its front and zeros up to its least length.
pub fn filled(places: usize, least: usize, numbers: &[u32]) -> Vec<u32> {
    let mut table = untouched(places);
    for (at, place) in table[..least].iter_mut().enumerate() {
        *place = numbers.get(at).copied().unwrap_or(0);
    }
    table
}

pub fn wide(numbers: &[u16]) -> Vec<u32> {
    numbers.iter().map(|&number| number.into()).collect()
}

/// The columns of records as they came, with marks behind them.
pub struct Columns(pub [Vec<u32>; 4]);

impl Columns {
    pub fn of(records: &[Record]) -> Columns {
        let column = |number: fn(&Record) -> u32| {
            let mut places = untouched(RECORD_PLACES);
            for (place, record) in places.iter_mut().zip(records) {
                *place = number(record);
            }
            places
        };
        Columns([
            column(|record| record.asked.start.into()),
            column(|record| record.asked.goal.into()),
            column(|record| record.distance.into()),
            column(|record| record.tick),
        ])
    }

    /// The first `count` records, 80 at most.
    pub fn records(&self, count: usize) -> Vec<Record> {
        let [starts, goals, distances, ticks] = &self.0;
        let short = |column: &[u32], i: usize| column[i] as u16;
        let record = |i| Record {
            asked: Move { start: short(starts, i), goal: short(goals, i) },
            distance: short(distances, i),
            tick: ticks[i],
        };
        (0..count.min(RECORD_PLACES)).map(record).collect()
    }

    /// All columns on one line.
    pub fn table(self) -> (&'static str, Vec<u32>) {
        ("records", self.0.concat())
    }
}

/// Printing into bytes: the text, zeros up to the least length, marks beyond.
/// Into fewer bytes nothing is printed, and no refusal has a number for it.
pub fn print_to(out: u16, printed: &str) -> Lent {
    let enough = usize::from(out) >= LEAST_BYTES;
    let mut bytes = vec![BYTE_MARK; BYTE_PLACES];
    if enough {
        for (at, place) in bytes[..LEAST_BYTES].iter_mut().enumerate() {
            *place = printed.as_bytes().get(at).copied().unwrap_or(0).into();
        }
    }
    let count = if enough { printed.len() } else { 0 };
    Lent { said: Ok(format!("BYTES {}", count)), tables: vec![("out", bytes)] }
}

/// The list of a house path, after the path or the refusal.
fn housed(path: u16, asked: impl Fn() -> Result<Vec<u16>, Refusal>) -> Lent {
    let nodes = if usize::from(path) < LEAST_PATH { refuse(9, 0) } else { asked() };
    let table = match &nodes {
        Err(Refusal { number: 9, .. }) => untouched(PATH_PLACES),
        Err(_) => filled(PATH_PLACES, LEAST_PATH, &[]),
        Ok(nodes) => filled(PATH_PLACES, LEAST_PATH, &wide(nodes)),
    };
    let said = nodes.map(|nodes| format!("PATH {}", nodes.len()));
    Lent { said, tables: vec![("path", table)] }
}

pub fn house_of_carrier(path: u16, carrier: u16, job: &Job) -> Lent {
    housed(path, || house_path_of_carrier(job, carrier))
}

pub fn house_of_move(path: u16, asked: Move, hall: &Hall) -> Lent {
    housed(path, || house_path_of_move(hall, asked))
}

/// The choice with a network and a move, and how long the chosen list is.
pub fn choice(asked: Move, own: &[u16], spare: &[u16], hall: &Hall) -> Lent {
    let said = match choose(hall, asked, own, spare) {
        Choice::Own => format!("OWN\n{}", own.len()),
        Choice::Spare => format!("SPARE\n{}", spare.len()),
        Choice::Neither => "NONE\n0".to_string(),
    };
    Lent { said: Ok(said), tables: Vec::new() }
}

/// A table on one line: each run of equal numbers as how often, `x`, number.
fn runs(table: &[u32]) -> String {
    let mut out = String::new();
    let mut rest = table;
    while let Some(&number) = rest.first() {
        let count = rest.iter().take_while(|&&other| other == number).count();
        out += &format!(" {}x{}", count, number);
        rest = &rest[count..];
    }
    out
}

impl Lent {
    pub fn printed(&self) -> String {
        let mut out = match &self.said {
            Ok(line) => format!("{}\n", line),
            Err(refusal) => format!("REFUSED {} {}\n", refusal.number, refusal.at),
        };
        for (name, table) in &self.tables {
            out += &format!("{}{}\n", name, runs(table));
        }
        out
    }
}
