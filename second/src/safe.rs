// The check of plans of small halls against what the rules want of them, not
// against the way in which they were found. It takes the ticks from the print.
// Every choice of shortest paths of each pair of carriers is tried, with
// carriers that wait on their goals for the dwell; where a pair has too many, it
// counts as skipped and is judged from distances alone. No path may stand on a
// closed node. The limits of ticks, the bound by the last ticks before, and what
// holds of carriers that share an end are checked in halls of any size. The days of
// floor books are checked in safe_book.rs, and moves that may go in safe_asking.rs.

use crate::answers::answer_to_text;
use crate::batch::Case;
use crate::job::Job;
use crate::safe_asking::Questions;
use crate::safe_book::Days;
use crate::safe_print::{check_print, read_print, Printed};
use crate::safe_ticks::{check_bounds, check_shared_ends, check_ticks, Sharing};
use crate::shortest::{
    all_distances, all_paths, count_paths, crosses, meets, some_choice_collides, AllDistances,
    Timed,
};
use crate::text;

/// Larger halls are left out: the triple loop over nodes would take long.
pub const SMALL_HALL: u32 = 64;
/// A pair with more path pairs than this is skipped.
pub const MOST_PATH_PAIRS: u64 = 2_000;

#[derive(Default)]
pub struct Tally {
    jobs: u64,
    pairs: u64,
    sharing: Sharing,
    /// Jobs with closed nodes, and jobs with a dwell, among those whose paths are
    /// tried.
    closed: u64,
    dwelling: u64,
    /// Jobs in larger halls, of which bounds and shared ends alone are checked.
    large: u64,
    tried: u64,
    skipped: u64,
    days: Days,
    questions: Questions,
    pub faults: u64,
}

impl Tally {
    pub fn printed(&self) -> String {
        format!(
            "safe: {} jobs, {} of them with closed nodes, {} with a dwell; {} pairs of carriers, \
             {} path pairs tried, {} skipped; in {} larger jobs bounds and shared ends alone; {} \
             pairs share an end, {} jobs have one start\n{}{}safe: {} faults\n",
            self.jobs,
            self.closed,
            self.dwelling,
            self.pairs,
            self.tried,
            self.skipped,
            self.large,
            self.sharing.pairs,
            self.sharing.rows,
            self.days.printed(),
            self.questions.printed(),
            self.faults
        )
    }

    fn fault(&mut self, case: usize, what: &str) {
        self.faults += 1;
        eprintln!("case {}: {}", case, what);
    }
}

/// How many choices of paths were tried, and whether some meets or crosses.
pub fn try_all(dwell: i64, one: (&[Vec<usize>], i64), other: (&[Vec<usize>], i64)) -> (u64, bool) {
    let (mut tried, mut collides) = (0, false);
    for path in one.0 {
        for rival in other.0 {
            let (one, other) =
                (Timed { path, tick: one.1, dwell }, Timed { path: rival, tick: other.1, dwell });
            tried += 1;
            collides |= meets(one, other) || crosses(one, other);
        }
    }
    (tried, collides)
}

/// Every choice of shortest paths of every pair of carriers.
fn check_paths(tally: &mut Tally, case: usize, printed: &Printed, table: &AllDistances, job: &Job) {
    let counts: Vec<u64> =
        job.moves.iter().map(|&asked| count_paths(table, asked, MOST_PATH_PAIRS + 1)).collect();
    let paths: Vec<Vec<Vec<usize>>> = (job.moves.iter().zip(&counts))
        .map(|(&asked, &count)| match count {
            0..=MOST_PATH_PAIRS => all_paths(table, asked),
            _ => Vec::new(),
        })
        .collect();
    let is_closed = |&node: &usize| job.hall.closed.contains(&(node as u16));
    if paths.iter().flatten().flatten().any(is_closed) {
        tally.fault(case, "a shortest path stands on a closed node");
    }
    let dwell = i64::from(job.dwell);
    for second in 0..job.moves.len() {
        for first in 0..second {
            let (tick, other_tick) = (printed.records[first][0], printed.records[second][0]);
            tally.pairs += 1;
            let collides = if counts[first] * counts[second] > MOST_PATH_PAIRS {
                tally.skipped += 1;
                let (one, other) = (job.moves[first], job.moves[second]);
                some_choice_collides(table, dwell, (one, tick), (other, other_tick))
            } else {
                let (tried, collides) =
                    try_all(dwell, (&paths[first], tick), (&paths[second], other_tick));
                tally.tried += tried;
                collides
            };
            if collides {
                tally.fault(case, "two carriers can meet or cross");
            }
        }
    }
}

/// Checks one text, if it is accepted.
fn check_text(tally: &mut Tally, number: usize, source: &[u8]) {
    let print = answer_to_text(source).printed();
    let job = match text::read(source) {
        Ok(job) if !print.starts_with("REFUSED") => job,
        _ => return,
    };
    let of_the_job = |printed: &Printed| printed.records.len() == job.moves.len();
    let printed = match read_print(&print).filter(of_the_job) {
        Some(printed) => printed,
        None => return tally.fault(number, "the print has not the form of a plan of the job"),
    };
    let anywhere = check_bounds(&printed, &job)
        .and_then(|()| check_shared_ends(&mut tally.sharing, &printed, &job));
    if let Err(what) = anywhere {
        return tally.fault(number, what);
    }
    if job.hall.nodes > SMALL_HALL {
        tally.large += 1;
        return;
    }
    tally.jobs += 1;
    tally.closed += u64::from(!job.hall.closed.is_empty());
    tally.dwelling += u64::from(job.dwell > 0);
    let table = all_distances(&job.hall);
    let checked =
        check_print(&printed, &table, &job).and_then(|()| check_ticks(&printed, &table, &job));
    match checked {
        Err(what) => tally.fault(number, what),
        Ok(()) => check_paths(tally, number, &printed, &table, &job),
    }
}

/// Checks all accepted `P` cases, all days of floor books and all moves that may go.
pub fn check(cases: &[Case]) -> Tally {
    let mut tally = Tally::default();
    for (number, case) in cases.iter().enumerate() {
        if let Case::Plan { text } = case {
            check_text(&mut tally, number, text);
        }
        let checked = tally.days.check(case).and_then(|()| tally.questions.check(case));
        if let Err(what) = checked {
            tally.fault(number, what);
        }
    }
    tally
}
