// The errors that come easily where carriers wait on their goals, each made on
// purpose, so that the selftest can show that the cases of the rules tell them
// from the rule. Each changes what the rule takes from a pair. A stretch that is
// widened by hand stands without a dwell, and then with a gap below 0, which
// forbids the same stretch and knows no exception. Nothing else uses this file.

use crate::job::Job;
use crate::mistakes::first_ticks;
use crate::plan::plan;
use crate::rule::{Distances, Pair};

/// Ticks by the rule after a change to each pair; `None` forbids nothing.
fn ticks_with(job: &Job, change: impl Fn(Pair) -> Option<Pair>) -> Vec<i64> {
    let distances = Distances::of(job);
    first_ticks(job, |earlier, later, placed, tick| {
        Pair::of(&distances, job.dwell, earlier, later)
            .and_then(&change)
            .map_or(true, |pair| pair.permits(tick - placed))
    })
}

/// The pair with its stretch as the change leaves it, and without an exception.
fn as_it_stands(pair: Pair) -> Pair {
    Pair { dwell: 0, gap: if pair.gap > 0 { pair.gap } else { -1 }, ..pair }
}

/// Carriers are taken to be gone after their goal ticks.
pub fn dwell_left_out(job: &Job) -> Vec<i64> {
    ticks_with(job, |pair| Some(Pair { dwell: 0, ..pair }))
}

/// The cost with the waits in it.
pub fn cost_with_waits(job: &Job) -> Option<i64> {
    let waits = job.moves.len() as i64 * i64::from(job.dwell);
    plan(job).ok().map(|plan| plan.cost() + waits)
}

/// The one who goes first waits on its goal, and the other is forgotten.
pub fn upper_end_only(job: &Job) -> Vec<i64> {
    ticks_with(job, |mut pair| {
        pair.lead_of_earlier += pair.dwell;
        Some(as_it_stands(pair))
    })
}

pub fn lower_end_only(job: &Job) -> Vec<i64> {
    ticks_with(job, |mut pair| {
        pair.lead_of_later += pair.dwell;
        Some(as_it_stands(pair))
    })
}

/// The exception at gap 0 is kept, for the ends that the dwell has moved.
pub fn moved_ends_excepted(job: &Job) -> Vec<i64> {
    ticks_with(job, |mut pair| {
        pair.lead_of_earlier += pair.dwell;
        pair.lead_of_later += pair.dwell;
        Some(Pair { dwell: 0, ..pair })
    })
}

/// The exception at gap 0 is kept, for the ends as they were: the rule forbids
/// what it forbids, save what it permits without a dwell inside the old stretch.
pub fn old_ends_excepted(job: &Job) -> Vec<i64> {
    let distances = Distances::of(job);
    first_ticks(job, |earlier, later, placed, tick| {
        Pair::of(&distances, job.dwell, earlier, later).map_or(true, |pair| {
            let difference = tick - placed;
            let inside = -pair.lead_of_later <= difference && difference <= pair.lead_of_earlier;
            let excepted = inside && Pair { dwell: 0, ..pair }.permits(difference);
            excepted || pair.permits(difference)
        })
    })
}

/// A stretch that is empty without the dwell is taken to forbid nothing.
pub fn empty_before_widened(job: &Job) -> Vec<i64> {
    ticks_with(job, |pair| Some(pair).filter(|pair| -pair.lead_of_later <= pair.lead_of_earlier))
}

/// A gap above 0 is taken to permit everything only without a dwell.
pub fn gap_overlooked(job: &Job) -> Vec<i64> {
    ticks_with(job, |pair| Some(Pair { gap: pair.gap.min(-1), ..pair }))
}

/// A carrier is taken to be gone at its goal tick plus the dwell, one tick early.
pub fn gone_a_tick_early(job: &Job) -> Vec<i64> {
    ticks_with(job, |mut pair| {
        pair.lead_of_earlier += pair.dwell - 1;
        pair.lead_of_later += pair.dwell - 1;
        Some(as_it_stands(pair))
    })
}
