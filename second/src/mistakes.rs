// The five errors that page 01 says come easily, and one that comes easily
// where carriers share a lift, each made on purpose, so that the selftest can
// show that the cases of the rules tell them from the rule. Nothing else uses
// this file.

use crate::job::Job;
use crate::rule::{Distances, Pair};
use crate::shortest::{all_distances, all_paths, meets, Timed};

/// Ticks in order, each the first that `permits` allows against all placed
/// before. It is given the earlier and the later carrier and their ticks.
pub fn first_ticks(job: &Job, permits: impl Fn(usize, usize, i64, i64) -> bool) -> Vec<i64> {
    let mut ticks = vec![0; job.moves.len()];
    for (place, &carrier) in job.order.iter().enumerate() {
        let later = usize::from(carrier);
        let allowed = |tick: i64| {
            job.order[..place].iter().all(|&other| {
                let earlier = usize::from(other);
                permits(earlier, later, ticks[earlier], tick)
            })
        };
        let first = (0..).find(|&tick| allowed(tick));
        ticks[later] = first.expect("some tick is allowed");
    }
    ticks
}

/// The rule, but the difference is the earlier tick minus the later one.
pub fn difference_reversed(job: &Job) -> Vec<i64> {
    let distances = Distances::of(job);
    first_ticks(job, |earlier, later, placed, tick| {
        Pair::of(&distances, job.dwell, earlier, later)
            .map_or(true, |pair| pair.permits(placed - tick))
    })
}

/// The rule, but a carrier is held back until no forbidden tick is left to come. No
/// forbidden tick of a small job lies beyond the horizon.
pub fn after_the_last(job: &Job) -> Vec<i64> {
    const HORIZON: i64 = 100;
    let distances = Distances::of(job);
    first_ticks(job, |earlier, later, placed, tick| {
        let pair = Pair::of(&distances, job.dwell, earlier, later);
        let permits = |tick: i64| pair.map_or(true, |pair| pair.permits(tick - placed));
        (tick..HORIZON).all(permits)
    })
}

/// No rule, but all shortest paths are tried, for meetings and not crossings.
pub fn meetings_only(job: &Job) -> Vec<i64> {
    let (table, dwell) = (all_distances(&job.hall), i64::from(job.dwell));
    first_ticks(job, |earlier, later, placed, tick| {
        let rivals = all_paths(&table, job.moves[later]);
        all_paths(&table, job.moves[earlier]).iter().all(|path| {
            let one = Timed { path, tick: placed, dwell };
            rivals.iter().all(|rival| !meets(one, Timed { path: rival, tick, dwell }))
        })
    })
}

/// The rule, but without its exception at gap 0.
pub fn parity_dropped(job: &Job) -> Vec<i64> {
    let distances = Distances::of(job);
    first_ticks(job, |earlier, later, placed, tick| {
        Pair::of(&distances, job.dwell, earlier, later).map_or(true, |mut pair| {
            // A gap below 0 forbids the same stretch and knows no exception.
            if pair.gap == 0 {
                pair.gap = -1;
            }
            pair.permits(tick - placed)
        })
    })
}

/// The rule, but "no walk" goes into it as a distance of 65,535. In signed
/// words of 16 bits that is -1, and the pair looks close. In wider words the
/// gap would come out above 0, and the slip would not show in the ticks.
pub fn no_walk_as_distance(job: &Job) -> Vec<i64> {
    let mut distances = Distances::of(job);
    for table in
        [&mut distances.start_to_start, &mut distances.start_to_goal, &mut distances.goal_to_goal]
    {
        for distance in table.iter_mut().flatten() {
            *distance = distance.or(Some(i64::from(65_535_u16 as i16)));
        }
    }
    first_ticks(job, |earlier, later, placed, tick| {
        Pair::of(&distances, job.dwell, earlier, later)
            .map_or(true, |pair| pair.permits(tick - placed))
    })
}

/// The rule, but a distance of 0 between two starts is taken for "no walk", as
/// by one who fills his table with zeros. Two carriers then leave one lift at
/// one tick.
pub fn zero_as_no_walk(job: &Job) -> Vec<i64> {
    let distances = Distances::of(job);
    first_ticks(job, |earlier, later, placed, tick| {
        distances.start_to_start[earlier][later] == Some(0)
            || Pair::of(&distances, job.dwell, earlier, later)
                .map_or(true, |pair| pair.permits(tick - placed))
    })
}
