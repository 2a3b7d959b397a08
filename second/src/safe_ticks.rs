// What the rules say of the ticks of a plan, held against the ticks of its print:
// the limits that no tick exceeds, the bound by the last ticks of those who go
// before, carriers that share an end, and that each tick is the first that is
// permitted. Forbidden differences are worked out as stretches here, not tick by
// tick. A carrier's last tick on the floor is its goal tick plus the dwell.

use crate::job::{Job, MOST_CARRIERS, MOST_NODES};
use crate::safe_print::Printed;
use crate::shortest::AllDistances;

/// Pairs with one start or one goal, and jobs in which all have one start.
#[derive(Default)]
pub struct Sharing {
    pub pairs: u64,
    pub rows: u64,
}

/// The lowest and the highest forbidden difference of two carriers, if any is
/// forbidden. A dwell moves both ends outwards, and a stretch that was empty may
/// become one of some length. Without a dwell an end of the wrong parity drops
/// out of the stretch at gap 0.
pub fn forbidden(
    table: &AllDistances,
    job: &Job,
    earlier: usize,
    later: usize,
) -> Option<(i64, i64)> {
    let (first, second) = (job.moves[earlier], job.moves[later]);
    let distance = |from: u16, to: u16| table[usize::from(from)][usize::from(to)];
    let between_starts = distance(first.start, second.start)?;
    let between_goals = distance(first.goal, second.goal)?;
    let (own_first, own_second) =
        (distance(first.start, first.goal)?, distance(second.start, second.goal)?);
    let gap = between_starts + between_goals - own_first - own_second;
    let mut low = distance(first.start, second.goal)? - own_second;
    let mut high = own_first - distance(second.start, first.goal)?;
    if job.dwell > 0 {
        low -= i64::from(job.dwell);
        high += i64::from(job.dwell);
    } else if gap == 0 {
        low += (low - between_starts).abs() % 2;
        high -= (high - between_starts).abs() % 2;
    }
    if gap > 0 || low > high {
        None
    } else {
        Some((low, high))
    }
}

/// The latest start tick, goal tick and last tick that a job with this dwell can
/// have, and the greatest cost (rule 5.6).
pub fn limits(dwell: u32) -> [i64; 4] {
    let (others, farthest) = (MOST_CARRIERS as i64 - 1, i64::from(MOST_NODES) - 1);
    let start = others * (farthest + i64::from(dwell) + 1);
    let goal = start + farthest;
    [start, goal, goal + i64::from(dwell), (others + 1) * goal]
}

/// No number exceeds its limit, place 0 starts at tick 0, and no other carrier
/// starts later than one tick after the latest last tick of those before it in
/// the order. This holds in halls of any size.
pub fn check_bounds(printed: &Printed, job: &Job) -> Result<(), &'static str> {
    let [latest_start, latest_goal, latest, greatest_cost] = limits(job.dwell);
    let mut latest_before = -1;
    for &carrier in &job.order {
        let [tick, _, goal_tick] = printed.records[usize::from(carrier)];
        let last_tick = goal_tick + i64::from(job.dwell);
        if tick > latest_start || goal_tick > latest_goal || last_tick > latest {
            return Err("a tick is later than there can be");
        }
        if tick < 0 || tick > latest_before + 1 {
            return Err("a tick is past the bound by the last ticks before it");
        }
        latest_before = latest_before.max(last_tick);
    }
    if printed.cost > greatest_cost {
        return Err("the cost is greater than there can be");
    }
    Ok(())
}

/// The start ticks of carriers with one start, and the goal ticks of carriers
/// with one goal, differ by more than the dwell. If all have one start, they
/// leave it one tick more than the dwell apart, place p at p times that.
pub fn check_shared_ends(
    sharing: &mut Sharing,
    printed: &Printed,
    job: &Job,
) -> Result<(), &'static str> {
    let dwell = i64::from(job.dwell);
    for (second, asked) in job.moves.iter().enumerate() {
        for (first, other) in job.moves[..second].iter().enumerate() {
            let ([start_tick, _, goal_tick], [other_start_tick, _, other_goal_tick]) =
                (printed.records[second], printed.records[first]);
            let (one_start, one_goal) = (asked.start == other.start, asked.goal == other.goal);
            sharing.pairs += u64::from(one_start || one_goal);
            if one_start && (start_tick - other_start_tick).abs() <= dwell {
                return Err("two carriers leave one start within the dwell");
            }
            if one_goal && (goal_tick - other_goal_tick).abs() <= dwell {
                return Err("two carriers are on one goal at one tick");
            }
        }
    }
    if job.moves.len() < 2 || job.moves.iter().any(|asked| asked.start != job.moves[0].start) {
        return Ok(());
    }
    sharing.rows += 1;
    for (place, &carrier) in job.order.iter().enumerate() {
        if printed.records[usize::from(carrier)][0] != place as i64 * (dwell + 1) {
            return Err("of carriers with one start one does not go at the tick of its place");
        }
    }
    Ok(())
}

/// Each carrier has a permitted tick, and no smaller one was permitted.
pub fn check_ticks(printed: &Printed, table: &AllDistances, job: &Job) -> Result<(), &'static str> {
    for (place, &carrier) in job.order.iter().enumerate() {
        let later = usize::from(carrier);
        let tick = printed.records[later][0];
        let mut marked = vec![false; tick as usize + 1];
        for &other in &job.order[..place] {
            let earlier = usize::from(other);
            if let Some((low, high)) = forbidden(table, job, earlier, later) {
                let start = printed.records[earlier][0];
                for bad in (start + low).max(0)..=(start + high).min(tick) {
                    marked[bad as usize] = true;
                }
            }
        }
        match marked.iter().position(|&bad| !bad) {
            None => return Err("a tick is forbidden"),
            Some(first) if (first as i64) < tick => return Err("a smaller tick was permitted"),
            Some(_) => {}
        }
    }
    Ok(())
}
