// The plan of a job: carriers get their ticks in order, each the least tick,
// counted from 0, that the rule permits against all at the places before it.
// The search tries tick after tick and asks the rule about each earlier
// carrier anew. This is the rules' own sentence, and quick enough.

use crate::job::{Job, Refusal};
use crate::rule::{Distances, Pair};

/// Distance and start tick by carrier number.
pub struct Plan {
    pub distances: Vec<i64>,
    pub ticks: Vec<i64>,
}

impl Plan {
    pub fn goal_tick(&self, carrier: usize) -> i64 {
        self.ticks[carrier] + self.distances[carrier]
    }

    /// The sum of all goal ticks.
    pub fn cost(&self) -> i64 {
        (0..self.ticks.len()).map(|carrier| self.goal_tick(carrier)).sum()
    }
}

/// The plan of a job from numbers, or its first refusal with the place.
pub fn plan(job: &Job) -> Result<Plan, Refusal> {
    job.check()?;
    let distances = Distances::of(job);
    let own = distances.own()?;
    let mut ticks = vec![0; job.moves.len()];
    for (place, &carrier) in job.order.iter().enumerate() {
        let later = usize::from(carrier);
        let mut placed = Vec::new();
        for &other in &job.order[..place] {
            let earlier = usize::from(other);
            if let Some(pair) = Pair::of(&distances, job.dwell, earlier, later) {
                placed.push((ticks[earlier], pair));
            }
        }
        ticks[later] = first_permitted(placed);
    }
    Ok(Plan { distances: own, ticks })
}

/// Each pair forbids finitely many ticks, so the search ends.
fn first_permitted(mut placed: Vec<(i64, Pair)>) -> i64 {
    let mut tick = 0;
    while let Some(at) = placed.iter().position(|(earlier, pair)| !pair.permits(tick - earlier)) {
        // Whoever forbids this tick most likely forbids the next one too, so
        // it is asked first. The order of asking changes no answer.
        placed.swap(0, at);
        tick += 1;
    }
    tick
}
