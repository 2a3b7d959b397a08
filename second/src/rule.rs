// The pair rule (section 4 of the rules): which delay between two carriers is
// safe. It is one for all dwells, in signed 64-bit numbers; the distances
// between starts and goals that it needs stand here too.
// The rule is a test of one difference of ticks. It hands out no stretches,
// so that nothing about free ticks between them can go wrong here.

use crate::job::{refuse, Job, Refusal};
use crate::network::Network;

/// Distances by two carrier numbers.
pub struct Distances {
    pub start_to_start: Vec<Vec<Option<i64>>>,
    /// From the start of the first carrier to the goal of the second.
    pub start_to_goal: Vec<Vec<Option<i64>>>,
    pub goal_to_goal: Vec<Vec<Option<i64>>>,
}

impl Distances {
    /// The job must have passed its checks.
    pub fn of(job: &Job) -> Distances {
        let network = Network::of(&job.hall);
        let starts: Vec<usize> = job.moves.iter().map(|asked| asked.start.into()).collect();
        let goals: Vec<usize> = job.moves.iter().map(|asked| asked.goal.into()).collect();
        let mut distances = Distances {
            start_to_start: Vec::new(),
            start_to_goal: Vec::new(),
            goal_to_goal: Vec::new(),
        };
        for &start in &starts {
            let from_start = network.distances_from(start);
            distances.start_to_start.push(starts.iter().map(|&to| from_start[to]).collect());
            distances.start_to_goal.push(goals.iter().map(|&to| from_start[to]).collect());
        }
        for &goal in &goals {
            let from_goal = network.distances_from(goal);
            distances.goal_to_goal.push(goals.iter().map(|&to| from_goal[to]).collect());
        }
        distances
    }

    /// Each carrier's own distance, or refusal 8 for the lowest carrier
    /// number that has none.
    pub fn own(&self) -> Result<Vec<i64>, Refusal> {
        let mut own = Vec::new();
        for (carrier, to_goals) in self.start_to_goal.iter().enumerate() {
            match to_goals[carrier] {
                Some(distance) => own.push(distance),
                None => return refuse(8, carrier),
            }
        }
        Ok(own)
    }
}

/// What the rule takes from a pair whose starts a walk joins, and the dwell.
#[derive(Clone, Copy)]
pub struct Pair {
    pub between_starts: i64,
    pub lead_of_earlier: i64,
    pub lead_of_later: i64,
    pub gap: i64,
    pub dwell: i64,
}

impl Pair {
    /// The pair of an earlier and a later carrier. `None` stands for a pair
    /// whose starts no walk joins. Both carriers reach their goals, so a walk
    /// between the starts makes every other distance exist too.
    pub fn of(distances: &Distances, dwell: u32, earlier: usize, later: usize) -> Option<Pair> {
        let between_starts = distances.start_to_start[earlier][later]?;
        let between_goals = distances.goal_to_goal[earlier][later]?;
        let own_of_earlier = distances.start_to_goal[earlier][earlier]?;
        let own_of_later = distances.start_to_goal[later][later]?;
        Some(Pair {
            between_starts,
            lead_of_earlier: own_of_earlier - distances.start_to_goal[later][earlier]?,
            lead_of_later: own_of_later - distances.start_to_goal[earlier][later]?,
            gap: between_starts + between_goals - own_of_earlier - own_of_later,
            dwell: dwell.into(),
        })
    }

    /// Whether the later carrier may start `difference` ticks after the
    /// earlier one. Below zero it starts before it. A stretch that is empty
    /// without a dwell may hold some difference once the dwell has widened it,
    /// so its ends are compared with the difference and not with each other.
    pub fn permits(&self, difference: i64) -> bool {
        if self.gap > 0 {
            return true;
        }
        let lower = -self.lead_of_later - self.dwell;
        let upper = self.lead_of_earlier + self.dwell;
        let inside = lower <= difference && difference <= upper;
        let at_an_end = difference == lower || difference == upper;
        let odd = (difference - self.between_starts).rem_euclid(2) == 1;
        let excepted = self.dwell == 0 && self.gap == 0 && at_an_end && odd;
        !inside || excepted
    }
}
