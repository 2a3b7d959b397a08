// What is left in lent tables after planning a job: the distance table, and
// distances and ticks either in the records of the job or in lists of their
// own. After refusal 9 all is as it was. After any other refusal table and
// lists are zero up to their least lengths, and records are as they came.

use crate::job::{refuse, Job, Refusal, MOST_CARRIERS};
use crate::lent::{
    filled, untouched, Columns, Lent, BLOCK, LEAST_TABLE, LEAST_TIMES, TABLE_PLACES, TIME_PLACES,
};
use crate::lent_jobs::{Listed, Recorded};
use crate::plan::{plan, Plan};
use crate::rule::Distances;

/// The distance table of a job that was planned: three blocks, a row of 64
/// for each carrier, 65,535 where no walk joins the two nodes.
fn distance_table(job: &Job) -> Vec<u32> {
    let distances = Distances::of(job);
    let mut table = vec![0; LEAST_TABLE];
    let blocks = [&distances.start_to_start, &distances.start_to_goal, &distances.goal_to_goal];
    for (block, rows) in blocks.into_iter().enumerate() {
        for (i, row) in rows.iter().enumerate() {
            for (j, distance) in row.iter().enumerate() {
                table[BLOCK * block + MOST_CARRIERS * i + j] = match distance {
                    Some(distance) => *distance as u32,
                    None => 65_535,
                };
            }
        }
    }
    table
}

fn planned_or_short(enough: bool, job: &Job) -> Result<Plan, Refusal> {
    if enough {
        plan(job)
    } else {
        refuse(9, 0)
    }
}

/// A table that planning fills, from what it takes of an accepted job.
fn after_planning(
    planned: &Result<Plan, Refusal>,
    places: usize,
    least: usize,
    numbers: impl Fn(&Plan) -> Vec<u32>,
) -> Vec<u32> {
    match planned {
        Err(Refusal { number: 9, .. }) => untouched(places),
        Err(_) => filled(places, least, &[]),
        Ok(plan) => filled(places, least, &numbers(plan)),
    }
}

fn said_of_planning(planned: &Result<Plan, Refusal>) -> Result<String, Refusal> {
    planned.as_ref().map(|plan| format!("COST {}", plan.cost())).map_err(|refusal| *refusal)
}

fn times(numbers: &[i64]) -> Vec<u32> {
    numbers.iter().map(|&number| number as u32).collect()
}

pub fn records(table: u16, recorded: &Recorded) -> Lent {
    let job = recorded.job();
    let planned = planned_or_short(usize::from(table) >= LEAST_TABLE, &job);
    let mut left = recorded.records.clone();
    if let Ok(plan) = &planned {
        for (carrier, record) in left.iter_mut().enumerate() {
            record.distance = plan.distances[carrier] as u16;
            record.tick = plan.ticks[carrier] as u32;
        }
    }
    let filled = after_planning(&planned, TABLE_PLACES, LEAST_TABLE, |_| distance_table(&job));
    let mut tables = vec![("table", filled)];
    tables.push(Columns::of(&left).table());
    Lent { said: said_of_planning(&planned), tables }
}

pub fn lists(lent: [u16; 3], listed: &Listed) -> Lent {
    let job = listed.job();
    let least = [LEAST_TABLE, LEAST_TIMES, LEAST_TIMES];
    let enough = lent.into_iter().zip(least).all(|(length, least)| usize::from(length) >= least);
    let planned = planned_or_short(enough, &job);
    let tables = vec![
        ("table", after_planning(&planned, TABLE_PLACES, LEAST_TABLE, |_| distance_table(&job))),
        (
            "distances",
            after_planning(&planned, TIME_PLACES, LEAST_TIMES, |plan| times(&plan.distances)),
        ),
        ("ticks", after_planning(&planned, TIME_PLACES, LEAST_TIMES, |plan| times(&plan.ticks))),
    ];
    Lent { said: said_of_planning(&planned), tables }
}
