// A printed plan read back, and whether its numbers agree with the distances of
// the hall and with each other. The check of plans goes by the print alone.

use crate::job::Job;
use crate::shortest::AllDistances;

/// A printed plan: start tick, distance and goal tick by carrier, and cost.
pub struct Printed {
    pub records: Vec<[i64; 3]>,
    pub cost: i64,
}

/// Reads a printed plan back; `None` if it has not the printed form.
pub fn read_print(print: &str) -> Option<Printed> {
    let lines: Vec<&str> = print.lines().collect();
    let carriers: usize = lines.first()?.strip_prefix("PLAN ")?.parse().ok()?;
    if lines.len() != carriers + 2 {
        return None;
    }
    let mut records = Vec::new();
    for (carrier, line) in lines[1..=carriers].iter().enumerate() {
        let numbers: Option<Vec<i64>> = line.split(' ').map(|word| word.parse().ok()).collect();
        match numbers?[..] {
            [number, tick, distance, goal_tick] if number == carrier as i64 => {
                records.push([tick, distance, goal_tick]);
            }
            _ => return None,
        }
    }
    let cost = lines[carriers + 1].strip_prefix("COST ")?.parse().ok()?;
    Some(Printed { records, cost })
}

/// The printed numbers agree with the distances and with each other.
pub fn check_print(printed: &Printed, table: &AllDistances, job: &Job) -> Result<(), &'static str> {
    for (asked, [tick, distance, goal_tick]) in job.moves.iter().zip(&printed.records) {
        if table[usize::from(asked.start)][usize::from(asked.goal)] != Some(*distance) {
            return Err("a printed distance is not the distance");
        }
        if tick + distance != *goal_tick {
            return Err("a goal tick is not tick plus distance");
        }
    }
    if printed.records.iter().map(|record| record[2]).sum::<i64>() != printed.cost {
        return Err("the cost is not the sum of the goal ticks");
    }
    Ok(())
}
