// The limit-size jobs of the benchmark, by name: 1,024 nodes and 64 carriers
// each. No end is shared but in the trains, where 4 lifts and 4 chutes serve all
// carriers of the line, of the grid and of the random one. In one job 300 nodes
// are closed; its lanes are those of the random one. In another carriers have
// the longest dwell; all else is as in the line. A batch repeats one of them, so
// that its time is that of planning and not of starting a program. Reading and
// writing are measured on the longest text that is accepted, many times in each
// case.

use crate::batch::Case;
use crate::closing::with_closed;
use crate::dice::Dice;
use crate::halls::{grid, job_apart, line, renumbered, scattered, zigzag};
use crate::job::{Hall, Job, Move, MOST_DWELL};
use crate::least_cases::write_again;
use crate::program_texts::longest_job;
use crate::text;

pub const NAMES: [&str; 10] = [
    "line",
    "grid",
    "random",
    "renumbered",
    "zigzag",
    "closed",
    "dwell",
    "trains-line",
    "trains-grid",
    "trains-random",
];

/// 64 carriers from 4 lifts into 4 chutes: four from each lift into each chute.
fn trains(dice: &mut Dice, hall: Hall) -> Job {
    let four = job_apart(dice, hall, 4, true);
    let between = |lift: usize, chute: usize| Move {
        start: four.moves[lift].start,
        goal: four.moves[chute].goal,
    };
    let moves = (0..64).map(|carrier| between(carrier % 4, carrier / 4 % 4)).collect();
    let mut order: Vec<u16> = (0..64).collect();
    dice.shuffle(&mut order);
    Job { moves, order, ..four }
}

/// A batch of `count` times the named job, or nothing for another name.
pub fn batch(name: &str, count: usize) -> Option<Vec<Case>> {
    let mut dice = Dice::new(1);
    let hall = match name {
        "line" | "dwell" | "trains-line" => line(1024),
        "grid" | "trains-grid" => grid(1024, 32),
        "random" | "trains-random" => scattered(&mut dice, 1024, 4096),
        "renumbered" => renumbered(&mut dice, &line(1024)),
        "zigzag" => zigzag(1024),
        "closed" => {
            let random = scattered(&mut dice, 1024, 4096);
            with_closed(&mut dice, random, 300)
        }
        _ => return None,
    };
    let mut job = if name.starts_with("trains-") {
        trains(&mut dice, hall)
    } else {
        job_apart(&mut dice, hall, 64, true)
    };
    if name == "dwell" {
        job.dwell = MOST_DWELL;
    }
    let text = text::write(&job);
    Some((0..count).map(|_| Case::Plan { text: text.clone() }).collect())
}

/// A batch of `count` times the longest text, each time with so many further
/// readings and writings.
pub fn again(readings: u16, writings: u16, count: usize) -> Vec<Case> {
    let text = text::write(&longest_job());
    (0..count).map(|_| write_again(readings, writings, text.clone())).collect()
}
