// Dwells by dice, for the generator: about a third of the jobs have one, half
// of these a dwell of a few ticks, the others one of up to 255.

use crate::dice::Dice;
use crate::job::{Job, MOST_DWELL};

/// Dwells that no job may have. Some of them would pass if only their lowest
/// byte or their lower half were looked at.
pub const TOO_LONG_DWELLS: [u32; 9] = [256, 257, 511, 512, 1000, 65_535, 65_536, 65_541, u32::MAX];

/// A dwell of 1 tick or more.
pub fn some_dwell(dice: &mut Dice) -> u32 {
    let most = MOST_DWELL as usize;
    let dwell = match dice.below(8) {
        0 => 1,
        1..=3 => dice.between(1, 5),
        4 | 5 => dice.between(1, 40),
        6 => dice.between(1, most),
        _ => dice.pick(&[9, 10, 99, 100, 127, 128, most - 1, most]),
    };
    dwell as u32
}

/// The job, in about a third of the throws with a dwell.
pub fn dwelling_at_times(dice: &mut Dice, mut job: Job) -> Job {
    if dice.once_in(3) {
        job.dwell = some_dwell(dice);
    }
    job
}
