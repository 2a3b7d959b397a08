// All cases that ask whether moves may go: ends of stretches, ticks at both ends of the
// clock, which slot is told, halls that have changed, damaged books, the order of
// checks, days, and random ones.

use crate::asking_checks::check_cases;
use crate::asking_clock::clock_cases;
use crate::asking_damage::damage_cases;
use crate::asking_days::day_cases;
use crate::asking_ends::end_cases;
use crate::asking_random::random_questions;
use crate::asking_slots::slot_cases;
use crate::asking_stale::stale_cases;
use crate::batch::Case;
use crate::dice::Dice;

/// A third as many random ones as are asked for.
pub fn asking_cases(dice: &mut Dice, count: usize) -> Vec<Case> {
    let mut cases = end_cases(dice);
    cases.extend(clock_cases());
    cases.extend(slot_cases(dice));
    cases.extend(stale_cases(dice));
    cases.extend(damage_cases());
    cases.extend(check_cases());
    cases.extend(day_cases(dice));
    cases.extend(random_questions(dice, count / 3));
    cases
}
