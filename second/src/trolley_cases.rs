// All cases of trolleys: lists of all lengths, refusals at every move, books without
// a slot or with a carrier that does not fit the hall, days on which moves come
// together and one by one, and random ones.

use crate::batch::Case;
use crate::dice::Dice;
use crate::trolley_checks::check_cases;
use crate::trolley_days::day_cases;
use crate::trolley_lists::list_cases;
use crate::trolley_random::random_trolleys;
use crate::trolley_slots::slot_cases;

/// A sixth as many random ones as are asked for.
pub fn trolley_cases(dice: &mut Dice, count: usize) -> Vec<Case> {
    let mut cases = list_cases();
    cases.extend(check_cases());
    cases.extend(slot_cases(dice));
    cases.extend(day_cases(dice));
    cases.extend(random_trolleys(dice, count / 6));
    cases
}
