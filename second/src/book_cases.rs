// All cases of the floor book: days in small halls, whole days, damaged books,
// networks that change under a book, the order of checks, slots and the 65th
// carrier, every dwell, clock values at their edges, and random ones.

use crate::batch::Case;
use crate::book_checks::check_cases;
use crate::book_clock::clock_cases;
use crate::book_damage::damage_cases;
use crate::book_days::day_cases;
use crate::book_dwells::dwell_cases;
use crate::book_random::random_books;
use crate::book_slots::slot_cases;
use crate::book_small::small_days;
use crate::book_stale::stale_cases;
use crate::dice::Dice;

/// A third as many random ones as are asked for.
pub fn book_cases(dice: &mut Dice, count: usize) -> Vec<Case> {
    let mut cases = small_days(dice);
    cases.extend(day_cases(dice));
    cases.extend(damage_cases());
    cases.extend(stale_cases(dice));
    cases.extend(check_cases());
    cases.extend(slot_cases(dice));
    cases.extend(dwell_cases());
    cases.extend(clock_cases(dice));
    cases.extend(random_books(dice, count / 3));
    cases
}
