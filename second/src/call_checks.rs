// The checks that an admission and the question whether a move may go have in common,
// in the order of rule 8.31: 16, 14, those of the network and of the move, and 17. A
// question has its tick in the place of now. Refusal 15 is the admission's own, for a
// question takes no slot.

use crate::book::{Book, Call, LATEST_CLOCK};
use crate::floor::Floor;
use crate::job::{refuse, Hall, Refusal};

/// The distances of the hall, which are made at the first call that needs them, and
/// the distance of the move.
pub fn check_call<'a>(
    hall: &Hall,
    book: &Book,
    call: Call,
    floor: &'a mut Option<Floor>,
) -> Result<(&'a mut Floor, i64), Refusal> {
    let Call { now, asked } = call;
    if book.is_damaged() {
        return refuse(16, 0);
    }
    if now < book.clock || now > LATEST_CLOCK {
        return refuse(14, 0);
    }
    hall.check_with_move(asked)?;
    let floor = floor.get_or_insert_with(|| Floor::of(hall));
    let distance = match floor.distance(asked.start, asked.goal) {
        Some(distance) => distance,
        None => return refuse(8, 0),
    };
    for (place, slot) in book.standing_in(now) {
        if floor.distance(slot.start, slot.goal) != Some(slot.distance.into()) {
            return refuse(17, place);
        }
    }
    Ok((floor, distance))
}
