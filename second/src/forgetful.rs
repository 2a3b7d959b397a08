// A floor book that does forget, as rules 13.4 to 13.7 say it, by trial: it keeps
// the 64 slots alone, clears those of carriers that are past, and asks the pair
// rule about tick after tick from now on. The selftest holds the book that forgets
// nothing to it. It finds all distances anew for each call, by other means than the
// planner, so it is for small halls.

use crate::book::{Book, Call, Slot, LATEST_CLOCK};
use crate::job::{refuse, Hall, Refusal};
use crate::ledger::Admitted;
use crate::rule::Pair;
use crate::shortest::{all_distances, AllDistances};

fn distance(table: &AllDistances, from: u16, to: u16) -> Option<i64> {
    table.get(usize::from(from))?.get(usize::from(to)).copied().flatten()
}

/// The pair of one that is held and the new one; none where no walk joins the
/// starts.
fn pair(table: &AllDistances, dwell: u32, held: &Slot, new: &Slot) -> Option<Pair> {
    let between = |from: u16, to: u16| distance(table, from, to);
    let (own, other) = (i64::from(new.distance), i64::from(held.distance));
    let between_starts = between(held.start, new.start)?;
    Some(Pair {
        between_starts,
        lead_of_earlier: other - between(new.start, held.goal)?,
        lead_of_later: own - between(held.start, new.goal)?,
        gap: between_starts + between(held.goal, new.goal)? - other - own,
        dwell: dwell.into(),
    })
}

/// The least tick from now on that is permitted against all that are held.
fn least_tick(table: &AllDistances, book: &Book, now: u32, new: &Slot) -> u32 {
    let permits = |held: &Slot, tick: u32| {
        let difference = i64::from(tick) - i64::from(held.tick);
        pair(table, book.dwell, held, new).map_or(true, |pair| pair.permits(difference))
    };
    let is_permitted = |tick: &u32| {
        let mut held = book.slots.iter().filter(|slot| !slot.is_free());
        held.all(|held| permits(held, *tick))
    };
    (now..).find(is_permitted).expect("some tick is free")
}

/// Admits a carrier to the book, or refuses it and leaves the book as it was.
pub fn admit(hall: &Hall, book: &mut Book, call: Call) -> Result<Admitted, Refusal> {
    let Call { now, asked } = call;
    if book.is_damaged() {
        return refuse(16, 0);
    }
    if now < book.clock || now > LATEST_CLOCK {
        return refuse(14, 0);
    }
    hall.check_with_move(asked)?;
    let table = all_distances(hall);
    let own = match distance(&table, asked.start, asked.goal) {
        Some(own) => own as u16,
        None => return refuse(8, 0),
    };
    let mut left = book.clone();
    left.clock = now;
    for slot in left.slots.iter_mut().filter(|slot| !slot.stands(book.dwell, now)) {
        *slot = Slot::FREE;
    }
    for (place, slot) in left.slots.iter().enumerate().filter(|(_, slot)| !slot.is_free()) {
        if distance(&table, slot.start, slot.goal) != Some(slot.distance.into()) {
            return refuse(17, place);
        }
    }
    let place = match left.slots.iter().position(Slot::is_free) {
        Some(place) => place,
        None => return refuse(15, 0),
    };
    let mut new = Slot { start: asked.start, goal: asked.goal, distance: own, tick: 0 };
    new.tick = least_tick(&table, &left, now, &new);
    left.slots[place] = new;
    *book = left;
    Ok((new.tick, place))
}
