// A floor book that forgets nothing. It lists every carrier that it ever admitted,
// and a start tick is the least from now on that the pair rule permits against all
// of them; that those who are gone forbid nothing any more is nowhere made use of.
// Beside the list it keeps who has which slot, for this is told, and refusals 15
// to 17 go by it: a slot is given up when its carrier's last tick has passed.
// A book is lent with any carriers in it, and the hall may have changed since it
// was filled. So the list begins at the first call that is accepted, with those of
// the lent book that are still on the floor then and fit the hall.

use crate::book::{Book, Call, Slot, SLOTS};
use crate::call_checks::check_call;
use crate::floor::{Floor, Row};
use crate::job::{refuse, Hall, Refusal};
use crate::rule::Pair;

pub struct Ledger<'a> {
    hall: &'a Hall,
    /// Made at the first call whose hall is sound.
    floor: Option<Floor>,
    clock: u32,
    dwell: u32,
    /// Every carrier, in the order in which they came.
    ever: Vec<Slot>,
    /// The place in the list of the carrier that has the slot, by slot.
    holders: [Option<usize>; SLOTS],
    /// Whether some call has been accepted.
    begun: bool,
}

/// Start tick and slot.
pub type Admitted = (u32, usize);

impl<'a> Ledger<'a> {
    pub fn of(hall: &'a Hall, book: &Book) -> Ledger<'a> {
        let Book { clock, dwell, .. } = *book;
        let (ever, holders) = (Vec::new(), [None; SLOTS]);
        let mut ledger = Ledger { hall, floor: None, clock, dwell, ever, holders, begun: false };
        ledger.enter(book, |slot| !slot.is_free());
        ledger
    }

    /// A list of those in the slots of a book that are wanted.
    fn enter(&mut self, book: &Book, wanted: impl Fn(&Slot) -> bool) {
        self.ever.clear();
        self.holders = [None; SLOTS];
        for (place, slot) in book.slots.iter().enumerate().filter(|(_, slot)| wanted(slot)) {
            self.holders[place] = Some(self.ever.len());
            self.ever.push(*slot);
        }
    }

    /// A copy that has found no distance yet, so that a call to it takes as long
    /// as one to a book that has just been lent.
    pub fn copy(&self) -> Ledger<'a> {
        Ledger { floor: None, ever: self.ever.clone(), ..*self }
    }

    /// The book as its caller sees it.
    pub fn told(&self) -> Book {
        let mut book = Book { clock: self.clock, ..Book::empty(self.dwell) };
        for (slot, holder) in book.slots.iter_mut().zip(&self.holders) {
            *slot = holder.map_or(Slot::FREE, |place| self.ever[place]);
        }
        book
    }

    /// One admission, with the checks in the order of rule 8.31.
    pub fn admit(&mut self, call: Call) -> Result<Admitted, Refusal> {
        let Call { now, asked } = call;
        let book = self.told();
        let (floor, distance) = check_call(self.hall, &book, call, &mut self.floor)?;
        let place = match book.slots.iter().position(|slot| !slot.stands(book.dwell, now)) {
            Some(place) => place,
            None => return refuse(15, 0),
        };
        let rows = (floor.row(asked.start), floor.row(asked.goal));
        if !self.begun {
            self.enter(&book, |slot| slot.stands(book.dwell, now));
            self.begun = true;
        }
        self.give_up(now);
        let tick = self.first_free(now, distance, rows) as u32;
        let (start, goal) = (asked.start, asked.goal);
        self.clock = now;
        self.holders[place] = Some(self.ever.len());
        self.ever.push(Slot { start, goal, distance: distance as u16, tick });
        Ok((tick, place))
    }

    /// Slots are free again whose carriers have left the floor before now. The
    /// carriers stay on the list.
    fn give_up(&mut self, now: u32) {
        let (dwell, ever) = (self.dwell, &self.ever);
        for holder in self.holders.iter_mut() {
            *holder = holder.filter(|&place| ever[place].stands(dwell, now));
        }
    }

    /// The first tick from now on that nobody on the list forbids to a carrier
    /// with this distance, whose start and goal have these rows.
    fn first_free(&self, now: u32, distance: i64, rows: (Row, Row)) -> i64 {
        let mut tick = now.into();
        let forbids = |earlier: &Slot| {
            let (low, high) = stretch(self.pair(earlier, distance, &rows)?)?;
            Some((low + i64::from(earlier.tick), high + i64::from(earlier.tick)))
        };
        let mut stretches: Vec<(i64, i64)> = self.ever.iter().filter_map(forbids).collect();
        stretches.retain(|&(_, high)| high >= tick);
        stretches.sort_unstable();
        for (low, high) in stretches {
            // All others begin no earlier, so nothing forbids the tick.
            if low > tick {
                break;
            }
            tick = tick.max(high + 1);
        }
        tick
    }

    /// A carrier of the list and the new one. The distances from the new one's
    /// start and goal are all that is needed, since a lane goes both ways.
    fn pair(&self, earlier: &Slot, own: i64, rows: &(Row, Row)) -> Option<Pair> {
        let (start, goal) = (usize::from(earlier.start), usize::from(earlier.goal));
        let (from_start, from_goal) = rows;
        let own_of_earlier = i64::from(earlier.distance);
        let between_starts = from_start[start]?;
        Some(Pair {
            between_starts,
            lead_of_earlier: own_of_earlier - from_start[goal]?,
            lead_of_later: own - from_goal[start]?,
            gap: between_starts + from_goal[goal]? - own_of_earlier - own,
            dwell: self.dwell.into(),
        })
    }
}

/// The first and the last difference of ticks that a pair forbids. Only an end of
/// the stretch can be excepted, so it is enough to ask the rule about these.
fn stretch(pair: Pair) -> Option<(i64, i64)> {
    let mut low = -pair.lead_of_later - pair.dwell;
    let mut high = pair.lead_of_earlier + pair.dwell;
    if pair.gap > 0 || low > high {
        return None;
    }
    low += i64::from(pair.permits(low));
    high -= i64::from(pair.permits(high));
    if low > high {
        None
    } else {
        Some((low, high))
    }
}
