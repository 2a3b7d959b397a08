// A floor book as it is lent (rules 13.1 to 13.3): a clock, a dwell and 64 slots
// of four numbers, which may be any numbers at all, and whether it is damaged.
// Whether a carrier is past or still on the floor is told from a clock value.
// How carriers are admitted stands in ledger.rs.

use crate::job::{dwell_is_too_long, Hall, Move, MOST_NODES};

pub const SLOTS: usize = 64;
/// The greatest clock value, and the greatest start tick of a carrier in a slot.
pub const LATEST_CLOCK: u32 = 4_000_000_000;
pub const LATEST_TICK: u32 = 4_000_200_000;

/// The four numbers of a slot.
#[derive(Clone, Copy, Debug, PartialEq, Eq)]
pub struct Slot {
    pub start: u16,
    pub goal: u16,
    pub distance: u16,
    pub tick: u32,
}

impl Slot {
    pub const FREE: Slot = Slot { start: 0, goal: 0, distance: 0, tick: 0 };

    pub fn is_free(&self) -> bool {
        *self == Slot::FREE
    }

    /// The last tick of a carrier on the floor. Any numbers may be lent, so the
    /// sum may be more than a number of four bytes.
    pub fn last_tick(&self, dwell: u32) -> u64 {
        u64::from(self.tick) + u64::from(self.distance) + u64::from(dwell)
    }

    /// Whether a carrier is in the slot that has not left the floor before now.
    pub fn stands(&self, dwell: u32, now: u32) -> bool {
        !self.is_free() && self.last_tick(dwell) >= now.into()
    }

    /// What refusal 16 says of a carrier.
    fn is_damaged(&self) -> bool {
        let beyond = |node: u16| u32::from(node) >= MOST_NODES;
        let no_distance = self.distance == 0 || u32::from(self.distance) >= MOST_NODES;
        let no_move = beyond(self.start) || beyond(self.goal) || self.start == self.goal;
        no_move || no_distance || self.tick > LATEST_TICK
    }
}

#[derive(Clone, Debug, PartialEq, Eq)]
pub struct Book {
    pub clock: u32,
    pub dwell: u32,
    pub slots: [Slot; SLOTS],
}

impl Book {
    pub fn empty(dwell: u32) -> Book {
        Book { clock: 0, dwell, slots: [Slot::FREE; SLOTS] }
    }

    /// What refusal 16 says of a book.
    pub fn is_damaged(&self) -> bool {
        let some_carrier = self.slots.iter().any(|slot| !slot.is_free() && slot.is_damaged());
        self.clock > LATEST_CLOCK || dwell_is_too_long(self.dwell) || some_carrier
    }

    /// The carriers that are held, past or not.
    pub fn carriers(&self) -> impl Iterator<Item = &Slot> {
        self.slots.iter().filter(|slot| !slot.is_free())
    }

    /// The carriers that have not left the floor before now, with their slots.
    pub fn standing_in(&self, now: u32) -> impl Iterator<Item = (usize, &Slot)> {
        let dwell = self.dwell;
        self.slots.iter().enumerate().filter(move |(_, slot)| slot.stands(dwell, now))
    }

    /// The same without the slots.
    pub fn standing(&self, now: u32) -> impl Iterator<Item = &Slot> {
        self.standing_in(now).map(|(_, slot)| slot)
    }

    /// All numbers of the book, in the order in which an answer tells them.
    pub fn numbers(&self) -> Vec<u32> {
        let mut numbers = vec![self.clock, self.dwell];
        for slot in &self.slots {
            numbers.extend([slot.start, slot.goal, slot.distance].map(u32::from));
            numbers.push(slot.tick);
        }
        numbers
    }
}

/// One admission: the clock value and the move. Of a question whether a move may go
/// now is the tick that it is about.
#[derive(Clone, Copy, Debug, PartialEq, Eq)]
pub struct Call {
    pub now: u32,
    pub asked: Move,
}

/// A book, a network that stays the same, and calls one after the other, or questions
/// that are all put to the book as it came.
#[derive(Clone)]
pub struct Admissions {
    pub hall: Hall,
    pub book: Book,
    pub calls: Vec<Call>,
}
