// What the cases of a batch with a floor book amount to: how many calls they make,
// how far the days go, how the books are filled, and how many walks the admissions
// take in large halls, which is what they cost. It stands below the table that says
// how often each kind is accepted and refused.

use crate::batch::Case;
use crate::book::{Admissions, Book, Call, Slot, SLOTS};
use crate::job::{Refusal, MOST_DWELL};
use crate::ledger::Ledger;

/// Halls of so many nodes are large.
pub const LARGE: u32 = 512;

#[derive(Default)]
pub struct Admitted {
    cases: usize,
    calls: usize,
    /// Books that came empty with a dwell that is not too long, and the calls of
    /// the longest such day.
    days: usize,
    longest: usize,
    /// Of the calls that were accepted: to an empty floor, to all slots but one,
    /// later than now, and before somebody who came earlier.
    accepted: usize,
    alone: usize,
    last_slot: usize,
    later: usize,
    between: usize,
    /// Carriers that an accepted call has forgotten, and those with a dwell.
    forgotten: usize,
    dwelling: usize,
    closed: usize,
    large: usize,
    walks: usize,
}

/// Walks that an admission takes at least if each is made anew: from both ends of
/// the move and from each start of those on the floor. An earlier refusal takes
/// none, or few.
fn walks(book: &Book, call: Call, answer: Result<u32, Refusal>) -> usize {
    if answer.map_or_else(|refusal| ![15, 17].contains(&refusal.number), |_| false) {
        return 0;
    }
    2 + distinct_starts(book, call.now)
}

/// How many starts those on the floor have.
pub fn distinct_starts(book: &Book, now: u32) -> usize {
    let mut starts: Vec<u16> = book.standing(now).map(|slot| slot.start).collect();
    starts.sort_unstable();
    starts.dedup();
    starts.len()
}

impl Admitted {
    pub fn note(&mut self, case: &Case) {
        if let Case::Admit { asked, .. } = case {
            self.cases += 1;
            self.calls += asked.calls.len();
            if asked.book.dwell <= MOST_DWELL && asked.book == Book::empty(asked.book.dwell) {
                self.days += 1;
                self.longest = self.longest.max(asked.calls.len());
            }
            self.note_calls(asked);
        }
    }

    fn note_calls(&mut self, asked: &Admissions) {
        let mut ledger = Ledger::of(&asked.hall, &asked.book);
        for &call in &asked.calls {
            let before = ledger.told();
            let answer = ledger.admit(call).map(|(tick, _)| tick);
            if asked.hall.nodes > LARGE {
                self.large += 1;
                self.walks += walks(&before, call, answer);
            }
            if let Ok(tick) = answer {
                self.note_accepted(&before, call.now, tick);
                self.closed += usize::from(!asked.hall.closed.is_empty());
            }
        }
    }

    fn note_accepted(&mut self, before: &Book, now: u32, tick: u32) {
        let standing: Vec<&Slot> = before.standing(now).collect();
        let held = before.slots.iter().filter(|slot| !slot.is_free()).count();
        self.accepted += 1;
        self.alone += usize::from(standing.is_empty());
        self.last_slot += usize::from(standing.len() == SLOTS - 1);
        self.later += usize::from(tick > now);
        self.between += usize::from(standing.iter().any(|slot| slot.tick > tick));
        self.forgotten += held - standing.len();
        self.dwelling += usize::from(before.dwell > 0);
    }

    pub fn printed(&self) -> String {
        format!(
            "\ncases of a floor book: {} with {} calls; {} are days, the longest of {} calls\
             \nof {} accepted calls {} found nobody on the floor, {} the last free slot; {} start \
             later than now, {} before somebody who came earlier, {} with a dwell, {} with closed \
             nodes; {} carriers were forgotten\
             \ncalls in halls of more than 512 nodes: {}, with about {} walks",
            self.cases,
            self.calls,
            self.days,
            self.longest,
            self.accepted,
            self.alone,
            self.last_slot,
            self.later,
            self.between,
            self.dwelling,
            self.closed,
            self.forgotten,
            self.large,
            self.walks
        )
    }
}
