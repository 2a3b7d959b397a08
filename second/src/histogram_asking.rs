// What the cases of a batch that ask whether a move may go amount to: how many questions
// there are, what was answered to them, and how many walks they take in large halls,
// which is what they cost. It stands below what is told of floor books and trolleys.

use crate::asking::{Asking, Forbidding};
use crate::batch::Case;
use crate::book::{Admissions, Call, Slot, SLOTS};
use crate::histogram_book::{distinct_starts, LARGE};

#[derive(Default)]
pub struct Questions {
    cases: usize,
    questions: usize,
    most: usize,
    /// Those that were not refused: the move may go, or some slot forbids it, another
    /// than the first in use, or several at once.
    may: usize,
    forbidden: usize,
    not_the_first: usize,
    several: usize,
    /// Of these: all slots on the floor, somebody past, and somebody at the last tick.
    full: usize,
    past: usize,
    leaving: usize,
    dwelling: usize,
    large: usize,
    walks: usize,
}

impl Questions {
    pub fn note(&mut self, case: &Case) {
        if let Case::Ask { asked, .. } = case {
            self.cases += 1;
            self.questions += asked.calls.len();
            self.most = self.most.max(asked.calls.len());
            let mut asking = Asking::of(&asked.hall, &asked.book);
            for &question in &asked.calls {
                if let Ok(slots) = asking.ask(question) {
                    self.note_answer(asked, question, &slots);
                }
            }
        }
    }

    fn note_answer(&mut self, asked: &Admissions, question: Call, slots: &Forbidding) {
        let (book, tick) = (&asked.book, question.now);
        let standing: Vec<(usize, &Slot)> = book.standing_in(tick).collect();
        self.may += usize::from(slots.is_empty());
        self.forbidden += usize::from(!slots.is_empty());
        let is_another = |lowest: &usize| standing[0].0 != *lowest;
        self.not_the_first += usize::from(slots.first().map_or(false, is_another));
        self.several += usize::from(slots.len() > 1);
        self.full += usize::from(standing.len() == SLOTS);
        self.past += usize::from(standing.len() < book.carriers().count());
        let leaves = |(_, slot): &(usize, &Slot)| slot.last_tick(book.dwell) == tick.into();
        self.leaving += usize::from(standing.iter().any(leaves));
        self.dwelling += usize::from(book.dwell > 0);
        if asked.hall.nodes > LARGE {
            self.large += 1;
            self.walks += 2 + distinct_starts(book, tick);
        }
    }

    pub fn printed(&self) -> String {
        format!(
            "\ncases that ask whether a move may go: {} with {} questions, {} in the longest\
             \nmoves that may go: {}, that some slot forbids: {}, of these another slot than the \
             first on the floor {}, several slots {}\
             \nof both with 64 on the floor: {}, with somebody past: {}, with somebody at the last \
             tick: {}, with a dwell: {}; in halls of more than 512 nodes: {}, with about {} walks",
            self.cases,
            self.questions,
            self.most,
            self.may,
            self.forbidden,
            self.not_the_first,
            self.several,
            self.full,
            self.past,
            self.leaving,
            self.dwelling,
            self.large,
            self.walks
        )
    }
}
