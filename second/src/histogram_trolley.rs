// What the cases of a batch with trolleys amount to: how many moves the trolleys have,
// how they ended, and how many admissions were made of them, which is what they cost.
// It stands below what is told of floor books.

use crate::batch::Case;
use crate::book::Book;
use crate::histogram_book::LARGE;
use crate::job::{Refusal, MOST_DWELL, MOST_NODES};
use crate::ledger::Ledger;
use crate::trolley::{Arrival, Arrivals, End, Outcome};
use std::collections::BTreeMap;

#[derive(Default)]
pub struct Unloaded {
    cases: usize,
    /// Books that came empty with a dwell that is not too long, and those in which
    /// moves come one by one, too.
    days: usize,
    mixed: usize,
    /// Trolleys without a move, with one, with 2 to 63, with 64 and with more, and
    /// those with an odd last number.
    counts: [usize; 5],
    odd: usize,
    /// Trolleys of one move or more that were admitted whole.
    whole: usize,
    too_short: usize,
    too_long: usize,
    /// At which moves trolleys were refused, and with which numbers.
    places: BTreeMap<usize, usize>,
    numbers: BTreeMap<u8, usize>,
    /// Admissions that trolleys have made, and those of moves that came by
    /// themselves; and all of them in large halls.
    together: usize,
    alone: usize,
    large: usize,
}

impl Unloaded {
    pub fn note(&mut self, case: &Case) {
        if let Case::AdmitAll { asked, .. } = case {
            self.cases += 1;
            if asked.book.dwell <= MOST_DWELL && asked.book == Book::empty(asked.book.dwell) {
                self.days += 1;
                let is_mixed = asked.arrivals.iter().any(|arrival| !arrival.is_trolley());
                self.mixed += usize::from(is_mixed);
            }
            self.note_arrivals(asked);
        }
    }

    fn note_arrivals(&mut self, asked: &Arrivals) {
        let mut ledger = Ledger::of(&asked.hall, &asked.book);
        let before = self.together + self.alone;
        for arrival in &asked.arrivals {
            match arrival.come(&mut ledger) {
                Outcome::OneByOne(answers) => self.alone += answers.len(),
                Outcome::Trolley(end, _) => self.note_trolley(arrival, end),
            }
        }
        if asked.hall.nodes > LARGE && asked.hall.nodes <= MOST_NODES {
            self.large += self.together + self.alone - before;
        }
    }

    fn note_trolley(&mut self, arrival: &Arrival, end: End) {
        let count = arrival.calls().len();
        let row = match count {
            0 | 1 => count,
            2..=63 => 2,
            64 => 3,
            _ => 4,
        };
        self.counts[row] += 1;
        self.odd += arrival.numbers.len() % 2;
        match end {
            End::All => {
                self.whole += usize::from(count > 0);
                self.together += count;
            }
            End::Refused(Refusal { number: 9, .. }) => self.too_short += 1,
            End::Refused(_) => self.too_long += 1,
            End::AtMove(place, refusal) => {
                *self.places.entry(place).or_default() += 1;
                *self.numbers.entry(refusal.number).or_default() += 1;
                self.together += place + 1;
            }
        }
    }

    pub fn printed(&self) -> String {
        let refused: usize = self.places.values().sum();
        let least = self.places.values().min().copied().unwrap_or(0);
        let [none, one, some, full, more] = self.counts;
        let mut numbers = String::new();
        for (number, count) in &self.numbers {
            numbers += &format!(", {} with {}", count, number);
        }
        format!(
            "\ncases of trolleys: {} with {} trolleys; {} are days, {} of these with moves that come \
             one by one, too\
             \ntrolleys without a move: {}, with one: {}, with 2 to 63: {}, with 64: {}, with more: \
             {}; {} lists are odd\
             \ntrolleys admitted whole: {}; answer lists too short: {}, too many moves: {}; refused \
             at a move: {}, at {} of the 64, at each {} times or more{}\
             \nadmissions of trolleys: {}, of moves one by one: {}; in halls of 513 to 1,024 nodes: {}",
            self.cases,
            self.counts.iter().sum::<usize>(),
            self.days,
            self.mixed,
            none,
            one,
            some,
            full,
            more,
            self.odd,
            self.whole,
            self.too_short,
            self.too_long,
            refused,
            self.places.len(),
            least,
            numbers,
            self.together,
            self.alone,
            self.large
        )
    }
}
