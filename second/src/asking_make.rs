// What the cases of questions are made of: the ticks at which an answer may change,
// books whose carriers start near each other or far apart, and cases whose book is told
// behind each question or behind the last. A question is a call whose now is the tick
// asked about.

use crate::asking::pair;
use crate::batch::Case;
use crate::book::{Admissions, Book, Call, Slot, LATEST_TICK, SLOTS};
use crate::dice::Dice;
use crate::floor::Floor;
use crate::job::{Hall, Move};
use std::collections::BTreeSet;

fn case_of(each: u16, hall: &Hall, book: &Book, calls: Vec<Call>) -> Case {
    let asked = Admissions { hall: hall.clone(), book: book.clone(), calls };
    Case::Ask { each, again: 0, asked: Box::new(asked) }
}

/// A case whose book is told after every question.
pub fn told_each(hall: &Hall, book: &Book, questions: Vec<Call>) -> Case {
    case_of(1, hall, book, questions)
}

/// A case whose book is told after the last question.
pub fn told_last(hall: &Hall, book: &Book, questions: Vec<Call>) -> Case {
    case_of(0, hall, book, questions)
}

/// One move at each of these ticks.
pub fn at_ticks(ticks: impl IntoIterator<Item = u32>, asked: Move) -> Vec<Call> {
    ticks.into_iter().map(|now| Call { now, asked }).collect()
}

/// The ticks around both ends of the stretch that a carrier forbids to a move, and
/// around its last tick, with its goal tick. Where nothing is forbidden the ends are
/// those that a slip would give, or its start tick if no walk joins the starts.
fn edges_of(floor: &mut Floor, dwell: u32, held: &Slot, asked: Move) -> Vec<i64> {
    let (tick, last) = (i64::from(held.tick), held.last_tick(dwell) as i64);
    let at_goal = last - i64::from(dwell);
    let (low, high) = match pair(floor, dwell, held, asked) {
        Some(pair) => (-pair.lead_of_later - pair.dwell, pair.lead_of_earlier + pair.dwell),
        None => (0, 0),
    };
    let mut edges = vec![at_goal, last - 1, last, last + 1];
    edges.extend((-2..=2).flat_map(|by| [tick + low + by, tick + high + by]));
    edges
}

/// These ticks of all carriers that are held, each once, and the clock. What lies
/// before the clock becomes the clock, and what four bytes do not hold their greatest
/// number.
pub fn edges(floor: &mut Floor, book: &Book, asked: Move) -> BTreeSet<u32> {
    let clipped = |tick: i64| tick.clamp(book.clock.into(), u32::MAX.into()) as u32;
    let mut ticks = BTreeSet::from([book.clock]);
    for held in book.carriers() {
        ticks.extend(edges_of(floor, book.dwell, held, asked).into_iter().map(clipped));
    }
    ticks
}

/// How the start ticks of a book's carriers lie.
#[derive(Clone, Copy)]
pub enum Spread {
    /// Within so many ticks from the clock, so that many forbid one tick.
    Near(u32),
    /// One behind the other by so many ticks, so that each end shows.
    Apart(u32),
}

/// So many carriers with these moves, in any slots. Every fifth has its last tick just
/// before the clock, at it or behind it, in so far as ticks go back that far.
pub fn book_with(
    dice: &mut Dice,
    floor: &mut Floor,
    empty: Book,
    moves: &[Move],
    (count, spread): (usize, Spread),
) -> Book {
    let (clock, dwell, mut book) = (empty.clock, empty.dwell, empty);
    let mut places: Vec<usize> = (0..SLOTS).collect();
    dice.shuffle(&mut places);
    for (number, &place) in places[..count].iter().enumerate() {
        let Move { start, goal } = dice.pick(moves);
        let distance = floor.distance(start, goal).expect("a carrier has a walk") as u16;
        let leaving = clock + dice.below(3) as u32;
        let tick = match spread {
            _ if number % 5 == 4 => leaving.saturating_sub(1 + dwell + u32::from(distance)),
            Spread::Near(span) => clock + dice.below(span as usize + 1) as u32,
            Spread::Apart(step) => clock + step * number as u32,
        };
        book.slots[place] = Slot { start, goal, distance, tick: tick.min(LATEST_TICK) };
    }
    book
}
