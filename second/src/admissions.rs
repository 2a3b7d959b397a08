// Admissions for the benchmark: a call to a book in which so many slots are taken,
// from so many lifts, in the line, the grid and the random hall of the limit-size
// jobs. With all slots taken one carrier is past, so that the call is accepted. A
// case makes one call, and the same one again as often as it says, so that what a
// process takes to read a payload does not count. The same book is asked whether the
// move may go. Its carriers and the new one are also planned as one job, to compare.

use crate::batch::Case;
use crate::book::{Admissions, Book, Call, SLOTS};
use crate::dice::Dice;
use crate::halls::{grid, line, scattered};
use crate::job::{Hall, Job, Move};
use crate::ledger::Ledger;
use crate::network::Network;
use crate::text;

/// When all carriers come, and when the new one does.
pub const NOW: u32 = 5000;
const CHUTES: usize = 4;

/// A hall with lifts and chutes.
pub struct Ends {
    pub hall: Hall,
    chutes: Vec<u16>,
    lifts: Vec<u16>,
}

/// A book, a hall and a call.
pub struct Site {
    hall: Hall,
    book: Book,
    call: Call,
}

/// The named hall.
fn hall_named(dice: &mut Dice, name: &str) -> Result<Hall, String> {
    match name {
        "line" => Ok(line(1024)),
        "grid" => Ok(grid(1024, 32)),
        "random" => Ok(scattered(dice, 1024, 4096)),
        other => Err(format!("no hall {}; there are line, grid, random", other)),
    }
}

impl Ends {
    /// Those of the named hall.
    pub fn of(name: &str) -> Result<Ends, String> {
        let mut dice = Dice::new(1);
        let hall = hall_named(&mut dice, name)?;
        let reach = Network::of(&hall).distances_from(0);
        let mut nodes: Vec<u16> =
            (0..1024).filter(|&node| reach[usize::from(node)].is_some()).collect();
        dice.shuffle(&mut nodes);
        let lifts = nodes.split_off(CHUTES);
        Ok(Ends { hall, chutes: nodes, lifts })
    }

    /// The move of a carrier where so many lifts are in use.
    pub fn asked(&self, carrier: usize, starts: usize) -> Move {
        let start = self.lifts[carrier % starts];
        Move { start, goal: self.chutes[carrier / starts % CHUTES] }
    }

    /// A book with so many carriers, who have all come at the same tick.
    pub fn book(&self, held: usize, starts: usize) -> Result<Book, String> {
        let mut ledger = Ledger::of(&self.hall, &Book::empty(0));
        for carrier in 0..held {
            let admitted = ledger.admit(Call { now: NOW, asked: self.asked(carrier, starts) });
            admitted.map_err(|refusal| format!("refused with {}", refusal.number))?;
        }
        Ok(Book { clock: NOW, ..ledger.told() })
    }
}

impl Site {
    /// So many slots are taken, from so many lifts.
    pub fn of(name: &str, held: usize, starts: usize) -> Result<Site, String> {
        if held > SLOTS || starts > held || (starts == 0) != (held == 0) {
            return Err("a book holds at most 64, from at most as many lifts".to_string());
        }
        let ends = Ends::of(name)?;
        let mut book = ends.book(held, starts.max(1))?;
        if held == SLOTS {
            book.slots[0].tick = 0;
        }
        let call = Call { now: NOW, asked: ends.asked(held, starts.max(1)) };
        Ok(Site { hall: ends.hall, book, call })
    }

    /// A batch of `count` cases, each with one call that is made so many times
    /// again.
    pub fn admissions(&self, again: u16, count: usize) -> Vec<Case> {
        let Site { hall, book, call } = self;
        let asked = Admissions { hall: hall.clone(), book: book.clone(), calls: vec![*call] };
        let case = || Case::Admit { each: 0, again, asked: Box::new(asked.clone()) };
        (0..count).map(|_| case()).collect()
    }

    /// The same as questions: whether the move may go at the tick of the call, at which
    /// all but one are on the floor. What the answer is makes little difference, since
    /// refusal 17 takes a walk for each lift before.
    pub fn askings(&self, again: u16, count: usize) -> Vec<Case> {
        let asked_instead = |case: Case| match case {
            Case::Admit { each, again, asked } => Case::Ask { each, again, asked },
            other => other,
        };
        self.admissions(again, count).into_iter().map(asked_instead).collect()
    }

    /// A batch of `count` times the job of those on the floor and the new one, as a
    /// text, like the other jobs of the benchmark.
    pub fn plans(&self, count: usize) -> Vec<Case> {
        let mut moves: Vec<Move> = (self.book.standing(NOW))
            .map(|slot| Move { start: slot.start, goal: slot.goal })
            .collect();
        moves.push(self.call.asked);
        let order = (0..moves.len() as u16).collect();
        let job = Job { hall: self.hall.clone(), moves, order, dwell: 0 };
        let text = text::write(&job);
        (0..count).map(|_| Case::Plan { text: text.clone() }).collect()
    }
}
