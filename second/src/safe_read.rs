// The carriers of a day, taken from the print of its answers: who was admitted, when,
// and to which slot. A move that comes by itself is told its slot. Of a trolley the
// print has the ticks alone, so its day is printed with the book behind every arrival,
// where each carrier must be found. All of a trolley come at one clock value, so none
// of them is forgotten before.

use crate::answers::printed_to;
use crate::batch::Case;
use crate::book::{Call, SLOTS};
use crate::floor::Floor;
use crate::job::{Hall, Move};
use crate::lent::{LEAST_TIMES, MARK};
use crate::trolley::Arrival;

/// A carrier that was admitted.
pub struct Carrier {
    pub asked: Move,
    pub now: i64,
    pub tick: i64,
    pub last_tick: i64,
    pub slot: usize,
}

pub type Checked = Result<(), &'static str>;

const NO_FORM: &str = "the print has not the form of an answer to each call";
const DAMAGED: &str = "a day is refused with 16 or 17";

struct Reader<'a> {
    lines: std::vec::IntoIter<&'a str>,
    hall: &'a Hall,
    dwell: i64,
    floor: Option<Floor>,
    admitted: Vec<Carrier>,
}

fn numbers_in(words: &[&str]) -> Vec<i64> {
    words.iter().filter_map(|word| word.parse().ok()).collect()
}

/// The numbers of a table that is told in runs under its name.
fn runs_in(line: &str, name: &str) -> Result<Vec<i64>, &'static str> {
    let mut numbers = Vec::new();
    for run in line.strip_prefix(name).ok_or(NO_FORM)?.split(' ').skip(1) {
        let (count, number) = run.split_once('x').ok_or(NO_FORM)?;
        let count: usize = count.parse().map_err(|_| NO_FORM)?;
        let number: i64 = number.parse().map_err(|_| NO_FORM)?;
        numbers.extend(std::iter::repeat(number).take(count));
    }
    Ok(numbers)
}

impl<'a> Reader<'a> {
    fn of(lines: Vec<&'a str>, hall: &'a Hall, dwell: u32) -> Reader<'a> {
        let lines = lines.into_iter();
        Reader { lines, hall, dwell: dwell.into(), floor: None, admitted: Vec::new() }
    }

    fn line(&mut self) -> &'a str {
        self.lines.next().unwrap_or("")
    }

    fn distance(&mut self, asked: Move) -> Result<i64, &'static str> {
        let floor = self.floor.get_or_insert_with(|| Floor::of(self.hall));
        floor.distance(asked.start, asked.goal).ok_or("a carrier without a walk was admitted")
    }

    fn admit(&mut self, call: Call, tick: i64, slot: usize) -> Checked {
        let last_tick = tick + self.distance(call.asked)? + self.dwell;
        let Call { now, asked } = call;
        self.admitted.push(Carrier { asked, now: now.into(), tick, last_tick, slot });
        Ok(())
    }

    fn call(&mut self, call: Call) -> Checked {
        let words: Vec<&str> = self.line().split(' ').collect();
        match (words[0], &numbers_in(&words[1..])[..]) {
            ("STARTS", [tick, slot]) => self.admit(call, *tick, *slot as usize),
            ("REFUSED", [16 | 17, _]) => Err(DAMAGED),
            ("REFUSED", [_, _]) => Ok(()),
            _ => Err(NO_FORM),
        }
    }

    /// How many moves of a trolley were admitted, and whether its list was touched.
    fn end(&mut self, calls: usize) -> Result<(usize, bool), &'static str> {
        let words: Vec<&str> = self.line().split(' ').collect();
        match (words[0], &numbers_in(&words)[..]) {
            ("ALL", []) => Ok((calls, true)),
            ("MOVE", [_, 16 | 17, _]) => Err(DAMAGED),
            ("MOVE", [place, _, _]) => Ok((*place as usize, true)),
            ("REFUSED", [9, 0]) => Ok((0, false)),
            ("REFUSED", [2, 2]) => Ok((0, true)),
            _ => Err(NO_FORM),
        }
    }

    /// A trolley and the book behind it.
    fn trolley(&mut self, arrival: &Arrival) -> Checked {
        let calls = arrival.calls();
        let (count, is_touched) = self.end(calls.len())?;
        let ticks = runs_in(self.line(), "ticks")?;
        let book = runs_in(self.line(), "book")?;
        let zeros = if is_touched { LEAST_TIMES } else { 0 };
        let is_left = |place: usize| ticks[place] == if place < zeros { 0 } else { MARK.into() };
        if !(count..ticks.len()).all(is_left) {
            return Err("an answer list holds something behind its ticks");
        }
        for (&call, &tick) in calls[..count].iter().zip(&ticks) {
            let distance = self.distance(call.asked)?;
            let held = [call.asked.start.into(), call.asked.goal.into(), distance, tick];
            let has = |slot: &usize| book[2 + 4 * slot..6 + 4 * slot] == held;
            let slot = (0..SLOTS).find(has).ok_or("a carrier of a trolley is not in the book")?;
            self.admit(call, tick, slot)?;
        }
        Ok(())
    }

    fn done(mut self) -> Result<Vec<Carrier>, &'static str> {
        match self.lines.next() {
            None => Ok(self.admitted),
            Some(_) => Err("the print has more answers than there are calls"),
        }
    }
}

/// The carriers of a case with a floor book, in the order in which they came.
pub fn admitted_in(case: &Case) -> Result<Vec<Carrier>, &'static str> {
    match case {
        Case::Admit { asked, .. } => {
            let print = printed_to(case);
            let lines = print.lines().filter(|line| !line.starts_with("book ")).collect();
            let mut reader = Reader::of(lines, &asked.hall, asked.book.dwell);
            asked.calls.iter().try_for_each(|&call| reader.call(call))?;
            reader.done()
        }
        Case::AdmitAll { asked, .. } => {
            let told = Case::AdmitAll { each: 1, again: 0, asked: asked.clone() };
            let print = printed_to(&told);
            let mut reader = Reader::of(print.lines().collect(), &asked.hall, asked.book.dwell);
            for arrival in &asked.arrivals {
                if arrival.is_trolley() {
                    reader.trolley(arrival)?;
                    continue;
                }
                arrival.calls().into_iter().try_for_each(|call| reader.call(call))?;
                runs_in(reader.line(), "book")?;
            }
            reader.done()
        }
        _ => Ok(Vec::new()),
    }
}
