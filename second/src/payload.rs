// What payloads are made of: numbers of two or four bytes, lowest byte first,
// lists, jobs from numbers, and floor books with calls, questions or arrivals. Each has
// a function that puts it and one that takes it, and a payload that ends within a part
// is an error.

use crate::book::{Admissions, Book, Call, Slot};
use crate::job::{Hall, Move};
use crate::lent::{Columns, RECORD_PLACES};
use crate::lent_jobs::{Listed, Recorded};
use crate::trolley::{Arrival, Arrivals};

pub fn put_long(out: &mut Vec<u8>, number: u32) {
    out.extend(number.to_le_bytes());
}

pub fn put_shorts(out: &mut Vec<u8>, numbers: &[u16]) {
    numbers.iter().for_each(|number| out.extend(number.to_le_bytes()));
}

pub fn put_list(out: &mut Vec<u8>, list: &[u16]) {
    let length = u16::try_from(list.len()).expect("a list has at most 65,535 numbers");
    put_shorts(out, &[length]);
    put_shorts(out, list);
}

pub fn put_listed(out: &mut Vec<u8>, job: &Listed) {
    put_long(out, job.hall.nodes);
    for list in [&job.hall.lane_numbers, &job.hall.closed, &job.moves, &job.order] {
        put_list(out, list);
    }
    put_long(out, job.dwell);
}

/// A job without moves, and behind it the numbers of all records that there is
/// room for, in columns: those behind the job's own hold marks.
pub fn put_recorded(out: &mut Vec<u8>, job: &Recorded) {
    let Recorded { hall, order, dwell, .. } = job.clone();
    put_listed(out, &Listed { hall, moves: Vec::new(), order, dwell });
    for number in Columns::of(&job.records).0.concat() {
        put_long(out, number);
    }
}

fn put_book(out: &mut Vec<u8>, book: &Book) {
    put_long(out, book.clock);
    put_long(out, book.dwell);
    for slot in &book.slots {
        put_shorts(out, &[slot.start, slot.goal, slot.distance]);
        put_long(out, slot.tick);
    }
}

/// A book and the calls or questions to it; their network stands before them.
pub fn put_admissions(out: &mut Vec<u8>, asked: &Admissions) {
    put_book(out, &asked.book);
    for call in &asked.calls {
        put_long(out, call.now);
        put_shorts(out, &[call.asked.start, call.asked.goal]);
    }
}

/// A book and what comes to it.
pub fn put_arrivals(out: &mut Vec<u8>, asked: &Arrivals) {
    put_book(out, &asked.book);
    for arrival in &asked.arrivals {
        put_long(out, arrival.now);
        put_shorts(out, &[arrival.room]);
        put_list(out, &arrival.numbers);
    }
}

/// What is left of a payload.
pub struct Rest<'a>(pub &'a [u8]);

impl<'a> Rest<'a> {
    pub fn bytes(&mut self, count: usize) -> Result<&'a [u8], String> {
        if count > self.0.len() {
            return Err("the payload ends early".to_string());
        }
        let (taken, rest) = self.0.split_at(count);
        self.0 = rest;
        Ok(taken)
    }

    pub fn short(&mut self) -> Result<u16, String> {
        let bytes = self.bytes(2)?;
        Ok(u16::from_le_bytes([bytes[0], bytes[1]]))
    }

    pub fn long(&mut self) -> Result<u32, String> {
        let bytes = self.bytes(4)?;
        Ok(u32::from_le_bytes([bytes[0], bytes[1], bytes[2], bytes[3]]))
    }

    pub fn list(&mut self) -> Result<Vec<u16>, String> {
        let count = self.short()?;
        let bytes = self.bytes(2 * usize::from(count))?;
        Ok(bytes.chunks_exact(2).map(|two| u16::from_le_bytes([two[0], two[1]])).collect())
    }

    pub fn listed(&mut self) -> Result<Listed, String> {
        let nodes = self.long()?;
        let (lane_numbers, closed) = (self.list()?, self.list()?);
        let (moves, order) = (self.list()?, self.list()?);
        Ok(Listed { hall: Hall { nodes, lane_numbers, closed }, moves, order, dwell: self.long()? })
    }

    /// A job with so many records.
    pub fn recorded(&mut self, count: u16) -> Result<Recorded, String> {
        let Listed { hall, order, dwell, .. } = self.listed()?;
        let mut columns = [(); 4].map(|_| Vec::new());
        for column in columns.iter_mut() {
            for _ in 0..RECORD_PLACES {
                column.push(self.long()?);
            }
        }
        let records = Columns(columns).records(count.into());
        Ok(Recorded { hall, records, order, dwell })
    }

    fn book(&mut self) -> Result<Book, String> {
        let clock = self.long()?;
        let mut book = Book { clock, ..Book::empty(self.long()?) };
        for slot in book.slots.iter_mut() {
            let (start, goal, distance) = (self.short()?, self.short()?, self.short()?);
            *slot = Slot { start, goal, distance, tick: self.long()? };
        }
        Ok(book)
    }

    fn call(&mut self) -> Result<Call, String> {
        let now = self.long()?;
        Ok(Call { now, asked: Move { start: self.short()?, goal: self.short()? } })
    }

    /// A book and so many calls or questions, one at least.
    pub fn admissions(&mut self, count: u16, hall: Hall) -> Result<Admissions, String> {
        if count == 0 {
            return Err("a book without a call".to_string());
        }
        let book = self.book()?;
        let calls: Result<Vec<Call>, String> = (0..count).map(|_| self.call()).collect();
        Ok(Admissions { hall, book, calls: calls? })
    }

    /// Moves that come one by one are one at least.
    fn arrival(&mut self) -> Result<Arrival, String> {
        let arrival = Arrival { now: self.long()?, room: self.short()?, numbers: self.list()? };
        if !arrival.is_trolley() && arrival.calls().is_empty() {
            return Err("an arrival without a move".to_string());
        }
        Ok(arrival)
    }

    /// A book and so many arrivals, one at least.
    pub fn arrivals(&mut self, count: u16, hall: Hall) -> Result<Arrivals, String> {
        if count == 0 {
            return Err("a book without an arrival".to_string());
        }
        let book = self.book()?;
        let arrivals: Result<Vec<Arrival>, String> = (0..count).map(|_| self.arrival()).collect();
        Ok(Arrivals { hall, book, arrivals: arrivals? })
    }

    /// The job text is whatever the payload still holds.
    pub fn text(&mut self) -> Vec<u8> {
        let text = self.0.to_vec();
        self.0 = &[];
        text
    }
}
