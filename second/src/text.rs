// Reading a job text, line by line, until the first faulty line.
// A line is what stands before a line feed; without one there is no line, so
// a missing line and a last line that is cut off refuse alike, with 1.
// Fields are what single spaces separate: two spaces in a row, or one at
// either end, make an empty field, and an empty field is no number.
// The section of closed nodes may be absent: the line behind the lanes opens
// it or, if it does not, the carriers. The dwell may be absent too: the text
// ends behind the order, or one more line stands there.
// The last functions write a job's text, for the generator.

use crate::job::{
    closed_entry_is_faulty, dwell_is_too_long, lane_is_faulty, move_fault, nodes_are_out_of_range,
    order_entry_is_faulty, refuse, Hall, Job, Move, Refusal, MOST_CARRIERS, MOST_CLOSED,
    MOST_LANES,
};

struct Lines<'a> {
    rest: &'a [u8],
    /// The number of the line read last, from 1; 0 before the first.
    number: usize,
}

/// A number of one to four digits without a leading zero, except 0 itself.
fn number_in(field: &[u8]) -> Option<u16> {
    let leading_zero = field.len() > 1 && field[0] == b'0';
    if field.is_empty() || field.len() > 4 || leading_zero {
        return None;
    }
    if !field.iter().all(u8::is_ascii_digit) {
        return None;
    }
    Some(field.iter().fold(0, |value, digit| 10 * value + u16::from(digit - b'0')))
}

impl<'a> Lines<'a> {
    fn refuse<T>(&self, number: u8) -> Result<T, Refusal> {
        refuse(number, self.number)
    }

    /// The fields of the next line.
    fn fields(&mut self) -> Result<Vec<&'a [u8]>, Refusal> {
        self.number += 1;
        match self.rest.iter().position(|&byte| byte == b'\n') {
            None => self.refuse(1),
            Some(end) => {
                let line = &self.rest[..end];
                self.rest = &self.rest[end + 1..];
                Ok(line.split(|&byte| byte == b' ').collect())
            }
        }
    }

    /// The word and the number on the next line, which begins with one of these
    /// words.
    fn heading(&mut self, words: &[&'static str]) -> Result<(&'static str, u16), Refusal> {
        let fields = self.fields()?;
        let found = words.iter().find(|word| fields[0] == word.as_bytes());
        match (found, &fields[1..]) {
            (Some(word), [field]) => match number_in(field) {
                Some(count) => Ok((word, count)),
                None => self.refuse(1),
            },
            _ => self.refuse(1),
        }
    }

    fn count(&mut self, word: &'static str) -> Result<u16, Refusal> {
        self.heading(&[word]).map(|(_, count)| count)
    }

    /// The numbers on the next line, exactly as many as the caller expects.
    fn numbers<const EXPECTED: usize>(&mut self) -> Result<[u16; EXPECTED], Refusal> {
        let fields = self.fields()?;
        if fields.len() != EXPECTED {
            return self.refuse(1);
        }
        let mut numbers = [0; EXPECTED];
        for (slot, field) in numbers.iter_mut().zip(fields) {
            match number_in(field) {
                Some(number) => *slot = number,
                None => return self.refuse(1),
            }
        }
        Ok(numbers)
    }

    /// The node count and the lanes; no node is closed yet.
    fn hall(&mut self) -> Result<Hall, Refusal> {
        let nodes = u32::from(self.count("NODES")?);
        if nodes_are_out_of_range(nodes) {
            return self.refuse(2);
        }
        let lanes = usize::from(self.count("LANES")?);
        if lanes > MOST_LANES {
            return self.refuse(2);
        }
        let mut lane_numbers = Vec::new();
        let mut before = None;
        for _ in 0..lanes {
            let [first, second] = self.numbers()?;
            if lane_is_faulty(nodes, before, (first, second)) {
                return self.refuse(3);
            }
            before = Some((first, second));
            lane_numbers.extend([first, second]);
        }
        Ok(Hall { nodes, lane_numbers, closed: Vec::new() })
    }

    /// The closed nodes, whose count stands on the line read last. A section
    /// that is there closes some node.
    fn closed(&mut self, nodes: u32, count: usize) -> Result<Vec<u16>, Refusal> {
        if count == 0 || count > MOST_CLOSED {
            return self.refuse(2);
        }
        let mut closed: Vec<u16> = Vec::new();
        for _ in 0..count {
            let [entry] = self.numbers()?;
            if closed_entry_is_faulty(nodes, closed.last().copied(), entry) {
                return self.refuse(12);
            }
            closed.push(entry);
        }
        Ok(closed)
    }

    /// The closed nodes, if any, and the count of carriers behind them.
    fn closed_and_carriers(&mut self, nodes: u32) -> Result<(Vec<u16>, usize), Refusal> {
        let (word, count) = self.heading(&["CLOSED", "CARRIERS"])?;
        if word == "CARRIERS" {
            return Ok((Vec::new(), count.into()));
        }
        let closed = self.closed(nodes, count.into())?;
        Ok((closed, self.count("CARRIERS")?.into()))
    }

    /// The moves, whose count stands on the line read last.
    fn moves(&mut self, hall: &Hall, carriers: usize) -> Result<Vec<Move>, Refusal> {
        if carriers > MOST_CARRIERS {
            return self.refuse(2);
        }
        let mut moves = Vec::new();
        for _ in 0..carriers {
            let [start, goal] = self.numbers()?;
            let asked = Move { start, goal };
            if let Some(number) = move_fault(hall.nodes, &hall.closed, asked) {
                return self.refuse(number);
            }
            moves.push(asked);
        }
        Ok(moves)
    }

    fn order(&mut self, carriers: usize) -> Result<Vec<u16>, Refusal> {
        if usize::from(self.count("ORDER")?) != carriers {
            return self.refuse(2);
        }
        let mut order = Vec::new();
        for _ in 0..carriers {
            let [entry] = self.numbers()?;
            if order_entry_is_faulty(carriers, &order, entry) {
                return self.refuse(7);
            }
            order.push(entry);
        }
        Ok(order)
    }

    /// The dwell, 0 where the text has ended. A line that is there tells one of
    /// 1 tick or more.
    fn dwell(&mut self) -> Result<u32, Refusal> {
        if self.rest.is_empty() {
            return Ok(0);
        }
        let dwell = u32::from(self.count("DWELL")?);
        if dwell == 0 || dwell_is_too_long(dwell) {
            return self.refuse(2);
        }
        Ok(dwell)
    }

    /// Bytes behind the last line are refusal 1, at the line that they begin.
    fn end(&mut self) -> Result<(), Refusal> {
        self.number += 1;
        if self.rest.is_empty() {
            Ok(())
        } else {
            self.refuse(1)
        }
    }
}

/// The job that a text holds, or refusal 1 to 5, 7, 12 or 13 with its line.
pub fn read(text: &[u8]) -> Result<Job, Refusal> {
    let mut lines = Lines { rest: text, number: 0 };
    let mut hall = lines.hall()?;
    let (closed, carriers) = lines.closed_and_carriers(hall.nodes)?;
    hall.closed = closed;
    let moves = lines.moves(&hall, carriers)?;
    let order = lines.order(moves.len())?;
    let dwell = lines.dwell()?;
    lines.end()?;
    Ok(Job { hall, moves, order, dwell })
}

/// How many lines the section of closed nodes has: none, or its heading and a
/// line for each.
pub fn closed_lines(hall: &Hall) -> usize {
    match hall.closed.len() {
        0 => 0,
        count => 1 + count,
    }
}

/// The line of a carrier's move: the headings NODES, LANES and CARRIERS, all
/// lanes and all closed nodes stand before carrier 0, and lines count from 1.
pub fn line_of_carrier(job: &Job, carrier: usize) -> usize {
    4 + job.hall.lane_numbers.len() / 2 + closed_lines(&job.hall) + carrier
}

/// The text of a job, one entry a line, each line without its line feed.
pub fn lines_of(job: &Job) -> Vec<Vec<u8>> {
    let mut lines = vec![format!("NODES {}", job.hall.nodes)];
    lines.push(format!("LANES {}", job.hall.lane_numbers.len() / 2));
    lines.extend(job.hall.lanes().iter().map(|(first, second)| format!("{} {}", first, second)));
    if !job.hall.closed.is_empty() {
        lines.push(format!("CLOSED {}", job.hall.closed.len()));
        lines.extend(job.hall.closed.iter().map(|node| node.to_string()));
    }
    lines.push(format!("CARRIERS {}", job.moves.len()));
    lines.extend(job.moves.iter().map(|asked| format!("{} {}", asked.start, asked.goal)));
    lines.push(format!("ORDER {}", job.order.len()));
    lines.extend(job.order.iter().map(|entry| entry.to_string()));
    if job.dwell > 0 {
        lines.push(format!("DWELL {}", job.dwell));
    }
    lines.into_iter().map(String::into_bytes).collect()
}

pub fn join(lines: &[Vec<u8>]) -> Vec<u8> {
    let mut text = Vec::new();
    for line in lines {
        text.extend_from_slice(line);
        text.push(b'\n');
    }
    text
}

pub fn write(job: &Job) -> Vec<u8> {
    join(&lines_of(job))
}
