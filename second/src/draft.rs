// A draft is a job text as lines, with the job that it came from, so that a
// damage can find the line of an entry and pick a number that is no node, that
// stands earlier or that is closed.

use crate::closing::free_nodes;
use crate::dice::Dice;
use crate::dwelling::some_dwell;
use crate::job::{Job, Move};
use crate::text;

pub struct Draft {
    pub job: Job,
    pub lines: Vec<Vec<u8>>,
}

impl Draft {
    pub fn of(job: Job) -> Draft {
        let lines = text::lines_of(&job);
        Draft { job, lines }
    }

    pub fn lanes(&self) -> usize {
        self.job.hall.lane_numbers.len() / 2
    }

    pub fn carriers(&self) -> usize {
        self.job.moves.len()
    }

    /// The line that opens the section of closed nodes, if there is one.
    pub fn line_of_closed(&self) -> usize {
        2 + self.lanes()
    }

    pub fn line_of_carriers(&self) -> usize {
        self.line_of_closed() + text::closed_lines(&self.job.hall)
    }

    pub fn line_of_order(&self) -> usize {
        self.line_of_carriers() + 1 + self.carriers()
    }

    /// The line that tells the dwell, if there is one.
    pub fn line_of_dwell(&self) -> usize {
        self.line_of_order() + 1 + self.carriers()
    }

    fn set(&mut self, line: usize, text: String) -> usize {
        self.lines[line] = text.into_bytes();
        line
    }

    pub fn set_count(&mut self, line: usize, heading: &str, count: usize) -> usize {
        self.set(line, format!("{} {}", heading, count))
    }

    pub fn set_lane(&mut self, lane: usize, first: usize, second: usize) -> usize {
        self.set(2 + lane, format!("{} {}", first, second))
    }

    pub fn set_closed(&mut self, place: usize, node: usize) -> usize {
        self.set(self.line_of_closed() + 1 + place, node.to_string())
    }

    pub fn set_move(&mut self, carrier: usize, start: usize, goal: usize) -> usize {
        self.set(self.line_of_carriers() + 1 + carrier, format!("{} {}", start, goal))
    }

    pub fn set_entry(&mut self, place: usize, entry: usize) -> usize {
        self.set(self.line_of_order() + 1 + place, entry.to_string())
    }

    pub fn some_lane(&self, dice: &mut Dice) -> (usize, usize, usize) {
        let lane = dice.below(self.lanes());
        let (first, second) = self.job.hall.lanes()[lane];
        (lane, first.into(), second.into())
    }

    /// A carrier other than 0, its start and goal, and those of one before it.
    pub fn some_move(&self, dice: &mut Dice) -> (usize, [usize; 2], [usize; 2]) {
        let carrier = dice.between(1, self.carriers() - 1);
        let before = self.job.moves[dice.below(carrier)];
        let asked = self.job.moves[carrier];
        let ends = |one: Move| [usize::from(one.start), usize::from(one.goal)];
        (carrier, ends(asked), ends(before))
    }

    pub fn no_node(&self, dice: &mut Dice) -> usize {
        let nodes = self.job.hall.nodes as usize;
        dice.pick(&[nodes, nodes, nodes + 1, 1023.max(nodes), 1024, 1025, 9999])
    }

    /// Sees to it that two nodes at least are closed, and gives their section
    /// a place in the text. Nodes that are no ends are taken if there are two.
    pub fn close_some(&mut self, dice: &mut Dice) {
        if self.job.hall.closed.len() >= 2 {
            return;
        }
        let (from, old) = (self.line_of_closed(), text::closed_lines(&self.job.hall));
        let mut nodes = free_nodes(&self.job);
        if nodes.len() < 2 {
            nodes = (0..self.job.hall.nodes as u16).collect();
        }
        dice.shuffle(&mut nodes);
        nodes.truncate(dice.between(2, 4));
        nodes.sort_unstable();
        let mut section = vec![format!("CLOSED {}", nodes.len()).into_bytes()];
        section.extend(nodes.iter().map(|node| node.to_string().into_bytes()));
        self.lines.splice(from..from + old, section);
        self.job.hall.closed = nodes;
    }

    /// Sees to it that there is a dwell, and gives it its line in the text.
    pub fn dwell_some(&mut self, dice: &mut Dice) {
        if self.job.dwell == 0 {
            self.job.dwell = some_dwell(dice);
            let line = format!("DWELL {}", self.job.dwell).into_bytes();
            self.lines.insert(self.line_of_dwell(), line);
        }
    }

    /// A closed node and its place. Some node is closed.
    pub fn some_closed(&self, dice: &mut Dice) -> (usize, usize) {
        let place = dice.below(self.job.hall.closed.len());
        (place, self.job.hall.closed[place].into())
    }
}
