// A job as plain numbers, with the checks 2, 3, 4, 5, 7, 12 and 13 of the rules
// on it. The number 6 is not in use: any number of carriers may have one start,
// one goal or both.
// Lanes stand as a flat list, two numbers a lane, because from numbers the
// list may have an odd length and that is a refusal of its own.
// Each single check is one small function, so that reading a text and
// planning from numbers judge an entry alike and differ only in the order.

pub const MOST_NODES: u32 = 1024;
pub const MOST_LANES: usize = 4096;
pub const MOST_CLOSED: usize = 1024;
pub const MOST_CARRIERS: usize = 64;
pub const MOST_DWELL: u32 = 255;

/// A refusal: its number in the rules, and the line (of a text) or the place (from
/// numbers) that goes with it.
#[derive(Clone, Copy, Debug, PartialEq, Eq)]
pub struct Refusal {
    pub number: u8,
    pub at: usize,
}

pub fn refuse<T>(number: u8, at: usize) -> Result<T, Refusal> {
    Err(Refusal { number, at })
}

#[derive(Clone, Copy, Debug, PartialEq, Eq)]
pub struct Move {
    pub start: u16,
    pub goal: u16,
}

/// A network: its nodes, its lanes, and the nodes that nobody may stand on.
#[derive(Clone, Debug, PartialEq, Eq)]
pub struct Hall {
    pub nodes: u32,
    pub lane_numbers: Vec<u16>,
    pub closed: Vec<u16>,
}

#[derive(Clone, Debug, PartialEq, Eq)]
pub struct Job {
    pub hall: Hall,
    pub moves: Vec<Move>,
    /// Carrier numbers by place.
    pub order: Vec<u16>,
    /// For how many ticks behind its goal tick each carrier stands on its goal.
    pub dwell: u32,
}

/// Check 2 for a count of nodes.
pub fn nodes_are_out_of_range(nodes: u32) -> bool {
    nodes < 1 || nodes > MOST_NODES
}

/// Check 3 for one lane and the lane before it.
pub fn lane_is_faulty(nodes: u32, before: Option<(u16, u16)>, lane: (u16, u16)) -> bool {
    let (first, second) = lane;
    let no_node = u32::from(first) >= nodes || u32::from(second) >= nodes;
    // Tuples compare by the first number and then by the second, which is
    // the rising order of lanes.
    let not_rising = before.map_or(false, |earlier| lane <= earlier);
    no_node || first >= second || not_rising
}

/// Check 12 for one closed node and the one before it.
pub fn closed_entry_is_faulty(nodes: u32, before: Option<u16>, entry: u16) -> bool {
    u32::from(entry) >= nodes || before.map_or(false, |earlier| entry <= earlier)
}

/// Checks 4, 5 and 13 for one move, in that order. Other moves play no part.
pub fn move_fault(nodes: u32, closed: &[u16], asked: Move) -> Option<u8> {
    if u32::from(asked.start) >= nodes || u32::from(asked.goal) >= nodes {
        return Some(4);
    }
    if asked.start == asked.goal {
        return Some(5);
    }
    if closed.contains(&asked.start) || closed.contains(&asked.goal) {
        return Some(13);
    }
    None
}

/// Check 2 for a dwell. None at all is a dwell of 0.
pub fn dwell_is_too_long(dwell: u32) -> bool {
    dwell > MOST_DWELL
}

/// Check 7 for one order entry and the entries before it.
pub fn order_entry_is_faulty(carriers: usize, earlier: &[u16], entry: u16) -> bool {
    usize::from(entry) >= carriers || earlier.contains(&entry)
}

impl Hall {
    /// The lanes as pairs. A last number without a partner is left out; the
    /// check of the counts has refused such a list before.
    pub fn lanes(&self) -> Vec<(u16, u16)> {
        self.lane_numbers.chunks_exact(2).map(|two| (two[0], two[1])).collect()
    }

    fn check_counts(&self) -> Result<(), Refusal> {
        if nodes_are_out_of_range(self.nodes) {
            return refuse(2, 0);
        }
        if self.lane_numbers.len() % 2 == 1 || self.lane_numbers.len() / 2 > MOST_LANES {
            return refuse(2, 1);
        }
        if self.closed.len() > MOST_CLOSED {
            return refuse(2, 4);
        }
        Ok(())
    }

    fn check_lanes(&self) -> Result<(), Refusal> {
        let mut before = None;
        for (place, &lane) in self.lanes().iter().enumerate() {
            if lane_is_faulty(self.nodes, before, lane) {
                return refuse(3, place);
            }
            before = Some(lane);
        }
        Ok(())
    }

    fn check_closed(&self) -> Result<(), Refusal> {
        let mut before = None;
        for (place, &entry) in self.closed.iter().enumerate() {
            if closed_entry_is_faulty(self.nodes, before, entry) {
                return refuse(12, place);
            }
            before = Some(entry);
        }
        Ok(())
    }

    /// Checks 2, 3 and 12 of a network by itself.
    pub fn check(&self) -> Result<(), Refusal> {
        self.check_counts()?;
        self.check_lanes()?;
        self.check_closed()
    }

    /// The checks of a network and then 4, 5 and 13 of one move, whose place is
    /// 0.
    pub fn check_with_move(&self, asked: Move) -> Result<(), Refusal> {
        self.check()?;
        match move_fault(self.nodes, &self.closed, asked) {
            Some(number) => refuse(number, 0),
            None => Ok(()),
        }
    }
}

impl Job {
    /// Checks 2, 3, 12, then 4, 5 and 13 move by move, then 7, from numbers: all
    /// counts and the dwell come before all entries.
    pub fn check(&self) -> Result<(), Refusal> {
        self.hall.check_counts()?;
        if self.moves.len() > MOST_CARRIERS {
            return refuse(2, 2);
        }
        if self.order.len() != self.moves.len() {
            return refuse(2, 3);
        }
        if dwell_is_too_long(self.dwell) {
            return refuse(2, 5);
        }
        self.hall.check_lanes()?;
        self.hall.check_closed()?;
        for (carrier, &asked) in self.moves.iter().enumerate() {
            if let Some(number) = move_fault(self.hall.nodes, &self.hall.closed, asked) {
                return refuse(number, carrier);
            }
        }
        for (place, &entry) in self.order.iter().enumerate() {
            if order_entry_is_faulty(self.moves.len(), &self.order[..place], entry) {
                return refuse(7, place);
            }
        }
        Ok(())
    }
}
