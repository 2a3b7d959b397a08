// The distances of a hall, found by walks from one node at a time and kept: a day
// of many carriers has few lifts and chutes, and each is asked about often.

use crate::job::Hall;
use crate::network::Network;
use std::rc::Rc;

/// The distance of every node from one node, by node number.
pub type Row = Rc<Vec<Option<i64>>>;

pub struct Floor {
    network: Network,
    rows: Vec<Option<Row>>,
}

impl Floor {
    /// The hall must have passed its checks.
    pub fn of(hall: &Hall) -> Floor {
        let network = Network::of(hall);
        let rows = vec![None; network.nodes()];
        Floor { network, rows }
    }

    /// The distances from a node of the hall.
    pub fn row(&mut self, node: u16) -> Row {
        let Floor { network, rows } = self;
        let place = usize::from(node);
        rows[place].get_or_insert_with(|| Rc::new(network.distances_from(place))).clone()
    }

    /// The distance between two numbers, none where one of them is no open node
    /// or no walk joins them.
    pub fn distance(&mut self, from: u16, to: u16) -> Option<i64> {
        if usize::from(from) >= self.network.nodes() {
            return None;
        }
        self.row(from).get(usize::from(to)).copied().flatten()
    }
}
