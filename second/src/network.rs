// The lanes of a hall as a bitmap with one row of bits a node, and distances
// from one node by level sets: the nodes at distance s + 1 are all neighbours
// of the nodes at distance s that no earlier level holds. A lane with a closed
// node at either end is in no row, since nobody can take it.
// A distance is an optional number. "No walk" is the absence of one, so it
// cannot slip into a sum.

use crate::job::Hall;

pub struct Network {
    nodes: usize,
    words: usize,
    rows: Vec<u64>,
    /// Whether one may stand on a node, by node number.
    open: Vec<bool>,
}

fn mark(set: &mut [u64], node: usize) {
    set[node / 64] |= 1 << (node % 64);
}

fn holds(set: &[u64], node: usize) -> bool {
    set[node / 64] >> (node % 64) & 1 == 1
}

impl Network {
    /// The hall must have passed its checks.
    pub fn of(hall: &Hall) -> Network {
        let nodes = hall.nodes as usize;
        let words = (nodes + 63) / 64;
        let mut open = vec![true; nodes];
        hall.closed.iter().for_each(|&node| open[usize::from(node)] = false);
        let mut network = Network { nodes, words, rows: vec![0; nodes * words], open };
        for (first, second) in hall.lanes() {
            let (first, second) = (usize::from(first), usize::from(second));
            if !network.open[first] || !network.open[second] {
                continue;
            }
            mark(&mut network.rows[first * words..(first + 1) * words], second);
            mark(&mut network.rows[second * words..(second + 1) * words], first);
        }
        network
    }

    pub fn nodes(&self) -> usize {
        self.nodes
    }

    pub fn is_open(&self, node: usize) -> bool {
        self.open[node]
    }

    fn row(&self, node: usize) -> &[u64] {
        &self.rows[node * self.words..(node + 1) * self.words]
    }

    /// Whether a lane joins the two and both are open; a number that is no node
    /// joins nothing.
    pub fn joined(&self, first: usize, second: usize) -> bool {
        first < self.nodes && second < self.nodes && holds(self.row(first), second)
    }

    /// All open neighbours of an open node, lowest number first.
    pub fn neighbours(&self, node: usize) -> Vec<usize> {
        (0..self.nodes).filter(|&other| self.joined(node, other)).collect()
    }

    /// The distance of every node from one node, by node number. From a closed
    /// node there is none, not even to itself.
    pub fn distances_from(&self, origin: usize) -> Vec<Option<i64>> {
        let mut distances = vec![None; self.nodes];
        if !self.open[origin] {
            return distances;
        }
        let mut seen = vec![0; self.words];
        let mut level = vec![origin];
        mark(&mut seen, origin);
        let mut distance = 0;
        while !level.is_empty() {
            let mut reached = vec![0; self.words];
            for &node in &level {
                distances[node] = Some(distance);
                for (word, lanes) in reached.iter_mut().zip(self.row(node)) {
                    *word |= lanes;
                }
            }
            for (word, old) in reached.iter_mut().zip(seen.iter_mut()) {
                *word &= !*old;
                *old |= *word;
            }
            level = members(&reached);
            distance += 1;
        }
        distances
    }
}

/// The nodes in a set of bits, lowest number first.
fn members(set: &[u64]) -> Vec<usize> {
    let mut nodes = Vec::new();
    for (place, &word) in set.iter().enumerate() {
        let mut left = word;
        while left != 0 {
            nodes.push(64 * place + left.trailing_zeros() as usize);
            left &= left - 1;
        }
    }
    nodes
}
