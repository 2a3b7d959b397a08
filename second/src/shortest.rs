// Every shortest path of a move, and whether two timed paths meet or cross.
// Distances come from Floyd and Warshall's triple loop, not from the level
// sets that the planner uses, so that a slip in one does not excuse the other.
// A closed node is at no distance from any node, so no path goes over it.
// It is meant for small halls; callers count paths before they ask for them.

use crate::job::{Hall, Move};

/// Distances of all pairs of nodes, `None` where no walk joins them.
pub type AllDistances = Vec<Vec<Option<i64>>>;

pub fn all_distances(hall: &Hall) -> AllDistances {
    let nodes = hall.nodes as usize;
    let is_open = |node: u16| !hall.closed.contains(&node);
    let mut table: AllDistances = vec![vec![None; nodes]; nodes];
    for node in (0..nodes).filter(|&node| is_open(node as u16)) {
        table[node][node] = Some(0);
    }
    for (first, second) in hall.lanes() {
        if !is_open(first) || !is_open(second) {
            continue;
        }
        table[usize::from(first)][usize::from(second)] = Some(1);
        table[usize::from(second)][usize::from(first)] = Some(1);
    }
    for through in 0..nodes {
        let onward = table[through].clone();
        for row in table.iter_mut() {
            if let Some(first_part) = row[through] {
                for (best, second_part) in row.iter_mut().zip(&onward) {
                    if let Some(second_part) = second_part {
                        let length = first_part + second_part;
                        if best.map_or(true, |old| length < old) {
                            *best = Some(length);
                        }
                    }
                }
            }
        }
    }
    table
}

/// The nodes to which a shortest path to `goal` can go on from `node`.
fn nearer(table: &AllDistances, node: usize, goal: usize) -> Vec<usize> {
    let here = table[node][goal];
    (0..table.len())
        .filter(|&next| table[node][next] == Some(1))
        .filter(|&next| table[next][goal].map(|left| left + 1) == here)
        .collect()
}

/// How many shortest paths a move has, but never more than `most`.
pub fn count_paths(table: &AllDistances, asked: Move, most: u64) -> u64 {
    let (start, goal) = (usize::from(asked.start), usize::from(asked.goal));
    let distance = table[start][goal].expect("a planned move has a walk");
    // How many beginnings of shortest paths end in each node, step by step.
    let mut beginnings = vec![0; table.len()];
    beginnings[start] = 1;
    for _ in 0..distance {
        let mut longer = vec![0; table.len()];
        for node in 0..table.len() {
            if beginnings[node] > 0 {
                for next in nearer(table, node, goal) {
                    longer[next] = most.min(longer[next] + beginnings[node]);
                }
            }
        }
        beginnings = longer;
    }
    beginnings[goal]
}

/// Every shortest path of a move.
pub fn all_paths(table: &AllDistances, asked: Move) -> Vec<Vec<usize>> {
    let (start, goal) = (usize::from(asked.start), usize::from(asked.goal));
    let mut finished = Vec::new();
    let mut open = vec![vec![start]];
    while let Some(path) = open.pop() {
        let node = path[path.len() - 1];
        if node == goal {
            finished.push(path);
            continue;
        }
        for next in nearer(table, node, goal) {
            let mut longer = path.clone();
            longer.push(next);
            open.push(longer);
        }
    }
    finished
}

/// A path, the tick at which its carrier stands on the first node, and for how
/// many ticks more than one it stands on the last.
#[derive(Clone, Copy)]
pub struct Timed<'a> {
    pub path: &'a [usize],
    pub tick: i64,
    pub dwell: i64,
}

impl Timed<'_> {
    /// The node at a tick at which the carrier is on the floor.
    fn node_at(&self, tick: i64) -> usize {
        let steps = (tick - self.tick) as usize;
        self.path[steps.min(self.path.len() - 1)]
    }

    fn last_tick(&self) -> i64 {
        self.tick + self.path.len() as i64 - 1 + self.dwell
    }
}

/// The first and the last tick at which both carriers are on the floor. If the
/// last lies before the first, there is none.
fn together(one: Timed, other: Timed) -> (i64, i64) {
    (one.tick.max(other.tick), one.last_tick().min(other.last_tick()))
}

/// One node at one tick.
pub fn meets(one: Timed, other: Timed) -> bool {
    let (first, last) = together(one, other);
    (first..=last).any(|tick| one.node_at(tick) == other.node_at(tick))
}

/// Two different nodes exchanged between two consecutive ticks.
pub fn crosses(one: Timed, other: Timed) -> bool {
    let (first, last) = together(one, other);
    (first..last).any(|tick| {
        let (from, to) = (one.node_at(tick), one.node_at(tick + 1));
        from != to && other.node_at(tick) == to && other.node_at(tick + 1) == from
    })
}

/// Whether some choice of shortest paths of two moves meets or crosses, told
/// from distances alone: a node lies on a shortest path exactly if the ways to
/// it and from it add up to the move's distance, and each carrier chooses
/// freely, so each node and each lane can be judged by itself. On its goal each
/// stays for the dwell, and from there it goes nowhere.
pub fn some_choice_collides(
    table: &AllDistances,
    dwell: i64,
    one: (Move, i64),
    other: (Move, i64),
) -> bool {
    let (tick_at_one, tick_at_other) = (ticks_at_nodes(table, one), ticks_at_nodes(table, other));
    let stays = |asked: Move, node: usize| if node == asked.goal.into() { dwell } else { 0 };
    let nodes = 0..table.len();
    nodes.clone().any(|node| {
        let meeting = match (tick_at_one[node], tick_at_other[node]) {
            (Some(from), Some(other_from)) => {
                from <= other_from + stays(other.0, node) && other_from <= from + stays(one.0, node)
            }
            _ => false,
        };
        let crossing = nodes.clone().any(|next| {
            table[node][next] == Some(1)
                && follows(tick_at_one[node], tick_at_one[next])
                && follows(tick_at_other[next], tick_at_other[node])
                && tick_at_one[node] == tick_at_other[next]
        });
        meeting || crossing
    })
}

fn follows(tick: Option<i64>, next: Option<i64>) -> bool {
    tick.is_some() && tick.map(|tick| tick + 1) == next
}

/// For each node on some shortest path of a move, the first tick of being there.
fn ticks_at_nodes(table: &AllDistances, timed: (Move, i64)) -> Vec<Option<i64>> {
    let (start, goal) = (usize::from(timed.0.start), usize::from(timed.0.goal));
    let on_a_path = |node: usize| {
        let (to, from) = (table[start][node]?, table[node][goal]?);
        if Some(to + from) == table[start][goal] {
            Some(timed.1 + to)
        } else {
            None
        }
    };
    (0..table.len()).map(on_a_path).collect()
}
