// Texts for the program itself, of all lengths up to the longest that can be
// accepted and beyond. The bound of 47,142 bytes is met by no text: the
// longest accepted one has 42,027, and 38,015 if no node is closed. Of each
// length there is a sound text, one that lacks its last byte, one with a byte
// more, and one with a fault in its last line, so that a program that reads
// less than it must is found out. Most of them have a dwell.

use crate::closing::free_nodes;
use crate::halls::hall_of;
use crate::job::{Hall, Job, Move, MOST_DWELL};
use crate::text;
use crate::write::LEAST_TEXT;

/// Lengths that a sound text comes close to from above.
const ABOUT: [usize; 14] =
    [300, 600, 1000, 2000, 3000, 4000, 4200, 6000, 8000, 12_000, 16_000, 20_000, 24_000, 32_000];

/// Dwells of none, one, two and three digits, by turns.
const DWELLS: [u32; 4] = [0, 7, 12, MOST_DWELL];

/// The bytes that the program reads at most: one more than the bound.
const READ: usize = LEAST_TEXT + 1;

fn job_over(hall: Hall, moves: Vec<Move>, dwell: u32) -> Job {
    let order = (0..moves.len() as u16).rev().collect();
    Job { hall, moves, order, dwell }
}

/// Moves with both ends in the first `nodes` nodes, each start and goal once.
fn moves_within(nodes: usize, carriers: usize) -> Vec<Move> {
    let one = |carrier: usize| Move {
        start: carrier as u16,
        goal: ((carrier + nodes / 2) % nodes) as u16,
    };
    (0..carriers.min(nodes / 2)).map(one).collect()
}

/// A joined hall whose text has about so many bytes: a line, with lanes that
/// leap over two, three and more nodes added until it is long enough.
fn sound_of(bytes: usize, dwell: u32) -> Vec<u8> {
    let nodes = (bytes / 14).clamp(8, 1024);
    let mut lanes: Vec<(usize, usize)> = (1..nodes).map(|node| (node - 1, node)).collect();
    let mut leap = 2;
    loop {
        let job = job_over(hall_of(nodes, lanes.clone()), moves_within(nodes, 64), dwell);
        let sound = text::write(&job);
        if sound.len() >= bytes || lanes.len() >= 4096 || leap >= nodes {
            return sound;
        }
        let lacking = ((bytes - sound.len()) / 10 + 1).min(4096 - lanes.len());
        lanes.extend((leap..nodes).map(|node| (node - leap, node)).take(lacking));
        leap += 1;
    }
}

/// The job with the longest text that is accepted if no node is closed: as many
/// lanes as there may be between nodes of four digits, the others from three
/// digits to four, 64 moves between nodes of four digits, which share their
/// ends, 64 places, and a dwell of three digits.
fn longest_open_job() -> Job {
    let high = (1000..1024).flat_map(|lower| (lower + 1..1024).map(move |higher| (lower, higher)));
    let low = (100..1000).flat_map(|lower| (1000..1024).map(move |higher| (lower, higher)));
    let lanes: Vec<(usize, usize)> = high.chain(low).take(4096).collect();
    let around = |node: u16| 1000 + node % 24;
    let one =
        |carrier: u16| Move { start: around(carrier), goal: around(carrier / 24 + carrier + 1) };
    job_over(hall_of(1024, lanes), (0..64).map(one).collect(), MOST_DWELL)
}

/// The job with the longest text of all. A closed node is no end, so two nodes
/// of four digits stay open, all moves join these, and all others are closed.
pub fn longest_job() -> Job {
    let mut job = longest_open_job();
    let one = |carrier: u16| match carrier % 2 {
        0 => Move { start: 1022, goal: 1023 },
        _ => Move { start: 1023, goal: 1022 },
    };
    job.moves = (0..64).map(one).collect();
    job.hall.closed = free_nodes(&job);
    job
}

/// A line of so many nodes of which only the first two are open.
fn mostly_closed(nodes: usize, dwell: u32) -> Job {
    let lanes = (1..nodes).map(|node| (node - 1, node)).collect();
    let mut job = job_over(hall_of(nodes, lanes), vec![Move { start: 0, goal: 1 }; 3], dwell);
    job.hall.closed = free_nodes(&job);
    job
}

/// A sound text and the same with its end spoiled. In the last line stands a
/// number that no carrier has and that is no dwell.
fn with_spoiled_ends(sound: Vec<u8>) -> Vec<Vec<u8>> {
    let mut cut = sound.clone();
    cut.pop();
    let mut last_line = cut.clone();
    last_line.pop();
    last_line.extend(b"999\n");
    vec![[&sound[..], b"\n"].concat(), cut, last_line, sound]
}

/// Texts as long as the bound and longer, with the fault that decides before
/// the last byte that is read or in a line that ends behind it.
fn beyond() -> Vec<Vec<u8>> {
    let full = text::write(&longest_job());
    let fill = |byte: u8, count: usize| vec![byte; count];
    let bare = text::write(&Job { dwell: 0, ..longest_job() });
    let early: Vec<u8> = {
        let mut spoiled = full.clone();
        spoiled[30] = b'x';
        spoiled
    };
    let to = |text: &[u8], bytes: usize| fill(b'7', bytes - text.len());
    // The last line goes on, and its line feed is the last byte.
    let stretched = |bytes: usize| {
        let cut = &full[..full.len() - 1];
        [cut, &fill(b' ', bytes - full.len()), b"\n"].concat()
    };
    vec![
        [&full[..], &to(&full, READ - 1)].concat(),
        [&full[..], &to(&full, READ)].concat(),
        [&full[..], &to(&full, READ + 1)].concat(),
        stretched(READ - 1),
        stretched(READ),
        stretched(READ + 1),
        [&full[..], &to(&full, 60_000), b"\n"].concat(),
        [&full[..], &fill(b'\n', 30_000)].concat(),
        [&full[..], &full[..]].concat(),
        [&early[..], &fill(b'\n', 30_000)].concat(),
        stretched(52_000),
        [&full[..full.len() - 1], &fill(b'0', 10_000), b"\n"].concat(),
        [&bare[..], b"DWELL ", &fill(b'2', 9_000), b"\n"].concat(),
        [&bare[..], &b"DWELL 255\n".repeat(1_000)[..]].concat(),
        [&bare[..], &fill(b' ', READ), b"\nDWELL 255\n"].concat(),
        [b"NODES 1024\nLANES 4096\n", &b"0 1\n".repeat(12_000)[..]].concat(),
        [b"NODES 1024\nLANES 0\nCLOSED 1024\n", &b"0\n".repeat(25_000)[..]].concat(),
        [b"NODES 1024\nLANES 0\nCLOSED 1024\n0", &fill(b'0', 50_000)[..], b"\n"].concat(),
        b"9".repeat(100_000),
    ]
}

pub fn texts() -> Vec<Vec<u8>> {
    let mut texts: Vec<Vec<u8>> = Vec::new();
    for (bytes, dwell) in ABOUT.into_iter().zip(DWELLS.into_iter().cycle()) {
        texts.extend(with_spoiled_ends(sound_of(bytes, dwell)));
    }
    for (nodes, dwell) in [10, 100, 500, 1024].into_iter().zip(DWELLS) {
        texts.extend(with_spoiled_ends(text::write(&mostly_closed(nodes, dwell))));
    }
    texts.extend(with_spoiled_ends(text::write(&longest_open_job())));
    texts.extend(with_spoiled_ends(text::write(&longest_job())));
    texts.extend(beyond());
    texts
}

/// How many there are, how many of them are accepted, and their lengths.
pub fn told(texts: &[Vec<u8>]) -> String {
    let accepted: Vec<usize> =
        texts.iter().filter(|text| text::read(text).is_ok()).map(|text| text.len()).collect();
    format!(
        "texts for the program: {}, of {} to {} bytes; {} accepted, of {} to {} bytes\n",
        texts.len(),
        texts.iter().map(Vec::len).min().unwrap_or(0),
        texts.iter().map(Vec::len).max().unwrap_or(0),
        accepted.len(),
        accepted.iter().min().unwrap_or(&0),
        accepted.iter().max().unwrap_or(&0)
    )
}
