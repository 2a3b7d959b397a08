// Cases at the limits of the rules (1,024 nodes, 4,096 lanes, 64 carriers) and one
// step past them, and texts longer than any that can be accepted.
// They are few, because a machine that emulates another takes long over each.

use crate::batch::Case;
use crate::dice::Dice;
use crate::halls::{
    aisles, complete, grid, hall_of, job_apart, job_over, line, renumbered, ring, scattered, star,
    through_one_corridor, tree, two_parts, two_sided, zigzag,
};
use crate::job::{Hall, Job, Move};
use crate::least_cases::{move_numbers, path_of_carrier, path_of_move, plan_numbers, read_text};
use crate::lists::proposal;
use crate::text;

/// Moves end to end and back in turn, for late ticks on a long line; the ends
/// move inwards, so that no two carriers share one.
fn to_and_fro(hall: Hall, carriers: usize) -> Job {
    let last = hall.nodes as usize - 1;
    let one_move = |carrier: usize| {
        let (low, high) = ((carrier / 2) as u16, (last - carrier / 2) as u16);
        match carrier % 2 {
            0 => Move { start: low, goal: high },
            _ => Move { start: high, goal: low },
        }
    };
    let moves = (0..carriers).map(one_move).collect();
    Job { hall, moves, order: (0..carriers as u16).collect(), dwell: 0 }
}

/// Carriers that cross a ring to the opposite node, either way round, so that
/// each pair has wide forbidden stretches with free ticks between them.
fn across_a_ring(dice: &mut Dice) -> Job {
    let one_move = |carrier: u16| Move { start: 16 * carrier, goal: (16 * carrier + 512) % 1024 };
    let mut order: Vec<u16> = (0..64).collect();
    dice.shuffle(&mut order);
    Job { hall: ring(1024), moves: (0..64).map(one_move).collect(), order, dwell: 0 }
}

/// The 4,096 lanes whose lines are longest, so that the text is about as long
/// as an accepted one can be.
fn long_numbers() -> Hall {
    let lanes = (0..1024).flat_map(|lower| (1000..1024).map(move |higher| (lower, higher)));
    let rising: Vec<(usize, usize)> = lanes.filter(|(lower, higher)| lower < higher).collect();
    hall_of(1024, rising.into_iter().rev().take(4096).collect())
}

/// The accepted jobs at full size, of many shapes: each shape once with no end
/// shared and once with ends dealt by dice.
pub fn full_jobs(dice: &mut Dice) -> Vec<Job> {
    let shuffled_line = renumbered(dice, &line(1024));
    let random_tree = tree(dice, 1024);
    let full = scattered(dice, 1024, 4096);
    let sparse = scattered(dice, 1024, 1400);
    let halls = vec![
        line(1024),
        shuffled_line,
        grid(1024, 32),
        full,
        ring(1024),
        star(1024),
        aisles(1024, 32),
        random_tree,
        grid(1024, 2),
        two_sided(64, 64),
        complete(92),
        sparse,
        two_parts(1024),
        long_numbers(),
        zigzag(1024),
    ];
    let mut jobs =
        vec![to_and_fro(line(1024), 64), through_one_corridor(dice, 32, 960), across_a_ring(dice)];
    for hall in halls {
        jobs.push(job_apart(dice, hall.clone(), 64, true));
        jobs.push(job_over(dice, hall, 64, true));
    }
    jobs
}

/// The full random network, for the cases that spoil it.
fn full_random(dice: &mut Dice, lanes: usize, carriers: usize) -> Job {
    // A tree under the random lanes keeps every goal in reach.
    let mut pairs: Vec<(usize, usize)> = (1..1024).map(|node| (dice.below(node), node)).collect();
    while hall_of(1024, pairs.clone()).lane_numbers.len() < 2 * lanes {
        let missing = lanes - hall_of(1024, pairs.clone()).lane_numbers.len() / 2;
        pairs.extend((0..missing).map(|_| (dice.below(1024), dice.below(1024))));
    }
    job_over(dice, hall_of(1024, pairs), carriers, true)
}

fn plan_case(text: Vec<u8>) -> Case {
    Case::Plan { text }
}

/// Full size with one fault near the end, where a reader has done all work. A
/// move that stands twice is no fault, and does not hide the one behind it.
fn spoiled_at_the_end(dice: &mut Dice) -> Vec<Case> {
    let job = full_random(dice, 4096, 64);
    let sound = text::write(&job);
    let spoil = |change: fn(&mut Job)| {
        let mut spoiled = job.clone();
        change(&mut spoiled);
        plan_case(text::write(&spoiled))
    };
    let mut cut_line = sound.clone();
    cut_line.pop();
    let mut lost_line = sound.clone();
    lost_line.truncate(sound[..sound.len() - 1].iter().rposition(|&b| b == b'\n').unwrap() + 1);
    vec![
        plan_case([&sound[..], b"\n"].concat()),
        plan_case([&sound[..], b"0"].concat()),
        plan_case(cut_line),
        plan_case(lost_line),
        spoil(|job| job.order[63] = 64),
        spoil(|job| job.order[63] = job.order[0]),
        spoil(|job| job.moves[63] = job.moves[62]),
        spoil(|job| {
            job.moves[63] = job.moves[62];
            job.order[63] = job.order[62];
        }),
        spoil(|job| job.moves[63].goal = job.moves[63].start),
        spoil(|job| job.moves[63].goal = 1024),
        spoil(|job| job.hall.lane_numbers[8191] = 1024),
        spoil(|job| job.hall.lane_numbers.swap(8190, 8191)),
    ]
}

/// One step past each limit, with every line that the counts announce.
fn past_the_limits(dice: &mut Dice) -> Vec<Case> {
    let mut cases = Vec::new();
    let mut too_many_nodes = full_random(dice, 1100, 8);
    too_many_nodes.hall.nodes = 1025;
    for job in [too_many_nodes, full_random(dice, 4097, 8), full_random(dice, 1100, 65)] {
        cases.push(plan_case(text::write(&job)));
        cases.push(plan_numbers(&job));
    }
    for heading in [
        "NODES 1025",
        "NODES 0",
        "NODES 01",
        "NODES 9999",
        "NODES 10000",
        "NODES 1024\nLANES 4097",
        "NODES 1024\nLANES 9999",
        "NODES 1024\nLANES 04096",
        "NODES 1\nLANES 0\nCARRIERS 65",
        "NODES 1\nLANES 0\nCARRIERS 0\nORDER 1",
        "NODES 1\nLANES 0\nCARRIERS 0\nORDER 0",
        "NODES 1024\nLANES 0\nCARRIERS 0\nORDER 0",
        "NODES 1024\nLANES 1\n0 1024",
        "NODES 1024\nLANES 1\n0 1023\nCARRIERS 1\n1023 0\nORDER 1\n0",
    ] {
        cases.push(plan_case(format!("{}\n", heading).into_bytes()));
        cases.push(plan_case(heading.as_bytes().to_vec()));
    }
    cases
}

/// From numbers: lists of lanes at and past their limit, even and odd.
fn numbers_at_the_limits(dice: &mut Dice) -> Vec<Case> {
    let mut cases = Vec::new();
    for lanes in [4095, 4096, 4097, 4200] {
        let even = full_random(dice, lanes, 64);
        let mut odd = even.clone();
        odd.hall.lane_numbers.pop();
        cases.push(plan_numbers(&even));
        cases.push(plan_numbers(&odd));
    }
    for carriers in [64, 65, 70] {
        let hall = grid(1024, 32);
        let mut job = job_over(dice, hall, carriers, true);
        cases.push(plan_numbers(&job));
        job.order.push(0);
        cases.push(plan_numbers(&job));
    }
    cases.push(plan_numbers(&through_one_corridor(dice, 32, 960)));
    let cut_off = job_over(dice, two_parts(1024), 64, false);
    cases.push(plan_case(text::write(&cut_off)));
    cases.push(plan_numbers(&cut_off));
    cases
}

/// Paths through full halls; the house path of a line has all 1,024 nodes.
fn paths_at_the_limits(dice: &mut Dice) -> Vec<Case> {
    let mut cases = Vec::new();
    let shuffled = renumbered(dice, &line(1024));
    for hall in [line(1024), shuffled, grid(1024, 32), long_numbers(), zigzag(1024)] {
        let job = job_over(dice, hall, 64, true);
        let text = text::write(&job);
        let carrier = dice.below(job.moves.len()) as u16;
        let asked = job.moves[usize::from(carrier)];
        let list = proposal(dice, &job.hall, asked);
        let spare = proposal(dice, &job.hall, asked);
        cases.push(read_text(text.clone()));
        cases.push(path_of_carrier(carrier, text.clone()));
        cases.push(Case::JudgeForCarrier { carrier, list: list.clone(), text: text.clone() });
        cases.push(Case::Choose { asked, own: list.clone(), spare, text: text.clone() });
        cases.push(move_numbers(job.hall, asked, list));
    }
    let whole = to_and_fro(line(1024), 2);
    let asked = whole.moves[0];
    let list: Vec<u16> = (0..1024).collect();
    cases.push(path_of_move(asked, text::write(&whole)));
    cases.push(Case::JudgeForMove { asked, list, text: text::write(&whole) });
    let endless = vec![0; 5000];
    cases.push(Case::JudgeForMove { asked, list: endless, text: text::write(&whole) });
    cases
}

/// Texts longer than 47,143 bytes, which no accepted text can be.
fn long_texts(dice: &mut Dice) -> Vec<Case> {
    let full = text::write(&full_random(dice, 4096, 64));
    let small = text::write(&to_and_fro(line(5), 2));
    let tail = |byte: u8| vec![byte; 48_000];
    let noise: Vec<u8> = (0..50_000).map(|_| dice.word() as u8).collect();
    vec![
        plan_case([&full[..], &tail(b'\n')].concat()),
        plan_case([&full[..], &full[..]].concat()),
        plan_case([&small[..], &tail(b'\n')].concat()),
        plan_case([&small[..], &tail(b' ')].concat()),
        plan_case([&small[..], &tail(0)].concat()),
        plan_case(small.repeat(1200)),
        plan_case([&small[..small.len() - 1], &tail(b'0'), b"\n"].concat()),
        plan_case([b"NODES ", &tail(b'1')[..], b"\n"].concat()),
        plan_case([b"NODES 5", &tail(b' ')[..], b"\n"].concat()),
        plan_case([b"NODES 5\nLANES 4097\n", &b"0 1\n".repeat(12_000)[..]].concat()),
        plan_case([b"NODES 5\nLANES 4096\n", &b"0 1\n".repeat(12_000)[..]].concat()),
        plan_case(tail(b'\n')),
        plan_case(noise),
        plan_case(vec![b'7'; 200_000]),
        read_text([&full[..], &tail(b'0')].concat()),
    ]
}

pub fn limit_cases(dice: &mut Dice) -> Vec<Case> {
    let jobs = full_jobs(dice);
    let mut cases: Vec<Case> = jobs.iter().map(|job| plan_case(text::write(job))).collect();
    cases.extend(spoiled_at_the_end(dice));
    cases.extend(past_the_limits(dice));
    cases.extend(numbers_at_the_limits(dice));
    cases.extend(paths_at_the_limits(dice));
    cases.extend(long_texts(dice));
    cases
}
