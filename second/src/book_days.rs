// Whole days: thousands of calls, in small halls and in halls of 1,024 nodes, from
// few lifts into few chutes. The clock is led so that the floor is now nearly
// empty and now full: when a carrier finds no slot, the day mostly waits until one
// leaves. In a large hall each admission takes a walk for each lift in use, so
// there are few days of that size, and only one of them has many lifts.

use crate::batch::Case;
use crate::book::{Book, LATEST_CLOCK};
use crate::book_make::{clipped, Day, Pace};
use crate::closing::with_closed;
use crate::dice::Dice;
use crate::halls::{aisles, grid, line, ring, scattered, star, tree, two_parts};
use crate::job::{Hall, Move};
use crate::network::Network;

/// What is asked for on a day: these moves by dice, with this dwell, so many
/// calls, and a clock that strides by so many ticks at most.
struct Load {
    moves: Vec<Move>,
    dwell: u32,
    calls: usize,
    stride: usize,
}

/// The next clock value. Whoever was refused for want of a slot waits in four of
/// five cases, to the last tick of the first to leave or, mostly, one tick longer.
fn next(dice: &mut Dice, day: &Day, stride: usize, was_full: bool) -> u32 {
    if was_full && !dice.once_in(5) {
        let last = i64::from(day.first_to_leave().unwrap_or(0));
        return clipped(last + i64::from(!dice.once_in(8)));
    }
    match dice.below(40) {
        0 => day.next(dice, Pace::Mixed),
        1..=4 => day.next(dice, Pace::Still),
        _ => day.next(dice, Pace::Striding(stride)),
    }
}

fn whole_day(dice: &mut Dice, hall: &Hall, load: &Load) -> Case {
    let mut day = Day::new(hall, Book::empty(load.dwell));
    let mut was_full = false;
    for _ in 0..load.calls {
        let now = next(dice, &day, load.stride, was_full);
        let asked = dice.pick(&load.moves);
        let answer = day.call(now, asked);
        was_full = answer.map_or_else(|refusal| refusal.number == 15, |_| false);
    }
    day.told_last()
}

/// Moves from so many lifts into so many chutes, all of them joined and open.
pub fn served(dice: &mut Dice, hall: &Hall, lifts: usize, chutes: usize) -> Vec<Move> {
    let network = Network::of(hall);
    loop {
        let lift = dice.below(network.nodes());
        let reach = network.distances_from(lift);
        let mut nodes: Vec<usize> =
            (0..network.nodes()).filter(|&node| reach[node].is_some()).collect();
        if nodes.len() < lifts + chutes {
            continue;
        }
        dice.shuffle(&mut nodes);
        let (from, to) = (&nodes[..lifts], &nodes[lifts..lifts + chutes]);
        let between = |&start: &usize, goal: usize| Move { start: start as u16, goal: goal as u16 };
        return from.iter().flat_map(|s| to.iter().map(move |&goal| between(s, goal))).collect();
    }
}

fn small_halls(dice: &mut Dice) -> Vec<Hall> {
    let mut halls = vec![line(12), ring(16), grid(16, 4), grid(36, 6), aisles(24, 6), star(9)];
    halls.extend([tree(dice, 20), two_parts(10), line(2), grid(64, 8)]);
    halls.push(with_closed(dice, grid(36, 6), 6));
    halls.push(with_closed(dice, grid(25, 5), 4));
    halls
}

/// Days of thousands of calls in small halls. By turns half as many carriers come
/// as the chutes take, as many, or more.
fn small_days(dice: &mut Dice) -> Vec<Case> {
    let mut cases = Vec::new();
    let dwells = [0, 1, 2, 3, 255, 0, 30, 5, 254, 1, 0, 100];
    for (number, (hall, dwell)) in small_halls(dice).iter().zip(dwells).enumerate() {
        let calls = if number % 3 == 0 { 3000 } else { 1200 };
        let few = 1 + number % 4;
        let moves = match hall.nodes {
            2 => vec![Move { start: 0, goal: 1 }, Move { start: 1, goal: 0 }],
            nodes => served(dice, hall, few.min(nodes as usize / 4), 2),
        };
        let wait = 1 + dwell as usize;
        let stride = [2 * wait, wait, wait / 2][number % 3];
        cases.push(whole_day(dice, hall, &Load { moves, dwell, calls, stride }));
    }
    cases
}

/// A line, a square and 4,096 lanes. On the line two lifts at the left serve two
/// chutes at the right, and at times a carrier comes against them.
fn full_days(dice: &mut Dice) -> Vec<Case> {
    let there = [(0, 1023), (0, 1000), (2, 1023), (2, 1000)];
    let mut moves: Vec<Move> =
        (0..80).map(|turn| there[turn % 4]).map(|(start, goal)| Move { start, goal }).collect();
    moves.push(Move { start: 1023, goal: 0 });
    let mut cases = Vec::new();
    let line = line(1024);
    cases.push(whole_day(dice, &line, &Load { moves, dwell: 3, calls: 2500, stride: 36 }));
    let square = grid(1024, 32);
    let moves = served(dice, &square, 3, 4);
    cases.push(whole_day(dice, &square, &Load { moves, dwell: 0, calls: 2500, stride: 2 }));
    let random = scattered(dice, 1024, 4096);
    let moves = served(dice, &random, 3, 4);
    cases.push(whole_day(dice, &random, &Load { moves, dwell: 1, calls: 2000, stride: 1 }));
    let closed = with_closed(dice, random, 300);
    let moves = served(dice, &closed, 2, 2);
    cases.push(whole_day(dice, &closed, &Load { moves, dwell: 255, calls: 400, stride: 300 }));
    // Many lifts.
    let moves = served(dice, &square, 64, 8);
    cases.push(whole_day(dice, &square, &Load { moves, dwell: 2, calls: 120, stride: 1 }));
    cases
}

/// The line from end to end, by turns there and back: the latest start tick that
/// there can be, 63 times one more than the way and the dwell after now, and
/// then the 65th. Once at the beginning, and once at the end of all time.
fn latest(dwell: u32) -> Vec<Case> {
    let hall = line(1024);
    let ends = [Move { start: 0, goal: 1023 }, Move { start: 1023, goal: 0 }];
    let mut cases = Vec::new();
    for now in [0, LATEST_CLOCK] {
        let mut day = Day::new(&hall, Book::empty(dwell));
        for number in 0..64 {
            let _ = day.call(now, ends[number % 2]);
        }
        let first = day.first_to_leave().unwrap_or(0);
        for now in [now, now + 1, first, first.saturating_add(1), LATEST_CLOCK] {
            let _ = day.call(now, ends[0]);
        }
        cases.push(day.told_last());
    }
    cases
}

pub fn day_cases(dice: &mut Dice) -> Vec<Case> {
    let mut cases = small_days(dice);
    cases.extend(full_days(dice));
    cases.extend([0, 1, 255].into_iter().flat_map(latest));
    cases
}
