// Faults in jobs from numbers: each fault of an entry, to be put at any place
// of its section, and each fault of a count. Jobs are made with each of them by
// itself and with any two at once, where the order of checks decides, and with
// each of them beside a dwell. Nothing here says which refusal comes out.

use crate::closing::{close_free, free_nodes};
use crate::dice::Dice;
use crate::dwelling::TOO_LONG_DWELLS;
use crate::halls::ample_job;
use crate::job::{Job, Move};
use crate::page;

/// Spoils the entry at a place of its section. Each section has two entries or
/// more.
type EntryFault = fn(&mut Job, usize);

/// The entry before, or for the first the one behind it.
fn beside(place: usize) -> usize {
    if place == 0 {
        1
    } else {
        place - 1
    }
}

const LANE_FAULTS: &[EntryFault] = &[
    |job, lane| job.hall.lane_numbers[2 * lane] = job.hall.nodes as u16,
    |job, lane| job.hall.lane_numbers[2 * lane + 1] = job.hall.nodes as u16,
    |job, lane| job.hall.lane_numbers[2 * lane + 1] = 65_535,
    |job, lane| job.hall.lane_numbers.swap(2 * lane, 2 * lane + 1),
    |job, lane| job.hall.lane_numbers[2 * lane] = job.hall.lane_numbers[2 * lane + 1],
    // The lane beside it stands again, and the two change places.
    |job, lane| {
        let from = 2 * beside(lane);
        job.hall.lane_numbers.copy_within(from..from + 2, 2 * lane);
    },
    |job, lane| {
        job.hall.lane_numbers.swap(2 * lane, 2 * beside(lane));
        job.hall.lane_numbers.swap(2 * lane + 1, 2 * beside(lane) + 1);
    },
];

const CLOSED_FAULTS: &[EntryFault] = &[
    |job, place| job.hall.closed[place] = job.hall.nodes as u16,
    |job, place| job.hall.closed[place] = 65_535,
    |job, place| job.hall.closed[place] = job.hall.closed[beside(place)],
    |job, place| job.hall.closed.swap(place, beside(place)),
];

const MOVE_FAULTS: &[EntryFault] = &[
    |job, carrier| job.moves[carrier].start = job.hall.nodes as u16,
    |job, carrier| job.moves[carrier].goal = job.hall.nodes as u16,
    |job, carrier| job.moves[carrier] = Move { start: 65_535, goal: 65_535 },
    |job, carrier| job.moves[carrier].goal = job.moves[carrier].start,
    // A closed start, a closed goal, both, both the same, and an end that is no
    // node beside a closed one.
    |job, carrier| job.moves[carrier].start = job.hall.closed[0],
    |job, carrier| job.moves[carrier].goal = job.hall.closed[0],
    |job, carrier| {
        job.moves[carrier] = Move { start: job.hall.closed[1], goal: job.hall.closed[0] };
    },
    |job, carrier| {
        job.moves[carrier] = Move { start: job.hall.closed[1], goal: job.hall.closed[1] };
    },
    |job, carrier| {
        job.moves[carrier] = Move { start: job.hall.closed[0], goal: job.hall.nodes as u16 };
    },
];

const ORDER_FAULTS: &[EntryFault] = &[
    |job, place| job.order[place] = job.order.len() as u16,
    |job, place| job.order[place] = 65_535,
    |job, place| job.order[place] = job.order[beside(place)],
];

/// Counts that no job may have, one node, which leaves no lane sound, and all
/// nodes closed. A node count above 65,535 would pass if its upper half were
/// lost on the way.
const COUNT_FAULTS: &[fn(&mut Job)] = &[
    |job| job.hall.nodes = 1,
    |job| job.hall.nodes = 0,
    |job| job.hall.nodes = 1025,
    |job| job.hall.nodes = 65_535,
    |job| job.hall.nodes = 65_536,
    |job| job.hall.nodes += 65_536,
    |job| job.hall.nodes = u32::MAX,
    // An odd list of lanes, even if what comes before its end is sound.
    |job| job.hall.lane_numbers.push(0),
    |job| {
        job.hall.lane_numbers.pop();
    },
    |job| job.hall.lane_numbers.resize(8191, 7),
    |job| job.hall.lane_numbers.resize(8193, 7),
    |job| job.hall.lane_numbers.resize(8194, 7),
    // Too many closed nodes, rising and not, and all nodes, ends too.
    |job| job.hall.closed = (0..1025).collect(),
    |job| job.hall.closed.resize(1025, 7),
    |job| job.hall.closed.resize(1100, 65_535),
    |job| job.hall.closed = (0..job.hall.nodes.min(1024) as u16).collect(),
    |job| with_carriers(job, 65, 65),
    |job| with_carriers(job, 80, 80),
    |job| with_carriers(job, 65, 64),
    |job| with_carriers(job, 64, 65),
    |job| {
        job.order.pop();
    },
    |job| job.order.push(0),
    |job| job.order.clear(),
    |job| job.order.resize(100, 0),
];

/// So many carriers, the last of them with the last move, and so many places.
fn with_carriers(job: &mut Job, carriers: usize, places: u16) {
    let last = job.moves[job.moves.len() - 1];
    job.moves.resize(carriers, last);
    job.order = (0..places).collect();
}

/// A fault of an entry of some section, or of a count.
#[derive(Clone, Copy)]
enum Fault {
    Lane(EntryFault),
    Closed(EntryFault),
    Move(EntryFault),
    Order(EntryFault),
    Count(fn(&mut Job)),
}

impl Fault {
    /// All faults. Those of counts come last, since after them an entry may be
    /// gone.
    fn all() -> Vec<Fault> {
        let lanes = LANE_FAULTS.iter().map(|&fault| Fault::Lane(fault));
        let closed = CLOSED_FAULTS.iter().map(|&fault| Fault::Closed(fault));
        let moves = MOVE_FAULTS.iter().map(|&fault| Fault::Move(fault));
        let order = ORDER_FAULTS.iter().map(|&fault| Fault::Order(fault));
        let counts = COUNT_FAULTS.iter().map(|&fault| Fault::Count(fault));
        lanes.chain(closed).chain(moves).chain(order).chain(counts).collect()
    }

    /// How many places the fault can be put at.
    fn places(self, job: &Job) -> usize {
        match self {
            Fault::Lane(_) => job.hall.lane_numbers.len() / 2,
            Fault::Closed(_) => job.hall.closed.len(),
            Fault::Move(_) => job.moves.len(),
            Fault::Order(_) => job.order.len(),
            Fault::Count(_) => 1,
        }
    }

    fn put(self, job: &mut Job, place: usize) {
        match self {
            Fault::Lane(fault)
            | Fault::Closed(fault)
            | Fault::Move(fault)
            | Fault::Order(fault) => fault(job, place),
            Fault::Count(fault) => fault(job),
        }
    }
}

/// A larger job in which some nodes are closed that are no ends.
pub fn larger_job(dice: &mut Dice) -> Job {
    loop {
        let mut job = ample_job(dice, 48);
        if free_nodes(&job).len() >= 3 {
            close_free(dice, &mut job, 5);
            return job;
        }
    }
}

/// A job with each fault by itself, at the first, a middle and the last place.
pub fn single_faults(base: &Job) -> Vec<Job> {
    let mut jobs = Vec::new();
    for fault in Fault::all() {
        let places = fault.places(base);
        let tried = [0, places / 2, places - 1];
        for &place in if places == 1 { &tried[..1] } else { &tried[..] } {
            let mut job = base.clone();
            fault.put(&mut job, place);
            jobs.push(job);
        }
    }
    jobs
}

/// Any two faults in a small job, each at a place that the dice find; a fault
/// comes twice in one job, too.
pub fn double_faults(dice: &mut Dice) -> Vec<Job> {
    let base = page::plates_taken_up();
    let faults = Fault::all();
    let mut jobs = Vec::new();
    for (number, one) in faults.iter().enumerate() {
        for other in &faults[number..] {
            let mut job = base.clone();
            for fault in [one, other] {
                let place = dice.below(fault.places(&base));
                fault.put(&mut job, place);
            }
            jobs.push(job);
        }
    }
    jobs
}

/// A small job with each fault, at a place that the dice find, and this dwell.
pub fn faults_beside(dice: &mut Dice, dwell: u32) -> Vec<Job> {
    let base = Job { dwell, ..page::plates_taken_up() };
    let mut jobs = Vec::new();
    for fault in Fault::all() {
        let mut job = base.clone();
        fault.put(&mut job, dice.below(fault.places(&base)));
        jobs.push(job);
    }
    jobs
}

/// A small job with each dwell that is too long and no other fault.
pub fn too_long_dwells() -> Vec<Job> {
    TOO_LONG_DWELLS.map(|dwell| Job { dwell, ..page::plates_taken_up() }).to_vec()
}

/// A small job with each fault, at the first place.
pub fn faulty_jobs() -> Vec<Job> {
    let spoiled = |fault: Fault| {
        let mut job = page::plates_taken_up();
        fault.put(&mut job, 0);
        job
    };
    Fault::all().into_iter().map(spoiled).collect()
}
