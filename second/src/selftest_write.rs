// Writing a job as its text, by hand for page 01's printed job: the bytes, the
// refusals with their places, and what is left in the lent bytes. Then the
// writer is held to the reader both ways, over random jobs and over every
// count of nodes, and to the generator's own texts; and of texts that are too
// long to be written, the beginning to the whole.

use crate::answers::{answer_to_text, printed_to};
use crate::batch::Case;
use crate::dice::Dice;
use crate::job::{refuse, Job, Move, Refusal};
use crate::least_cases::write_again;
use crate::lent_jobs::{Listed, Record, Recorded};
use crate::lent_write;
use crate::page;
use crate::program_texts::{self, longest_job};
use crate::selftest::Checks;
use crate::systematic::PRINTED_JOB;
use crate::text;
use crate::write::{write, LEAST_TEXT};
use crate::write_jobs::{sound_job, sound_jobs};

fn text_of(job: &Job) -> Result<Vec<u8>, Refusal> {
    let mut bytes = vec![1; LEAST_TEXT];
    let length = write(&mut bytes, job)?;
    bytes.truncate(length);
    Ok(bytes)
}

/// Page 01's job, and what behind its 69 bytes is left in 47,242 lent ones.
fn from_numbers(checks: &mut Checks) {
    let written = |out: u16, listed: &Listed| lent_write::again(out, 0, &listed.job()).printed();
    let sound = Listed::of(&page::printed_job());
    let accepted = format!("BYTES 69\n{}out 47073x0 100x77\n", PRINTED_JOB);
    for out in [47_142, 47_143, 47_242] {
        checks.same("written", &written(out, &sound), &accepted);
    }
    for odd in [0, 4, 65_535] {
        let mut listed = sound.clone();
        listed.moves.push(odd);
        checks.same("written, odd moves", &written(47_142, &listed), &accepted);
    }
    for (dwell, bytes, left) in [(1, 77, 47_065), (10, 78, 47_064), (255, 79, 47_063)] {
        let found = written(47_142, &Listed { dwell, ..sound.clone() });
        let text = format!("BYTES {}\n{}DWELL {}\n", bytes, PRINTED_JOB, dwell);
        checks.same("written, a dwell", found, format!("{}out {}x0 100x77\n", text, left));
    }
    for out in [0, 1, 69, 42_000, 47_132, 47_141] {
        let found = written(out, &Listed { order: vec![7], dwell: 256, ..sound.clone() });
        checks.same("written, too few", found.as_str(), "REFUSED 9 0\nout 47242x77\n");
    }
    let refused = |told: &str| format!("REFUSED {}\nout 47142x0 100x77\n", told);
    let mut odd = sound.clone();
    odd.hall.lane_numbers.push(4);
    checks.same("written, odd lanes", written(47_242, &odd), refused("2 1"));
    let again = Listed { order: vec![0, 1, 1], ..sound };
    checks.same("written, refused", written(47_142, &again), refused("7 2"));
    let too_long = Listed { dwell: 256, ..again };
    checks.same("written, a dwell too long", written(47_142, &too_long), refused("2 5"));
    let found = written(47_142, &Listed::of(&page::goal_out_of_reach()));
    let text = "NODES 3\nLANES 1\n0 1\nCARRIERS 1\n0 2\nORDER 1\n0\n";
    let wanted = format!("BYTES 45\n{}out 47097x0 100x77\n", text);
    checks.same("written without a walk", found, wanted);
}

fn from_records(checks: &mut Checks) {
    let job = page::printed_job();
    let record = |asked: &Move| Record { asked: *asked, distance: 9, tick: 65_536 };
    let records: Vec<Record> = job.moves.iter().map(record).collect();
    for (out, order, wanted) in [
        (47_142, [2, 1, 0], "out 47063x0 100x77"),
        (47_142, [2, 1, 3], "REFUSED 7 2\nout 47142x0 100x77"),
        (47_141, [2, 1, 3], "REFUSED 9 0\nout 47242x77"),
    ] {
        let (hall, records, order) = (job.hall.clone(), records.clone(), order.to_vec());
        let is_sound = order[2] == 0;
        let recorded = Recorded { hall, records, order, dwell: 200 };
        let found = lent_write::again(out, 0, &recorded.job()).printed();
        let text = PRINTED_JOB.replace("0\n1\n2\n", "2\n1\n0\nDWELL 200\n");
        let written = if is_sound { format!("BYTES 79\n{}", text) } else { String::new() };
        checks.same("records", found, format!("{}{}\n", written, wanted));
    }
}

/// Each change comes on top of those before it, and its check goes first.
fn refusals(checks: &mut Checks) {
    let changes: &[(&str, fn(&mut Job), u8, usize)] = &[
        ("7", |job| job.order[2] = 0, 7, 2),
        ("7, no carrier", |job| job.order[0] = 3, 7, 0),
        ("5", |job| job.moves[2].goal = 2, 5, 2),
        ("4", |job| job.moves[1].start = 5, 4, 1),
        ("4 before 5", |job| job.moves[0] = Move { start: 5, goal: 5 }, 4, 0),
        ("3, no node", |job| job.hall.lane_numbers[7] = 5, 3, 3),
        ("3, one node", |job| job.hall.lane_numbers[4] = 3, 3, 2),
        ("3, again", |job| job.hall.lane_numbers.copy_within(0..2, 2), 3, 1),
        ("2 dwell", |job| job.dwell = 256, 2, 5),
        ("2 order", |job| job.order.truncate(2), 2, 3),
        ("2 carriers", |job| job.moves.resize(65, Move { start: 0, goal: 1 }), 2, 2),
        ("2 odd lanes", |job| job.hall.lane_numbers.truncate(7), 2, 1),
        ("2 lanes", |job| job.hall.lane_numbers.resize(8194, 0), 2, 1),
        ("2 nodes", |job| job.hall.nodes = 1025, 2, 0),
        ("2 nodes, none", |job| job.hall.nodes = 0, 2, 0),
        ("2 nodes, 65,541", |job| job.hall.nodes = 65_541, 2, 0),
    ];
    let mut spoiled = page::printed_job();
    for (name, change, number, at) in changes {
        change(&mut spoiled);
        checks.same(&format!("writing, {}", name), text_of(&spoiled), refuse(*number, *at));
    }
}

/// What was written reads as the job, what was read is written as it was, and
/// the generator's texts are the same bytes.
fn round_trips(checks: &mut Checks) {
    let mut dice = Dice::new(7);
    let mut jobs = sound_jobs(&mut dice);
    jobs.extend((0..300).map(|_| sound_job(&mut dice)));
    for (number, job) in jobs.iter().enumerate() {
        let text = text_of(job).unwrap_or_default();
        let read = text::read(&text);
        checks.same(&format!("job {}, written and read", number), read.as_ref() == Ok(job), true);
        let same = text == text::write(job);
        checks.same(&format!("job {}, written as generated", number), same, true);
        let again = read.and_then(|job| text_of(&job));
        checks.same(&format!("job {}, read and written", number), again == Ok(text), true);
    }
    let counted = |nodes: u32| {
        let text = format!("NODES {}\nLANES 0\nCARRIERS 0\nORDER 0\n", nodes);
        text_of(&page::job(page::hall(nodes, &[]), &[])) == Ok(text.into_bytes())
    };
    checks.same("every count of nodes", (1..=1024).filter(|&nodes| counted(nodes)).count(), 1024);
    checks.same("the longest text", text_of(&longest_job()).map(|text| text.len()), Ok(42_027));
}

/// A text with a dwell and no carriers.
const DWELLING: &str = "NODES 1\nLANES 0\nCARRIERS 0\nORDER 0\nDWELL 100\n";

/// The kind that reads a text and writes it again.
fn texts(checks: &mut Checks) {
    let printed = PRINTED_JOB.as_bytes();
    checks.same("the bytes", text_of(&page::printed_job()), Ok(printed.to_vec()));
    let accepted = format!("BYTES 69\n{}out 47073x0 100x77\n", PRINTED_JOB);
    let dwelling = format!("BYTES 45\n{}out 47097x0 100x77\n", DWELLING);
    for (readings, writings, text, wanted) in [
        (0, 0, PRINTED_JOB, accepted.as_str()),
        (2, 0, PRINTED_JOB, &accepted),
        (0, 3, PRINTED_JOB, &accepted),
        (1, 0, &PRINTED_JOB[..68], "REFUSED 1 14\n"),
        (0, 1, "NODES 05\n", "REFUSED 1 1\n"),
        (0, 0, "NODES 1\nLANES 0\nCARRIERS 0\nORDER 1\n", "REFUSED 2 4\n"),
        (2, 3, DWELLING, &dwelling),
    ] {
        let found = printed_to(&write_again(readings, writings, text.as_bytes().to_vec()));
        checks.same("read and written", found.as_str(), wanted);
    }
    // A text that is not read is refused before bytes that are too few.
    for (text, wanted) in
        [(PRINTED_JOB, "REFUSED 9 0\nout 47242x77\n"), (&PRINTED_JOB[..68], "REFUSED 1 14\n")]
    {
        let text = text.as_bytes().to_vec();
        let found = printed_to(&Case::WriteText { out: 47_141, readings: 1, writings: 1, text });
        checks.same("read and written, too few", found.as_str(), wanted);
    }
}

/// Of a text that is longer than the bound by more than a byte, so many bytes
/// alone have the answer of the whole.
fn long_texts(checks: &mut Checks) {
    let long = program_texts::texts().into_iter().filter(|text| text.len() > LEAST_TEXT + 1);
    for text in long {
        let whole = answer_to_text(&text).printed();
        checks.prints("the beginning of a long text", &text[..LEAST_TEXT + 1], &whole);
    }
}

pub fn run(checks: &mut Checks) {
    texts(checks);
    from_numbers(checks);
    from_records(checks);
    refusals(checks);
    round_trips(checks);
    long_texts(checks);
}
