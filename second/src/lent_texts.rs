// Reading with lent tables: texts that are accepted, and one or more for each
// refusal of reading, with every table at its least length, one short, and
// longer.

use crate::batch::Case;
use crate::closing::with_closed;
use crate::dice::Dice;
use crate::halls::{grid, job_apart, job_over, scattered};
use crate::lent_lengths::{least, length_rows, BYTES, FOR_MOVES, FOR_RECORDS};
use crate::page;
use crate::program_texts::longest_job;
use crate::systematic::PRINTED_JOB;
use crate::text;

/// Texts that are accepted, and one or more for each refusal of reading, with
/// the fault early and late.
pub fn texts(dice: &mut Dice) -> Vec<Vec<u8>> {
    let full = scattered(dice, 1024, 4096);
    let mut texts: Vec<Vec<u8>> =
        page::cases().iter().map(|(_, job, _)| text::write(job)).collect();
    texts.push(text::write(&job_apart(dice, grid(64, 8), 64, true)));
    texts.push(text::write(&job_over(dice, full, 64, true)));
    for spoiled in [
        ("NODES 5", "NODES 05"),
        ("NODES 5", "NODES 0"),
        ("NODES 5", "NODES 1025"),
        ("LANES 4", "LANES 4097"),
        ("CARRIERS 3", "CARRIERS 65"),
        ("ORDER 3", "ORDER 2"),
        ("0 1\n1 2", "1 0\n1 2"),
        ("2 3\n3 4", "3 4\n3 4"),
        ("3 4\nC", "3 5\nC"),
        ("4 0\n2 1", "4 5\n2 1"),
        ("4 0\n2 1", "4 0\n2 2"),
        // A goal stands twice, which is no fault.
        ("4 0\n2 1", "4 0\n2 0"),
        ("0\n1\n2\n", "0\n1\n3\n"),
        ("0\n1\n2\n", "0\n1\n1\n"),
        ("0\n1\n2\n", "0\n1\n"),
        ("0\n1\n2\n", "0\n1\n2"),
        ("0\n1\n2\n", "0\n1\n2\n\n"),
    ] {
        texts.push(PRINTED_JOB.replacen(spoiled.0, spoiled.1, 1).into_bytes());
    }
    texts.extend(texts_with_closed(dice));
    texts.extend(texts_with_dwell());
    texts.push(Vec::new());
    texts
}

/// Texts with closed nodes: few, all of them, and refused in the section or at
/// a closed end.
fn texts_with_closed(dice: &mut Dice) -> Vec<Vec<u8>> {
    let mut all_closed = page::job(page::hall(1024, &[]), &[]);
    all_closed.hall.closed = (0..1024).collect();
    let partly = with_closed(dice, grid(1024, 32), 300);
    let sound = page::plates_taken_up();
    let mut texts = vec![text::write(&sound), text::write(&all_closed)];
    texts.push(text::write(&longest_job()));
    texts.push(text::write(&job_over(dice, partly, 8, true)));
    let whole = String::from_utf8(text::write(&sound)).expect("a text");
    for spoiled in [
        ("CLOSED 3\n1\n5\n7\n", "CLOSED 0\n"),
        ("CLOSED 3", "CLOSED 1025"),
        ("CLOSED 3", "CLOSED 4"),
        ("CLOSED 3", "CLOSED 03"),
        ("1\n5\n7\n", "12\n5\n7\n"),
        ("1\n5\n7\n", "1\n5\n5\n"),
        ("1\n5\n7\n", "1\n5 7\n"),
        ("0 3\n3 0", "1 3\n3 0"),
        ("9 11", "9 7"),
        ("0\n1\n2\n", "0\n1\n1\n"),
    ] {
        texts.push(whole.replacen(spoiled.0, spoiled.1, 1).into_bytes());
    }
    texts
}

/// Texts with a dwell: short and long ones, in the longest text too, and refused
/// in their last line or behind it.
fn texts_with_dwell() -> Vec<Vec<u8>> {
    let mut texts: Vec<Vec<u8>> =
        page::dwell_cases().iter().map(|(job, _, _)| text::write(job)).collect();
    texts.push(text::write(&page::dwelling(10, page::plates_taken_up())));
    texts.push(text::write(&page::dwelling(99, page::goal_out_of_reach())));
    texts.push(text::write(&page::dwelling(0, longest_job())));
    for end in [
        "DWELL 0\n",
        "DWELL 256\n",
        "DWELL 9999\n",
        "DWELL 02\n",
        "DWELL 2",
        "DWELL 2\n\n",
        "DWELL 2\nDWELL 2\n",
        "DWELLS 2\n",
    ] {
        texts.push([PRINTED_JOB, end].concat().into_bytes());
    }
    texts
}

pub fn text_cases(dice: &mut Dice) -> Vec<Case> {
    let mut cases = Vec::new();
    for text in texts(dice) {
        for lent in length_rows(FOR_RECORDS) {
            cases.push(Case::ReadRecords { lent, text: text.clone() });
        }
        for lent in length_rows(FOR_MOVES) {
            cases.push(Case::ReadMoves { lent, text: text.clone() });
        }
        for [out] in length_rows([BYTES]) {
            cases.push(Case::PrintTo { out, text: text.clone() });
        }
    }
    cases.extend(closed_lengths());
    cases
}

/// Many lengths of the list of closed nodes alone, with a text that has some,
/// one that has none and one that is refused at its last closed node.
fn closed_lengths() -> Vec<Case> {
    let sound = text::write(&page::plates_taken_up());
    let spoiled = String::from_utf8_lossy(&sound).replace("5\n7\nC", "5\n5\nC").into_bytes();
    let mut cases = Vec::new();
    for closed in [0, 1, 2, 3, 4, 100, 512, 1000, 1022, 1023, 1024, 1025, 1026, 1050, 1099, 1100] {
        for text in [&sound, PRINTED_JOB.as_bytes(), &spoiled[..]] {
            let (mut records, mut moves) = (least(FOR_RECORDS), least(FOR_MOVES));
            records[1] = closed;
            moves[1] = closed;
            cases.push(Case::ReadRecords { lent: records, text: text.to_vec() });
            cases.push(Case::ReadMoves { lent: moves, text: text.to_vec() });
        }
    }
    cases
}
