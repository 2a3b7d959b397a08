// Texts with a last line for the dwell, sound and damaged in every way that we
// know of: what else can stand behind the order, the line at every other place of
// the text, every fault that a byte of it can have, and each damage of form on it.
// Each is put into three texts: with carriers, without any, and with closed nodes.

use crate::damage_dwell::DWELL_DAMAGES;
use crate::damage_form::FORM_DAMAGES;
use crate::dice::Dice;
use crate::draft::Draft;
use crate::job::Job;
use crate::page;
use crate::systematic::spoiled_bytes_in;
use crate::text;

/// What can stand behind the order: numbers of all lengths first, those that are
/// dwells among them. Here and below a bar parts one from the next, and a comma
/// stands for a line feed.
const NUMBERS: &str = "|DWELL 1,|DWELL 2,|DWELL 9,|DWELL 10,|DWELL 19,|DWELL 99,|DWELL 100,|\
    DWELL 199,|DWELL 200,|DWELL 249,|DWELL 250,|DWELL 254,|DWELL 255,|DWELL 256,|DWELL 257,|\
    DWELL 260,|DWELL 300,|DWELL 511,|DWELL 512,|DWELL 999,|DWELL 1000,|DWELL 1024,|DWELL 2550,|\
    DWELL 9999,|DWELL 0,|DWELL 00,|DWELL 000,|DWELL 0000,|DWELL 00000,|DWELL 01,|DWELL 001,|\
    DWELL 0001,|DWELL 00001,|DWELL 02,|DWELL 0255,|DWELL 0256,|DWELL 10000,|DWELL 65536,|\
    DWELL 65537,|DWELL 4294967297,|DWELL 18446744073709551617,";

/// Lines that lack the form, some with a number that is no dwell either.
const FORMLESS: &str = "DWELL,|DWELL ,|DWELL|DWELL |DWELL 2|DWELL 0|DWELL 255|DWELL 256|DWELL 2 ,|\
    DWELL 0 ,| DWELL 2,|DWELL  2,|DWELL\t2,|DWELL2,|DWELL 2 2,|DWELL 2 0,|DWELL 0 2,|\
    DWELL 2 DWELL 2,|DWELL 2\r,|DWELL 2\0,|DWELL\r 2,|DWELL -2,|DWELL +2,|DWELL 2.,|DWELL 2.0,|\
    DWELL x,|DWELL :,|DWELL /,|DWELL 2x,|DWELL 2:,|DWELL 2/,|DWELL 2X,|DWELL X2,|dwell 2,|Dwell 2,|\
    DWELl 2,|DWELLS 2,|DWEL 2,|DWELLL 2,|WELL 2,|DWLEL 2,|DWELT 2,|D 2,|DWELL: 2,|DWELL=2,|\
    DWELL DWELL 2,|2,|0,|2|2 2,|x|x,|\0|\r,| |,| ,|\u{663},|DWELL \u{662},";

/// Other words, and more lines than one. Only one may stand, and nothing behind.
const LINES: &str = "NODES 2,|LANES 2,|LANES 0,|CLOSED 2,|CLOSED 1,0,|CLOSED 0,|CARRIERS 0,|\
    CARRIERS 2,|ORDER 2,|ORDER 0,|WAIT 2,|DWELL 2,DWELL 2,|DWELL 2,DWELL 0,|DWELL 0,DWELL 2,|\
    DWELL 2,DWELL 3,|DWELL 256,DWELL 2,|DWELL 2,DWELL 256,|DWELL 2,0,|DWELL 2,CLOSED 1,0,|\
    CLOSED 1,0,DWELL 2,|DWELL 2,ORDER 0,|DWELL 2,,|,DWELL 2,|DWELL 2,,DWELL 2,|DWELL 2,DWELL 2|\
    DWELL 2, |DWELL 2,0|DWELL 2,x|DWELL 2,\0|DWELL 2,\r,|DWELL 0,x|DWELL 256,x|DWELL 02,x|\
    DWELL,2,|DWELL 2,NODES 1,LANES 0,CARRIERS 0,ORDER 0,";

/// The jobs that the lines are put behind, with these dwells or with none.
fn bases(dwells: [u32; 3]) -> [Job; 3] {
    let [some, none, closed] = dwells;
    [
        page::dwelling(some, page::printed_job()),
        page::dwelling(none, page::job(page::hall(1, &[]), &[])),
        page::dwelling(closed, page::plates_taken_up()),
    ]
}

fn ends_behind(job: &Job) -> Vec<Vec<u8>> {
    let all = NUMBERS.split('|').chain(FORMLESS.split('|')).chain(LINES.split('|'));
    all.map(|end| [&text::write(job)[..], end.replace(',', "\n").as_bytes()].concat()).collect()
}

/// The line behind each line of the text, before the first, and in the place of
/// each: as the only one, and beside the one that stands last.
fn moved_lines(job: &Job) -> Vec<Vec<u8>> {
    let line = b"DWELL 2".to_vec();
    let mut texts = Vec::new();
    for dwell in [0, 2] {
        let lines = text::lines_of(&page::dwelling(dwell, job.clone()));
        for at in 0..=lines.len() {
            let mut with = lines.clone();
            with.insert(at, line.clone());
            texts.push(text::join(&with));
            if at < lines.len() {
                with.remove(at + 1);
                texts.push(text::join(&with));
            }
        }
    }
    texts
}

/// Each damage of form on the line and on the one before it.
fn spoiled_lines(job: &Job, dice: &mut Dice) -> Vec<Vec<u8>> {
    let mut texts = Vec::new();
    for form_damage in FORM_DAMAGES {
        for back in [1, 2] {
            let mut lines = text::lines_of(job);
            let line = lines.len() - back;
            form_damage(&mut lines[line], dice);
            texts.push(text::join(&lines));
        }
    }
    texts
}

/// Each damage to do with the dwell, and each damage of form on top of it.
fn twice_spoiled(job: &Job, dice: &mut Dice) -> Vec<Vec<u8>> {
    let mut texts = Vec::new();
    for form_damage in FORM_DAMAGES {
        for damage in DWELL_DAMAGES {
            let mut draft = Draft::of(job.clone());
            let line = damage(&mut draft, dice);
            texts.push(text::join(&draft.lines));
            form_damage(&mut draft.lines[line], dice);
            texts.push(text::join(&draft.lines));
        }
    }
    texts
}

/// Faults before the line of the dwell, which decide, and one that is found only
/// when the job is planned.
fn faults_before() -> Vec<Vec<u8>> {
    let spoil = |change: fn(&mut Job)| {
        [2, 256].map(|dwell| {
            let mut job = page::dwelling(dwell, page::plates_taken_up());
            change(&mut job);
            text::write(&job)
        })
    };
    let spoiled: &[fn(&mut Job)] = &[
        |job| job.hall.nodes = 0,
        |job| job.hall.lane_numbers[1] = 12,
        |job| job.hall.closed[2] = 12,
        |job| job.moves[2].goal = 12,
        |job| job.moves[2].goal = 9,
        |job| job.moves[2].goal = 7,
        |job| job.order[2] = 1,
        |job| job.order[2] = 3,
        |job| job.order.push(0),
        |job| job.hall.closed = vec![1, 4, 5, 7],
    ];
    spoiled.iter().flat_map(|&change| spoil(change)).collect()
}

/// The texts with a damaged line, of all kinds but those of single bytes.
pub fn line_texts() -> Vec<Vec<u8>> {
    let mut texts = Vec::new();
    for job in bases([0; 3]) {
        texts.extend(ends_behind(&job));
        texts.extend(moved_lines(&job));
    }
    texts.extend(faults_before());
    texts
}

/// The texts with a fault of a byte or of form in the line or next to it.
pub fn spoiled_texts(dice: &mut Dice) -> Vec<Vec<u8>> {
    let mut texts = Vec::new();
    for job in bases([250, 16, 2]) {
        let sound = text::write(&job);
        let line = format!("\nDWELL {}\n", job.dwell);
        texts.extend(spoiled_bytes_in(&sound, sound.len() - line.len()..sound.len()));
        texts.extend(spoiled_lines(&job, dice));
    }
    texts.extend(twice_spoiled(&page::printed_job(), dice));
    texts
}
