// Damaged sections of closed nodes in a job text, every kind that we know of:
// the count line, the entries, the section at another place of the text or
// twice, and ends of carriers that are closed. Some of these texts are sound.
// Then every fault that a byte in or near the section can have, and each damage
// of form on each of its lines.

use crate::damage_closed::CLOSED_DAMAGES;
use crate::damage_form::FORM_DAMAGES;
use crate::dice::Dice;
use crate::draft::Draft;
use crate::job::Job;
use crate::page;
use crate::systematic::spoiled_bytes_in;
use crate::text;

/// What can stand in the place of `CLOSED 3` before the entries 1, 5 and 7. Here
/// and below a bar parts one from the next, and a comma stands for a line feed.
const COUNT_LINES: &str = "CLOSED 3|CLOSED|CLOSED |CLOSED 0|CLOSED 00|CLOSED 03|CLOSED 003|\
    CLOSED 0003|CLOSED 00003|CLOSED 1|CLOSED 2|CLOSED 4|CLOSED 6|CLOSED 7|CLOSED 12|CLOSED 13|\
    CLOSED 1024|CLOSED 1025|CLOSED 4096|CLOSED 9999|CLOSED 10000|CLOSED 65539|CLOSED 4294967299|\
    CLOSED -3|CLOSED +3|CLOSED 3.|CLOSED 3 | CLOSED 3|CLOSED  3|CLOSED\t3|CLOSED3|CLOSED 3 3|\
    CLOSED 3 1|CLOSED 3\r|CLOSED 3\0|CLOSED x|CLOSED :|CLOSED /|closed 3|Closed 3|CLOSEd 3|\
    CLOSED: 3|CLOSE 3|CLOSEDS 3|CLOSING 3|LOSED 3|COLSED 3|C 3|CLOSED CLOSED 3|3|CARRIERS 3|\
    CARRIERS 0|LANES 3|NODES 3|ORDER 3|";

/// What can stand in the place of the entries: one or all missing, one too many,
/// entries that do not rise, and entries that are no node, at each place.
const ENTRIES: &str = "1,5|1||1,5,7,8|1,5,7,11|1,5,7,7|1,1,7|1,5,5|7,7,7|5,1,7|1,7,5|7,5,1|5,7,1|\
    0,0,0|1,0,7|1,5,4|1,5,8|1,2,4|1,5,6|12,5,7|1,12,7|1,5,12|13,14,15|1,5,1023|1,5,1024|1,5,9999|\
    1,12,12|12,12,12|1,9999,5";

/// Entries that lack their form, some in a line that has a fault of value too.
const FORMLESS: &str = "1 5,7|1,5 7|1 5 7|1,5,7 8|1,,5,7|,1,5,7|1,5,,7|1,5,7,| 1,5,7|1, 5,7|\
    1,5 ,7|1,5,7 |01,5,7|1,05,7|1,5,07|1,5,0007|1,5,00007|1,5,10000|1,5,65543|1,5,7\r|\
    1\r,5\r,7\r|1,x,7|1,5,x|1,-5,7|1,+5,7|1,5,7X|1,5,:|1,5,/|1,5,CLOSED|1,CLOSED 2,5|\
    1,5,CARRIERS 3|1,1 1,7|12 ,5,7|1,5,012|1,01,7|1,5,5 5|1,5\t,7|1,5;7";

/// Whole sections: ends of carriers are closed, walks are cut, or the section
/// comes twice.
const SECTIONS: &str = "CLOSED 1,0|CLOSED 1,3|CLOSED 1,9|CLOSED 1,11|CLOSED 2,0,3|CLOSED 2,9,11|\
    CLOSED 12,0,1,2,3,4,5,6,7,8,9,10,11|CLOSED 11,0,1,2,3,4,5,6,7,8,9,10|CLOSED 1,10|\
    CLOSED 2,1,4|CLOSED 6,1,2,4,5,6,7|CLOSED 1,8|CLOSED 2,7,10|CLOSED 1,5|\
    CLOSED 0,CLOSED 3,1,5,7|CLOSED 3,1,5,7,CLOSED 3,1,5,7|CLOSED 3,CLOSED 3,1,5,7|\
    CLOSED 1,1,CLOSED 1,5|CLOSED 3,1,5,7,LANES 0|CLOSED 3,1,5,7,CARRIERS 0,ORDER 0";

/// Moves that stand in the place of the first two, with faults that come
/// before 13 or not: node 12 is none, and nodes 1, 5 and 7 are closed.
const MOVES: &str = "1 3,3 0|0 1,3 0|1 5,3 0|7 1,3 0|0 3,5 0|0 3,3 7|0 3,1 7|1 1,3 0|1 12,3 0|\
    12 1,3 0|0 3,5 5|0 3,5 12|0 0,1 3|1 3,0 0|0 12,1 3|1 3,12 0|1 3,1 3|1 3,7 7|1 3,01 3|\
    01 3,1 3|1 3 ,3 0|1 3,3|0 3,0 5,0 5|1 3";

fn lines(text: &str) -> String {
    text.replace(',', "\n") + "\n"
}

/// The parts of the text: all before the section, and all behind it.
fn around(job: &Job) -> (String, String) {
    let draft = Draft::of(job.clone());
    let part = |lines: &[Vec<u8>]| String::from_utf8(text::join(lines)).expect("a text");
    let before = part(&draft.lines[..draft.line_of_closed()]);
    (before, part(&draft.lines[draft.line_of_carriers()..]))
}

fn changed_sections(job: &Job) -> Vec<Vec<u8>> {
    let (before, behind) = around(job);
    let with = |section: String| [&before[..], &section, &behind].concat().into_bytes();
    let mut texts = vec![with(String::new())];
    for count_line in COUNT_LINES.split('|') {
        texts.push(with(format!("{}\n1\n5\n7\n", count_line)));
        texts.push(with(format!("{}\n", count_line)));
    }
    for entries in ENTRIES.split('|').chain(FORMLESS.split('|')) {
        texts.push(with("CLOSED 3\n".to_string() + &lines(entries)));
    }
    texts.extend(SECTIONS.split('|').map(|section| with(lines(section))));
    // No line feed behind a line of the section.
    texts.extend(["CLOSED 3", "CLOSED 3\n1\n5\n7", "CLOSED 1\n5"].map(|cut| with(cut.to_string())));
    texts
}

fn changed_moves(job: &Job) -> Vec<Vec<u8>> {
    let whole = String::from_utf8(text::write(job)).expect("a text");
    let with = |moves: &str| whole.replacen("0 3\n3 0\n", &lines(moves), 1).into_bytes();
    MOVES.split('|').map(with).collect()
}

/// The section behind each line of the text, and before the first: once as the
/// only one, and once beside the one in its place.
fn moved_sections(job: &Job) -> Vec<Vec<u8>> {
    let draft = Draft::of(job.clone());
    let own = draft.line_of_closed()..draft.line_of_carriers();
    let section = draft.lines[own.clone()].to_vec();
    let mut rest = draft.lines.clone();
    rest.drain(own);
    let mut texts = Vec::new();
    for base in [&rest, &draft.lines] {
        for at in 0..=base.len() {
            texts.push(text::join(&[&base[..at], &section, &base[at..]].concat()));
        }
    }
    texts
}

/// Each damage of form on each line of the section and on the one behind it,
/// and on the line of each damage to do with closed nodes.
fn spoiled_lines(job: &Job, dice: &mut Dice) -> Vec<Vec<u8>> {
    let mut texts = Vec::new();
    for form_damage in FORM_DAMAGES {
        let sound = Draft::of(job.clone());
        for line in sound.line_of_closed()..=sound.line_of_carriers() {
            let mut lines = sound.lines.clone();
            form_damage(&mut lines[line], dice);
            texts.push(text::join(&lines));
        }
        for damage in CLOSED_DAMAGES {
            let mut draft = Draft::of(job.clone());
            let line = damage(&mut draft, dice);
            texts.push(text::join(&draft.lines));
            form_damage(&mut draft.lines[line], dice);
            texts.push(text::join(&draft.lines));
        }
    }
    texts
}

/// The texts with a damaged section, of all kinds but those of single bytes.
pub fn section_texts() -> Vec<Vec<u8>> {
    let job = page::plates_taken_up();
    [changed_sections(&job), changed_moves(&job), moved_sections(&job)].concat()
}

/// The texts with a fault of a byte or of form in the section or next to it.
pub fn spoiled_texts(dice: &mut Dice) -> Vec<Vec<u8>> {
    let job = page::plates_taken_up();
    let (before, behind) = around(&job);
    let sound = text::write(&job);
    let section = before.len() - 1..sound.len() - behind.len() + "CARRIERS 3\n".len();
    let mut texts = spoiled_bytes_in(&sound, section);
    texts.extend(spoiled_lines(&job, dice));
    texts
}
