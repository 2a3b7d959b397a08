// The cases of the rules, and faults put into page 01's printed job at every
// place there is: cut off after each byte, each byte left out, and at each
// place a byte of each of the five kinds put in or put over what stands there.
// Then each damage of form on each line, and on the line of each damaged
// entry, where the form must come first.

use crate::batch::Case;
use crate::damage_entries::ENTRY_DAMAGES;
use crate::damage_form::FORM_DAMAGES;
use crate::dice::Dice;
use crate::draft::Draft;
use crate::page;
use crate::text;
use std::ops::Range;

pub const PRINTED_JOB: &str = "NODES 5\nLANES 4\n0 1\n1 2\n2 3\n3 4\n\
    CARRIERS 3\n0 4\n4 0\n2 1\nORDER 3\n0\n1\n2\n";

/// Digits at both ends of their range, the bytes next to that range, and the
/// other four kinds.
const BYTES: &[u8] = b"0179/: \nANa\r\0\xff";

/// Cut off in front of each byte of a part of a text, and each fault that a
/// byte of that part can have.
pub fn spoiled_bytes_in(sound: &[u8], part: Range<usize>) -> Vec<Vec<u8>> {
    let mut texts: Vec<Vec<u8>> = part.clone().map(|end| sound[..end].to_vec()).collect();
    for at in part {
        texts.push([&sound[..at], &sound[at + 1..]].concat());
        for &byte in BYTES {
            texts.push([&sound[..at], &[byte], &sound[at + 1..]].concat());
            texts.push([&sound[..at], &[byte], &sound[at..]].concat());
        }
    }
    texts
}

/// The same for a whole text, then the text as it is and with a byte more.
pub fn spoiled_bytes(sound: &[u8]) -> Vec<Vec<u8>> {
    let mut texts = spoiled_bytes_in(sound, 0..sound.len());
    texts.push(sound.to_vec());
    for &byte in BYTES {
        texts.push([sound, &[byte]].concat());
    }
    texts
}

fn spoiled_lines(sound: &[u8], dice: &mut Dice) -> Vec<Vec<u8>> {
    let job = text::read(sound).expect("the printed job is sound");
    let mut texts = Vec::new();
    for form_damage in FORM_DAMAGES {
        for line in 0..Draft::of(job.clone()).lines.len() {
            let mut draft = Draft::of(job.clone());
            form_damage(&mut draft.lines[line], dice);
            texts.push(text::join(&draft.lines));
        }
        for entry_damage in ENTRY_DAMAGES {
            let mut draft = Draft::of(job.clone());
            let line = entry_damage(&mut draft, dice);
            texts.push(text::join(&draft.lines));
            form_damage(&mut draft.lines[line], dice);
            texts.push(text::join(&draft.lines));
        }
    }
    texts
}

pub fn systematic_cases(dice: &mut Dice) -> Vec<Case> {
    let sound = PRINTED_JOB.as_bytes();
    let mut texts: Vec<Vec<u8>> =
        page::cases().iter().map(|(_, job, _)| text::write(job)).collect();
    texts.extend(page::shared_cases().iter().map(|(job, _, _)| text::write(job)));
    texts.extend(spoiled_bytes(sound));
    texts.extend(spoiled_lines(sound, dice));
    texts.into_iter().map(|text| Case::Plan { text }).collect()
}
