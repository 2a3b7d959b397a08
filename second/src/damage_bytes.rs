// Ways to spoil bytes of a job text, wherever they stand: its end, its line ends,
// and single bytes that are others, too many or missing. They apply last of all
// damages. Some tails are sound behind a text without a dwell.

use crate::damage_form::put;
use crate::dice::Dice;

/// Spoils bytes of the whole text.
type ByteDamage = fn(&mut Vec<u8>, &mut Dice);

const TAILS: &[&[u8]] = &[
    b"\n",
    b" ",
    b"0",
    b"0\n",
    b"X",
    b"\r\n",
    b"\0",
    b"\n\n",
    b"NODES 1\n",
    b"ORDER 0\n",
    b"CLOSED 1\n0\n",
    b"DWELL 0\n",
    b"DWELL 1\n",
    b"DWELL 255\n",
    b"DWELL 256\n",
    b"DWELL 12",
    b"CARRIERS 0\nORDER 0\n",
    b"\x1a",
    b"\xff\xfe",
    b"0 1\n",
];

pub const BYTE_DAMAGES: &[ByteDamage] = &[
    // The end: no last line feed, bytes after it, or cut off anywhere.
    |text, _| {
        text.pop();
    },
    |text, dice| text.extend_from_slice(dice.pick(TAILS)),
    |text, dice| text.truncate(dice.below(text.len() + 1)),
    |text, dice| text.truncate(dice.below(text.len() + 1)),
    // The line ends of other systems, and a mark that some editors put first.
    |text, _| {
        *text = text
            .iter()
            .flat_map(|&byte| match byte {
                b'\n' => vec![b'\r', b'\n'],
                other => vec![other],
            })
            .collect();
    },
    |text, _| {
        for byte in text.iter_mut().filter(|byte| **byte == b'\n') {
            *byte = b'\r';
        }
    },
    |text, _| put(text, 0, b"\xef\xbb\xbf"),
    // The whole text twice.
    |text, _| text.extend(text.clone()),
    // Some bytes are others: any, or such as sound texts have.
    |text, dice| {
        for _ in 0..dice.between(1, 3) {
            let at = dice.below(text.len().max(1));
            if let Some(byte) = text.get_mut(at) {
                *byte = dice.word() as u8;
            }
        }
    },
    |text, dice| {
        for _ in 0..dice.between(1, 3) {
            let at = dice.below(text.len().max(1));
            if let Some(byte) = text.get_mut(at) {
                *byte = dice.pick(b"0123456789 \nNLCOAD");
            }
        }
    },
    // A byte is lost, or one comes in.
    |text, dice| {
        if !text.is_empty() {
            let at = dice.below(text.len());
            text.remove(at);
        }
    },
    |text, dice| {
        let at = dice.below(text.len() + 1);
        let byte = dice.pick(b"0123456789  \n\n\rNA\0");
        put(text, at, &[byte]);
    },
    // One bit of one byte flips, as on a bad wire.
    |text, dice| {
        let at = dice.below(text.len().max(1));
        if let Some(byte) = text.get_mut(at) {
            *byte ^= 1 << dice.below(8);
        }
    },
];
