// Ways to spoil the form of a job text, one function each, in two groups: lines
// that lack the form, and lines in the wrong place. They apply after the damages
// to entries, so that one text can have faults on several lines, or a fault of
// form over a fault of value on one.

use crate::dice::Dice;

fn first_digit(line: &[u8]) -> usize {
    line.iter().position(u8::is_ascii_digit).unwrap_or(0)
}

fn space(line: &[u8]) -> usize {
    line.iter().position(|&byte| byte == b' ').unwrap_or(line.len())
}

pub fn put(line: &mut Vec<u8>, at: usize, bytes: &[u8]) {
    line.splice(at..at, bytes.iter().copied());
}

/// Words for a line that should begin with another one, or with none.
const HEADINGS: &[&[u8]] =
    &[b"NODES", b"LANES", b"CLOSED", b"CARRIERS", b"ORDER", b"DWELL", b"CARRIER"];

/// Lines that come in where none belongs.
const EXTRA_LINES: &[&[u8]] =
    &[b"0", b"0 1", b"NODES 2", b"CLOSED 1", b"# note", b"ORDER 0", b"DWELL 1"];

/// Spoils the form of one line.
type FormDamage = fn(&mut Vec<u8>, &mut Dice);

pub const FORM_DAMAGES: &[FormDamage] = &[
    // A leading zero in the first number, then in the last.
    |line, _| put(line, first_digit(line), b"0"),
    |line, _| {
        let last_field = line.iter().rposition(|&byte| byte == b' ').map_or(0, |at| at + 1);
        put(line, last_field, b"0");
    },
    // More than four digits.
    |line, dice| {
        line.truncate(first_digit(line));
        let number: &[u8] = dice.pick(&[&b"10000"[..], b"65536", b"99999", b"00000", b"00001"]);
        line.extend_from_slice(number);
    },
    |line, _| line.extend_from_slice(b"00000"),
    |line, _| line.extend_from_slice(b"18446744073709551616"),
    // Small letters.
    |line, _| line.make_ascii_lowercase(),
    |line, dice| {
        let at = dice.below(line.len().max(1));
        if let Some(byte) = line.get_mut(at) {
            *byte = byte.to_ascii_lowercase() | 0x20;
        }
    },
    // Spaces and a carriage return where none belong.
    |line, _| put(line, space(line), b" "),
    |line, _| line.push(b' '),
    |line, _| put(line, 0, b" "),
    |line, _| line.push(b'\r'),
    // Another byte where a space belongs, or none.
    |line, dice| {
        let at = space(line);
        if at < line.len() {
            line[at] = dice.pick(b"\t,;:-_\r\0X0");
        } else {
            line.push(b'\t');
        }
    },
    |line, _| {
        let at = space(line);
        if at < line.len() {
            line.remove(at);
        } else {
            line.clear();
        }
    },
    // A byte or a field too few or too many.
    |line, _| {
        if !line.is_empty() {
            line.remove(0);
        }
    },
    |line, _| {
        let first = line.first().copied().unwrap_or(b'S');
        put(line, 0, &[first, first, first, first]);
    },
    |line, _| line.truncate(space(line)),
    |line, _| line.truncate(space(line) + 1),
    |line, _| {
        let at = space(line);
        line.drain(..at);
    },
    |line, _| line.extend_from_slice(b" 0"),
    // A sign, or some other byte that has no place in a line.
    |line, dice| {
        let sign = dice.pick(b"+-.");
        put(line, first_digit(line), &[sign]);
    },
    |line, dice| {
        let at = dice.below(line.len() + 1);
        let byte = dice.pick(&[0, 1, b'\t', b'#', b'/', b':', b'@', b'[', 127, 128, 178, 255]);
        put(line, at, &[byte]);
    },
    |line, dice| {
        let at = first_digit(line);
        if let Some(byte) = line.get_mut(at) {
            *byte = dice.pick(b"OIlAFx/:");
        }
    },
    // No field at all.
    |line, _| line.clear(),
    |line, _| *line = b" ".to_vec(),
    // The heading of another section, or of none.
    |line, dice| {
        let heading = dice.pick(HEADINGS);
        line.splice(..first_digit(line).saturating_sub(1), heading.iter().copied());
    },
    // A digit of another script: three bytes of the kind "other".
    |line, _| put(line, line.len(), "\u{0967}".as_bytes()),
];

/// Puts lines in the wrong place.
type LineDamage = fn(&mut Vec<Vec<u8>>, &mut Dice);

pub const LINE_DAMAGES: &[LineDamage] = &[
    // A line too few or too many, or in another's place.
    |lines, dice| {
        let at = dice.below(lines.len());
        lines.remove(at);
    },
    |lines, dice| {
        let at = dice.below(lines.len());
        let again = lines[at].clone();
        lines.insert(at, again);
    },
    |lines, dice| {
        let at = dice.below(lines.len() + 1);
        lines.insert(at, Vec::new());
    },
    |lines, dice| {
        let (one, other) = (dice.below(lines.len()), dice.below(lines.len()));
        lines.swap(one, other);
    },
    |lines, dice| {
        let at = dice.below(lines.len() + 1);
        lines.insert(at, dice.pick(EXTRA_LINES).to_vec());
    },
    // Only the first lines.
    |lines, dice| {
        let left = dice.below(lines.len() + 1);
        lines.truncate(left);
    },
    // A space stands where a line feed belongs, and the other way round.
    |lines, dice| {
        if lines.len() > 1 {
            let at = dice.between(1, lines.len() - 1);
            let tail = lines.remove(at);
            lines[at - 1].push(b' ');
            lines[at - 1].extend(tail);
        }
    },
    |lines, dice| {
        let at = dice.below(lines.len());
        let cut = space(&lines[at]);
        if cut < lines[at].len() {
            let tail = lines[at].split_off(cut + 1);
            lines[at].pop();
            lines.insert(at + 1, tail);
        }
    },
];
