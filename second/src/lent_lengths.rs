// Lengths of lent tables for the generator: of each table the least length and
// how many places the batch program has for it, and rows of lengths that are
// enough or too short.

use crate::dice::Dice;
use crate::lent::{
    BYTE_PLACES, CLOSED_PLACES, LANE_PLACES, LEAST_BYTES, LEAST_CLOSED, LEAST_LANES, LEAST_MOVES,
    LEAST_ORDER, LEAST_PATH, LEAST_RECORDS, LEAST_TABLE, LEAST_TIMES, MOVE_PLACES, ORDER_PLACES,
    PATH_PLACES, RECORD_PLACES, TABLE_PLACES, TIME_PLACES,
};

/// The least length of a lent table, and how many places there are for it.
pub type Room = (usize, usize);

pub const LANES: Room = (LEAST_LANES, LANE_PLACES);
pub const CLOSED: Room = (LEAST_CLOSED, CLOSED_PLACES);
pub const RECORDS: Room = (LEAST_RECORDS, RECORD_PLACES);
pub const ORDER: Room = (LEAST_ORDER, ORDER_PLACES);
pub const MOVES: Room = (LEAST_MOVES, MOVE_PLACES);
pub const TABLE: Room = (LEAST_TABLE, TABLE_PLACES);
pub const TIMES: Room = (LEAST_TIMES, TIME_PLACES);
pub const PATH: Room = (LEAST_PATH, PATH_PLACES);
pub const BYTES: Room = (LEAST_BYTES, BYTE_PLACES);

/// Lengths of several tables: all least, all one more, all that there is, and
/// each one short while the others are long enough; then all short, and none.
pub fn length_rows<const TABLES: usize>(rooms: [Room; TABLES]) -> Vec<[u16; TABLES]> {
    let (least, most) = (least(rooms), most(rooms));
    let mut rows = vec![
        least,
        least.map(|length| length + 1),
        most,
        least.map(|length| length - 1),
        [0; TABLES],
    ];
    for short in 0..TABLES {
        let mut row = most;
        row[short] = least[short] - 1;
        rows.push(row);
    }
    rows
}

/// Lengths that are mostly enough.
pub fn some_lengths<const TABLES: usize>(dice: &mut Dice, rooms: [Room; TABLES]) -> [u16; TABLES] {
    let short = if dice.once_in(5) { Some(dice.below(TABLES)) } else { None };
    let mut at = 0;
    rooms.map(|(least, places)| {
        let between = dice.between(least, places);
        let length = if short == Some(at) {
            dice.pick(&[least - 1, least - 1, least / 2, 1, 0])
        } else {
            dice.pick(&[least, least + 1, between, places])
        };
        at += 1;
        length as u16
    })
}

/// The tables of reading into records, and of reading into numbers.
pub const FOR_RECORDS: [Room; 4] = [LANES, CLOSED, RECORDS, ORDER];
pub const FOR_MOVES: [Room; 4] = [LANES, CLOSED, MOVES, ORDER];

/// The least length of each table.
pub fn least<const TABLES: usize>(rooms: [Room; TABLES]) -> [u16; TABLES] {
    rooms.map(|(least, _)| least as u16)
}

/// All places that there are for each table.
pub fn most<const TABLES: usize>(rooms: [Room; TABLES]) -> [u16; TABLES] {
    rooms.map(|(_, places)| places as u16)
}
