// Entries of a sound job text changed so that they break a check, one function
// each, and some that repeat the ends of an earlier carrier, which breaks none
// and hides none. Those that have to do with closed nodes or with the dwell
// stand in files of their own.
// Nothing here says which refusal comes out, or whether one does.

use crate::damage_closed::CLOSED_DAMAGES;
use crate::damage_dwell::DWELL_DAMAGES;
use crate::dice::Dice;
use crate::draft::Draft;

pub fn near(dice: &mut Dice, count: usize, limit: usize) -> usize {
    dice.pick(&[count + 1, count + 1, count.saturating_sub(1), 0, limit, limit + 1, 9999])
}

/// Spoils an entry and says on which line. The draft must have two lanes and
/// two carriers at least, and all its lines.
pub type EntryDamage = fn(&mut Draft, &mut Dice) -> usize;

pub const ENTRY_DAMAGES: &[EntryDamage] = &[
    |draft, dice| {
        let nodes = draft.job.hall.nodes as usize;
        let count = dice.pick(&[0, 0, 1025, 1025, 1026, 2048, 9999, nodes - 1, 1]);
        draft.set_count(0, "NODES", count)
    },
    |draft, dice| {
        let count = near(dice, draft.lanes(), 4096);
        draft.set_count(1, "LANES", count)
    },
    |draft, dice| {
        let count = near(dice, draft.carriers(), 64);
        draft.set_count(draft.line_of_carriers(), "CARRIERS", count)
    },
    |draft, dice| {
        let count = near(dice, draft.carriers(), 64);
        draft.set_count(draft.line_of_order(), "ORDER", count)
    },
    |draft, dice| {
        let (lane, first, second) = draft.some_lane(dice);
        draft.set_lane(lane, second, first)
    },
    |draft, dice| {
        let (lane, first, second) = draft.some_lane(dice);
        let end = dice.pick(&[first, second]);
        draft.set_lane(lane, end, end)
    },
    |draft, dice| {
        let (lane, first, _) = draft.some_lane(dice);
        let second = draft.no_node(dice);
        draft.set_lane(lane, first, second)
    },
    |draft, dice| {
        let (lane, _, _) = draft.some_lane(dice);
        let first = draft.no_node(dice);
        let second = draft.no_node(dice);
        draft.set_lane(lane, first, second)
    },
    |draft, dice| {
        // The lane before stands again.
        let lane = dice.between(1, draft.lanes() - 1);
        let (first, second) = draft.job.hall.lanes()[lane - 1];
        draft.set_lane(lane, first.into(), second.into())
    },
    |draft, dice| {
        // Two neighbouring lanes change places, so the second falls.
        let lane = dice.between(1, draft.lanes() - 1);
        draft.lines.swap(1 + lane, 2 + lane);
        2 + lane
    },
    |draft, dice| {
        let (carrier, [_, goal], _) = draft.some_move(dice);
        let start = draft.no_node(dice);
        draft.set_move(carrier, start, goal)
    },
    |draft, dice| {
        let (carrier, [start, _], _) = draft.some_move(dice);
        let goal = draft.no_node(dice);
        draft.set_move(carrier, start, goal)
    },
    |draft, dice| {
        let (carrier, [start, goal], _) = draft.some_move(dice);
        let end = dice.pick(&[start, goal]);
        draft.set_move(carrier, end, end)
    },
    |draft, dice| {
        // An earlier start stands again. Only where it is this carrier's goal
        // too is there a fault.
        let (carrier, [_, goal], [earlier_start, _]) = draft.some_move(dice);
        draft.set_move(carrier, earlier_start, goal)
    },
    |draft, dice| {
        // An earlier goal stands again, likewise.
        let (carrier, [start, _], [_, earlier_goal]) = draft.some_move(dice);
        draft.set_move(carrier, start, earlier_goal)
    },
    |draft, dice| {
        // A whole move stands again.
        let (carrier, _, [earlier_start, earlier_goal]) = draft.some_move(dice);
        draft.set_move(carrier, earlier_start, earlier_goal)
    },
    |draft, dice| {
        // A whole move stands again, and further on a place in the order does.
        let (carrier, _, [earlier_start, earlier_goal]) = draft.some_move(dice);
        draft.set_move(carrier, earlier_start, earlier_goal);
        let place = dice.between(1, draft.carriers() - 1);
        let entry = draft.job.order[dice.below(place)];
        draft.set_entry(place, entry.into())
    },
    |draft, dice| {
        // Start and goal are one number, and it is no node: 4 goes before 5.
        let (carrier, _, _) = draft.some_move(dice);
        let end = draft.no_node(dice);
        draft.set_move(carrier, end, end)
    },
    |draft, dice| {
        // Equal ends, at a node where an earlier carrier starts.
        let (carrier, _, [earlier_start, _]) = draft.some_move(dice);
        draft.set_move(carrier, earlier_start, earlier_start)
    },
    |draft, dice| {
        // One end is no node, and the other stands at an earlier carrier.
        let (carrier, _, [earlier_start, earlier_goal]) = draft.some_move(dice);
        let end = draft.no_node(dice);
        if dice.once_in(2) {
            draft.set_move(carrier, earlier_start, end)
        } else {
            draft.set_move(carrier, end, earlier_goal)
        }
    },
    |draft, dice| {
        // Carrier 0, which has nobody before it.
        let end = draft.no_node(dice);
        let start = usize::from(draft.job.moves[0].start);
        let goal = dice.pick(&[end, start]);
        draft.set_move(0, start, goal)
    },
    |draft, dice| {
        let carriers = draft.carriers();
        let place = dice.below(carriers);
        let entry = dice.pick(&[carriers, carriers, carriers + 1, 63.max(carriers), 64, 9999]);
        draft.set_entry(place, entry)
    },
    |draft, dice| {
        let place = dice.between(1, draft.carriers() - 1);
        let entry = draft.job.order[dice.below(place)];
        draft.set_entry(place, entry.into())
    },
];

/// All damages to entries, those of the dwell last.
pub fn entry_damages() -> Vec<EntryDamage> {
    [ENTRY_DAMAGES, CLOSED_DAMAGES, DWELL_DAMAGES].concat()
}
