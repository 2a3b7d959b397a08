// Entries of a sound job text changed so that they break a check of closed
// nodes: the count of their section, an entry in it, or the end of a carrier.
// Where the text has no such section it gets one first. Some have a second
// fault at the same carrier or at another, since the first one decides.

use crate::damage_entries::{near, EntryDamage};

pub const CLOSED_DAMAGES: &[EntryDamage] = &[
    |draft, dice| {
        draft.close_some(dice);
        let count = near(dice, draft.job.hall.closed.len(), 1024);
        draft.set_count(draft.line_of_closed(), "CLOSED", count)
    },
    |draft, dice| {
        draft.close_some(dice);
        let (place, _) = draft.some_closed(dice);
        let node = draft.no_node(dice);
        draft.set_closed(place, node)
    },
    |draft, dice| {
        // An entry is at most the one before it.
        draft.close_some(dice);
        let place = dice.between(1, draft.job.hall.closed.len() - 1);
        let before = usize::from(draft.job.hall.closed[place - 1]);
        let below = dice.below(before + 1);
        let node = dice.pick(&[before, before, below]);
        draft.set_closed(place, node)
    },
    |draft, dice| {
        // Two neighbouring entries change places, so the second falls.
        draft.close_some(dice);
        let place = dice.between(1, draft.job.hall.closed.len() - 1);
        let line = draft.line_of_closed() + 1 + place;
        draft.lines.swap(line - 1, line);
        line
    },
    |draft, dice| {
        draft.close_some(dice);
        let (carrier, [_, goal], _) = draft.some_move(dice);
        let (_, start) = draft.some_closed(dice);
        draft.set_move(carrier, start, goal)
    },
    |draft, dice| {
        draft.close_some(dice);
        let (carrier, [start, _], _) = draft.some_move(dice);
        let (_, goal) = draft.some_closed(dice);
        draft.set_move(carrier, start, goal)
    },
    |draft, dice| {
        // Both ends are closed, and not the same.
        draft.close_some(dice);
        let (carrier, _, _) = draft.some_move(dice);
        let last = draft.job.hall.closed.len() - 1;
        let (low, high) = (draft.job.hall.closed[0].into(), draft.job.hall.closed[last].into());
        let (start, goal) = dice.pick(&[(low, high), (high, low)]);
        draft.set_move(carrier, start, goal)
    },
    |draft, dice| {
        // Both ends are one closed node: 5 goes before 13.
        draft.close_some(dice);
        let (carrier, _, _) = draft.some_move(dice);
        let (_, end) = draft.some_closed(dice);
        draft.set_move(carrier, end, end)
    },
    |draft, dice| {
        // One end is closed and the other no node: 4 goes before 13.
        draft.close_some(dice);
        let (carrier, _, _) = draft.some_move(dice);
        let ((_, closed), no_node) = (draft.some_closed(dice), draft.no_node(dice));
        let (start, goal) = dice.pick(&[(closed, no_node), (no_node, closed)]);
        draft.set_move(carrier, start, goal)
    },
    |draft, dice| {
        // Carrier 0 has a closed end, and a later one has equal ends or an end
        // that is no node.
        draft.close_some(dice);
        let (carrier, [start, _], _) = draft.some_move(dice);
        let no_node = draft.no_node(dice);
        let goal = dice.pick(&[start, no_node]);
        draft.set_move(carrier, start, goal);
        let (_, closed) = draft.some_closed(dice);
        let first_goal = draft.job.moves[0].goal.into();
        draft.set_move(0, closed, first_goal)
    },
    |draft, dice| {
        // The other way round: the closed end comes later.
        draft.close_some(dice);
        let (carrier, [start, _], _) = draft.some_move(dice);
        let (_, closed) = draft.some_closed(dice);
        draft.set_move(carrier, start, closed);
        let first_start = draft.job.moves[0].start.into();
        let no_node = draft.no_node(dice);
        let first_goal = dice.pick(&[first_start, no_node]);
        draft.set_move(0, first_start, first_goal)
    },
];
