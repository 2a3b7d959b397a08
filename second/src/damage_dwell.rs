// The line of the dwell changed so that it breaks its check or stands where it
// does not belong. Where the text has no such line it gets one first. One damage
// has a second fault before it, since the first one decides.

use crate::damage_entries::EntryDamage;

/// Numbers of at most four digits that are no dwell.
const NO_DWELLS: [usize; 9] = [0, 0, 0, 256, 256, 257, 512, 1000, 9999];

pub const DWELL_DAMAGES: &[EntryDamage] = &[
    |draft, dice| {
        draft.dwell_some(dice);
        let dwell = dice.pick(&NO_DWELLS);
        draft.set_count(draft.line_of_dwell(), "DWELL", dwell)
    },
    |draft, dice| {
        // The last place of the order is at fault too.
        draft.dwell_some(dice);
        let dwell = dice.pick(&NO_DWELLS);
        draft.set_count(draft.line_of_dwell(), "DWELL", dwell);
        let (carriers, first) = (draft.carriers(), draft.job.order[0].into());
        draft.set_entry(carriers - 1, first)
    },
    |draft, dice| {
        // Another dwell behind the first, which is as long, longer or none.
        draft.dwell_some(dice);
        let dwell = dice.pick(&[draft.job.dwell, 1, 255, 0, 256]);
        draft.lines.push(format!("DWELL {}", dwell).into_bytes());
        draft.lines.len() - 1
    },
    |draft, dice| {
        // The line stands further up.
        draft.dwell_some(dice);
        let from = draft.line_of_dwell();
        let line = draft.lines.remove(from);
        let to = dice.below(from);
        draft.lines.insert(to, line);
        to
    },
];
