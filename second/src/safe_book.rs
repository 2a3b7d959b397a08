// The check of days, in the way of plans (safe.rs): a floor book that came empty,
// with a dwell of at most 255, and what was answered to each call and each trolley,
// taken from the print (safe_read.rs). Any two carriers that were ever admitted are
// tried with every choice of their shortest paths, save those that are never on the
// floor at the same tick, who cannot meet. Each start tick is held to all carriers
// before it, whether they are gone or not. Bounds and slots are checked in halls of
// any size.

use crate::batch::Case;
use crate::book::{Book, SLOTS};
use crate::job::{Job, MOST_DWELL};
use crate::safe::{try_all, MOST_PATH_PAIRS, SMALL_HALL};
use crate::safe_read::{admitted_in, Carrier, Checked};
use crate::safe_ticks::forbidden;
use crate::shortest::{all_distances, all_paths, count_paths, some_choice_collides, AllDistances};
use std::collections::BTreeMap;

#[derive(Default)]
pub struct Days {
    days: u64,
    /// Days with trolleys among all of them.
    trolleys: u64,
    /// Days in larger halls, of which bounds and slots alone are checked.
    large: u64,
    carriers: u64,
    pairs: u64,
    /// Pairs that are on the floor at one tick, and what became of them.
    together: u64,
    tried: u64,
    skipped: u64,
}

impl Days {
    pub fn printed(&self) -> String {
        format!(
            "safe: {} days of a floor book with {} carriers; {} pairs of carriers, {} of them on \
             the floor together, {} path pairs tried, {} skipped; in {} larger halls bounds and \
             slots alone; {} of all these days have trolleys\n",
            self.days,
            self.carriers,
            self.pairs,
            self.together,
            self.tried,
            self.skipped,
            self.large,
            self.trolleys
        )
    }

    /// Checks a case if it is a day on which somebody was admitted.
    pub fn check(&mut self, case: &Case) -> Checked {
        let (hall, book) = match case {
            Case::Admit { asked, .. } => (&asked.hall, &asked.book),
            Case::AdmitAll { asked, .. } => (&asked.hall, &asked.book),
            _ => return Ok(()),
        };
        let dwell = book.dwell;
        if dwell > MOST_DWELL || *book != Book::empty(dwell) {
            return Ok(());
        }
        let admitted = admitted_in(case)?;
        if admitted.is_empty() {
            return Ok(());
        }
        self.trolleys += u64::from(matches!(case, Case::AdmitAll { .. }));
        check_bounds(&admitted)?;
        check_slots(&admitted)?;
        if hall.nodes > SMALL_HALL {
            self.large += 1;
            return Ok(());
        }
        self.days += 1;
        self.carriers += admitted.len() as u64;
        let table = all_distances(hall);
        let moves = admitted.iter().map(|carrier| carrier.asked).collect();
        let job = Job { hall: hall.clone(), moves, order: Vec::new(), dwell };
        check_ticks(&table, &job, &admitted)?;
        self.check_paths(&table, &job, &admitted)
    }

    /// Every choice of shortest paths of every two that are on the floor together.
    fn check_paths(&mut self, table: &AllDistances, job: &Job, admitted: &[Carrier]) -> Checked {
        let dwell = i64::from(job.dwell);
        let mut ways: BTreeMap<(u16, u16), (u64, Vec<Vec<usize>>)> = BTreeMap::new();
        for asked in &job.moves {
            ways.entry((asked.start, asked.goal)).or_insert_with(|| {
                let count = count_paths(table, *asked, MOST_PATH_PAIRS + 1);
                let few = count <= MOST_PATH_PAIRS;
                (count, if few { all_paths(table, *asked) } else { Vec::new() })
            });
        }
        let ways_of = |carrier: &Carrier| &ways[&(carrier.asked.start, carrier.asked.goal)];
        for (number, later) in admitted.iter().enumerate() {
            self.pairs += number as u64;
            let together =
                |other: &&Carrier| other.last_tick >= later.tick && later.last_tick >= other.tick;
            for earlier in admitted[..number].iter().filter(together) {
                let ((count, paths), (others, rivals)) = (ways_of(later), ways_of(earlier));
                self.together += 1;
                let collides = if count * others > MOST_PATH_PAIRS {
                    self.skipped += 1;
                    let (one, other) = ((later.asked, later.tick), (earlier.asked, earlier.tick));
                    some_choice_collides(table, dwell, one, other)
                } else {
                    let (one, other) = ((&paths[..], later.tick), (&rivals[..], earlier.tick));
                    let (tried, collides) = try_all(dwell, one, other);
                    self.tried += tried;
                    collides
                };
                if collides {
                    return Err("two carriers of a day can meet or cross");
                }
            }
        }
        Ok(())
    }
}

/// Nobody starts before now, nor later than now and one tick after the latest last
/// tick of those on the floor; where nobody is, at now.
fn check_bounds(admitted: &[Carrier]) -> Checked {
    for (number, new) in admitted.iter().enumerate() {
        let before = admitted[..number].iter().map(|other| other.last_tick);
        let latest = before.filter(|&last_tick| last_tick >= new.now).max();
        let bound = latest.map_or(new.now, |latest| latest + 1);
        if new.tick < new.now || new.tick > bound {
            return Err("a start tick of a day is out of its bounds");
        }
    }
    Ok(())
}

/// Each takes the lowest slot that nobody on the floor has.
fn check_slots(admitted: &[Carrier]) -> Checked {
    let mut last_ticks = [-1; SLOTS];
    for new in admitted {
        let lowest = last_ticks.iter().position(|&last_tick| last_tick < new.now);
        if lowest != Some(new.slot) {
            return Err("a slot is not the lowest that is free");
        }
        last_ticks[new.slot] = new.last_tick;
    }
    Ok(())
}

/// Each has a permitted tick, and from now on no smaller one was permitted.
fn check_ticks(table: &AllDistances, job: &Job, admitted: &[Carrier]) -> Checked {
    for (later, new) in admitted.iter().enumerate() {
        let mut marked = vec![false; (new.tick - new.now) as usize + 1];
        for (earlier, old) in admitted[..later].iter().enumerate() {
            if let Some((low, high)) = forbidden(table, job, earlier, later) {
                for bad in (old.tick + low).max(new.now)..=(old.tick + high).min(new.tick) {
                    marked[(bad - new.now) as usize] = true;
                }
            }
        }
        match marked.iter().position(|&bad| !bad) {
            None => return Err("a tick of a day is forbidden"),
            Some(first) if first + 1 < marked.len() => {
                return Err("a smaller tick of a day was permitted");
            }
            Some(_) => {}
        }
    }
    Ok(())
}
