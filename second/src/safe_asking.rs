// The check of questions in small halls: where the print says of a move that it may go,
// no choice of shortest paths lets it meet or cross anybody in the book who has not left
// before its tick. That is told from distances, node by node.

use crate::answers::printed_to;
use crate::batch::Case;
use crate::book::Call;
use crate::job::Move;
use crate::safe::SMALL_HALL;
use crate::safe_read::Checked;
use crate::shortest::{all_distances, some_choice_collides};

#[derive(Default)]
pub struct Questions {
    cases: u64,
    moves: u64,
    pairs: u64,
}

impl Questions {
    pub fn printed(&self) -> String {
        let Questions { cases, moves, pairs } = self;
        format!(
            "safe: {} moves may go in {} cases, with {} pairs of carriers\n",
            moves, cases, pairs
        )
    }

    /// Checks a case if some move may go in it.
    pub fn check(&mut self, case: &Case) -> Checked {
        let asked = match case {
            Case::Ask { asked, .. } if asked.hall.nodes <= SMALL_HALL => asked,
            _ => return Ok(()),
        };
        let print = printed_to(case);
        let lines: Vec<&str> = print.lines().filter(|line| !line.starts_with("book")).collect();
        if lines.len() != asked.calls.len() {
            return Err("the print has not the form of an answer to each question");
        }
        if !lines.contains(&"MAY") {
            return Ok(());
        }
        self.cases += 1;
        let (table, dwell) = (all_distances(&asked.hall), asked.book.dwell.into());
        let permitted = asked.calls.iter().zip(lines).filter(|(_, line)| *line == "MAY");
        for (&Call { now, asked: new }, _) in permitted {
            self.moves += 1;
            for held in asked.book.standing(now) {
                self.pairs += 1;
                let other = Move { start: held.start, goal: held.goal };
                let (new, other) = ((new, now.into()), (other, held.tick.into()));
                if some_choice_collides(&table, dwell, new, other) {
                    return Err("a move may go that can meet or cross somebody");
                }
            }
        }
        Ok(())
    }
}
