// The second planner. It is written from the rules (docs/RULES.md) and from
// nothing else, so that a slip in the proved planner is not repeated here.
// It shares with the proved planner: nothing. No source, no table, no
// definition and no language; only the rules and the batch format are common.
// It claims no proof. Where the two differ, the rules decide which is wrong.

mod admissions;
mod answers;
mod asking;
mod asking_cases;
mod asking_checks;
mod asking_clock;
mod asking_damage;
mod asking_days;
mod asking_ends;
mod asking_make;
mod asking_random;
mod asking_slots;
mod asking_stale;
mod batch;
mod book;
mod book_cases;
mod book_checks;
mod book_clock;
mod book_damage;
mod book_days;
mod book_dwells;
mod book_make;
mod book_random;
mod book_slots;
mod book_small;
mod book_stale;
mod call_checks;
mod closed_cases;
mod closed_texts;
mod closing;
mod coding;
mod commands;
mod compare;
mod damage_bytes;
mod damage_closed;
mod damage_dwell;
mod damage_entries;
mod damage_form;
mod damage_numbers;
mod dice;
mod draft;
mod dwell_cases;
mod dwell_texts;
mod dwelling;
mod ends;
mod faults;
mod floor;
mod forgetful;
mod generate;
mod halls;
mod histogram;
mod histogram_asking;
mod histogram_book;
mod histogram_trolley;
mod histogram_write;
mod job;
mod least_cases;
mod ledger;
mod lent;
mod lent_asking;
mod lent_book;
mod lent_cases;
mod lent_jobs;
mod lent_lengths;
mod lent_plan;
mod lent_read;
mod lent_texts;
mod lent_trolley;
mod lent_write;
mod limit_size;
mod limits;
mod limits_closed;
mod limits_dwell;
mod lists;
mod mistakes;
mod mistakes_dwell;
mod network;
mod page;
mod paths;
mod payload;
mod plan;
mod program_texts;
mod questions;
mod rule;
mod safe;
mod safe_asking;
mod safe_book;
mod safe_print;
mod safe_read;
mod safe_ticks;
mod selftest;
mod selftest_asking;
mod selftest_book;
mod selftest_closed;
mod selftest_coding;
mod selftest_dwell;
mod selftest_lent;
mod selftest_refusals;
mod selftest_shared;
mod selftest_trolley;
mod selftest_write;
mod shortest;
mod small;
mod small_closed;
mod systematic;
mod text;
mod trains;
mod trolley;
mod trolley_cases;
mod trolley_checks;
mod trolley_days;
mod trolley_lists;
mod trolley_make;
mod trolley_random;
mod trolley_site;
mod trolley_slots;
mod write;
mod write_cases;
mod write_faults;
mod write_jobs;

use commands::{
    admissions_command, again_command, answer_command, askings_command, carriers_command,
    compare_command, generate_command, halves_command, limit_command, plan_command, safe_command,
    selftest_command, show_command, texts_command, trolleys_command,
};
use std::process::ExitCode;

const USAGE: &str = "usage:
  second plan                       plan the job text on standard input
  second answer FILE                answer every case of a batch file
  second generate SEED COUNT FILE   write a batch file
  second limit NAME COUNT FILE      write a batch that repeats a limit-size job
  second again READINGS WRITINGS COUNT FILE
                                    write a batch that reads and writes the longest text
  second admissions HALL HELD STARTS AGAIN COUNT FILE
                                    write a batch of admissions to a floor book
  second askings HALL HELD STARTS AGAIN COUNT FILE
                                    write a batch of questions whether a move may go
  second carriers HALL HELD STARTS COUNT FILE
                                    write a batch that plans the carriers of that book
  second trolleys HALL HELD MOVES ONE AGAIN COUNT FILE
                                    write a batch of trolleys, or of their moves one by one
  second halves FILE ONE TWO        write the cases of a batch to two, by turns
  second safe FILE                  try all paths of small plans of a batch
  second compare FILE ANSWERS       hold another program's answers to these
  second show FILE CASE             write the payload of one case
  second texts FOLDER               write texts for the program, a file each
  second selftest                   check the cases of the rules
";

/// Exit code 1 says that a check failed, 2 that the command could not be run.
/// A refused job is an answer, not a failure: `plan` then exits with 0.
fn main() -> ExitCode {
    let words: Vec<String> = std::env::args().skip(1).collect();
    let words: Vec<&str> = words.iter().map(String::as_str).collect();
    let done = match words[..] {
        ["plan"] => plan_command(),
        ["answer", path] => answer_command(path),
        ["generate", seed, count, path] => generate_command(seed, count, path),
        ["limit", name, count, path] => limit_command(name, count, path),
        ["again", readings, writings, count, path] => {
            again_command(readings, writings, count, path)
        }
        ["admissions", hall, held, starts, again, count, path] => {
            admissions_command([hall, held, starts, again, count], path)
        }
        ["askings", hall, held, starts, again, count, path] => {
            askings_command([hall, held, starts, again, count], path)
        }
        ["carriers", hall, held, starts, count, path] => {
            carriers_command([hall, held, starts, count], path)
        }
        ["trolleys", hall, held, moves, one, again, count, path] => {
            trolleys_command([hall, held, moves, one, again, count], path)
        }
        ["halves", path, one, two] => halves_command(path, one, two),
        ["safe", path] => safe_command(path),
        ["compare", path, answers] => compare_command(path, answers),
        ["show", path, case] => show_command(path, case),
        ["texts", folder] => texts_command(folder),
        ["selftest"] => selftest_command(),
        _ => Err(USAGE.to_string()),
    };
    match done {
        Ok(true) => ExitCode::SUCCESS,
        Ok(false) => ExitCode::from(1),
        Err(fault) => {
            eprintln!("{}", fault.trim_end());
            ExitCode::from(2)
        }
    }
}
