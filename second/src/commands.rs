// The commands of the second planner, one function each. Their words come from the
// command line; what they need of files, numbers and printing stands here too. A
// command says whether all its checks passed, or why it could not be run.

use crate::admissions;
use crate::answers;
use crate::batch;
use crate::coding;
use crate::compare;
use crate::generate;
use crate::histogram;
use crate::limit_size;
use crate::program_texts;
use crate::safe;
use crate::selftest;
use crate::trolley_site;
use std::io::{self, Read, Write};

fn print(bytes: &[u8]) -> Result<(), String> {
    let mut out = io::stdout().lock();
    out.write_all(bytes).and_then(|()| out.flush()).map_err(|fault| fault.to_string())
}

fn cases_in(path: &str) -> Result<Vec<batch::Case>, String> {
    let file = std::fs::read(path).map_err(|fault| format!("{}: {}", path, fault))?;
    coding::cases_of(&file).map_err(|fault| format!("{}: {}", path, fault))
}

fn write_batch(path: &str, cases: &[batch::Case]) -> Result<(), String> {
    let mut file = Vec::new();
    cases.iter().for_each(|case| case.put(&mut file));
    std::fs::write(path, file).map_err(|fault| format!("{}: {}", path, fault))
}

fn number(word: &str) -> Result<u64, String> {
    word.parse().map_err(|_| format!("{} is no number", word))
}

fn short(word: &str) -> Result<u16, String> {
    word.parse().map_err(|_| format!("{} is no number of at most 65,535", word))
}

pub fn plan_command() -> Result<bool, String> {
    let mut text = Vec::new();
    io::stdin().lock().read_to_end(&mut text).map_err(|fault| fault.to_string())?;
    print(answers::answer_to_text(&text).printed().as_bytes())?;
    Ok(true)
}

pub fn answer_command(path: &str) -> Result<bool, String> {
    let mut out = String::new();
    for (number, case) in cases_in(path)?.iter().enumerate() {
        out += &format!("# {}\n", number);
        out += &answers::printed_to(case);
    }
    print(out.as_bytes())?;
    Ok(true)
}

pub fn generate_command(seed: &str, count: &str, path: &str) -> Result<bool, String> {
    let cases = generate::batch(number(seed)?, number(count)? as usize);
    write_batch(path, &cases)?;
    eprint!("{}", histogram::histogram(&cases));
    Ok(true)
}

pub fn limit_command(name: &str, count: &str, path: &str) -> Result<bool, String> {
    let cases = limit_size::batch(name, number(count)? as usize)
        .ok_or_else(|| format!("no job {}; there are {}", name, limit_size::NAMES.join(", ")))?;
    write_batch(path, &cases)?;
    Ok(true)
}

pub fn again_command(
    readings: &str,
    writings: &str,
    count: &str,
    path: &str,
) -> Result<bool, String> {
    let cases = limit_size::again(short(readings)?, short(writings)?, number(count)? as usize);
    write_batch(path, &cases)?;
    Ok(true)
}

fn site(hall: &str, held: &str, starts: &str) -> Result<admissions::Site, String> {
    admissions::Site::of(hall, number(held)? as usize, number(starts)? as usize)
}

/// The hall, how many slots are taken and from how many lifts, how often each call
/// is made again, and how many cases there are.
pub fn admissions_command(words: [&str; 5], path: &str) -> Result<bool, String> {
    let [hall, held, starts, again, count] = words;
    let cases = site(hall, held, starts)?.admissions(short(again)?, number(count)? as usize);
    write_batch(path, &cases)?;
    Ok(true)
}

/// The same for questions whether a move may go.
pub fn askings_command(words: [&str; 5], path: &str) -> Result<bool, String> {
    let [hall, held, starts, again, count] = words;
    let cases = site(hall, held, starts)?.askings(short(again)?, number(count)? as usize);
    write_batch(path, &cases)?;
    Ok(true)
}

pub fn carriers_command(words: [&str; 4], path: &str) -> Result<bool, String> {
    let [hall, held, starts, count] = words;
    let cases = site(hall, held, starts)?.plans(number(count)? as usize);
    write_batch(path, &cases)?;
    Ok(true)
}

/// The hall, how many slots are taken, how many moves come, whether one by one (1) or
/// as a trolley (0), how often that is done again, and how many cases there are.
pub fn trolleys_command(words: [&str; 6], path: &str) -> Result<bool, String> {
    let [hall, held, moves, one, again, count] = words;
    let one_by_one = match one {
        "0" => false,
        "1" => true,
        other => return Err(format!("{} is neither 0 nor 1", other)),
    };
    let case = trolley_site::case(
        hall,
        number(held)? as usize,
        number(moves)? as usize,
        one_by_one,
        short(again)?,
    )?;
    write_batch(path, &vec![case; number(count)? as usize])?;
    Ok(true)
}

/// Cases with an even number go to the one file, all others to the other, in the
/// order of the batch.
pub fn halves_command(path: &str, one: &str, two: &str) -> Result<bool, String> {
    let (mut even, mut odd) = (Vec::new(), Vec::new());
    for (number, case) in cases_in(path)?.into_iter().enumerate() {
        let half = if number % 2 == 0 { &mut even } else { &mut odd };
        half.push(case);
    }
    write_batch(one, &even)?;
    write_batch(two, &odd)?;
    Ok(true)
}

pub fn safe_command(path: &str) -> Result<bool, String> {
    let tally = safe::check(&cases_in(path)?);
    print(tally.printed().as_bytes())?;
    Ok(tally.faults == 0)
}

pub fn compare_command(path: &str, answers: &str) -> Result<bool, String> {
    let file = std::fs::read(answers).map_err(|fault| format!("{}: {}", answers, fault))?;
    let found = compare::compare(&cases_in(path)?, &String::from_utf8_lossy(&file));
    print(
        format!("{}compare: {} passed, {} failed\n", found.report, found.passed, found.failed)
            .as_bytes(),
    )?;
    Ok(found.failed == 0)
}

pub fn show_command(path: &str, case: &str) -> Result<bool, String> {
    let cases = cases_in(path)?;
    let case = cases.get(number(case)? as usize).ok_or("the file has no such case")?;
    eprintln!("kind {}", case.kind() as char);
    print(&case.payload())?;
    Ok(true)
}

pub fn texts_command(folder: &str) -> Result<bool, String> {
    let texts = program_texts::texts();
    for (number, text) in texts.iter().enumerate() {
        let path = format!("{}/{:03}", folder, number);
        std::fs::write(&path, text).map_err(|fault| format!("{}: {}", path, fault))?;
    }
    print(program_texts::told(&texts).as_bytes())?;
    Ok(true)
}

pub fn selftest_command() -> Result<bool, String> {
    let (report, sound) = selftest::run();
    print(report.as_bytes())?;
    Ok(sound)
}
