// Holds the answers of another program to this planner's, case by case.
// The other program's answers come as a file in the form that `answer`
// prints: a line `# i` before the answer to case i. A case passes if the
// two answers are the same bytes; a missing answer is a failed case.

use crate::answers::printed_to;
use crate::batch::Case;

pub struct Comparison {
    pub passed: usize,
    pub failed: usize,
    /// The first cases that differ, in words.
    pub report: String,
}

const SHOWN: usize = 5;

/// The beginning of an answer, which may hold a table of 12,400 places.
fn beginning(answer: &str) -> String {
    let mut shown: String = answer.chars().take(600).collect();
    if shown.len() < answer.len() {
        shown += " ..\n";
    }
    shown
}

/// The answers in a file, by case: the text between one `# i` line and the
/// next. A line `# i` with another number than the case's ends the list,
/// since from there on nothing can be told apart.
fn answers_in(file: &str) -> Vec<&str> {
    let mut parts = Vec::new();
    let mut rest = file;
    loop {
        let head = format!("# {}\n", parts.len());
        match rest.strip_prefix(head.as_str()) {
            None => return parts,
            Some(after) => {
                let next = format!("# {}\n", parts.len() + 1);
                let end = if after.starts_with(next.as_str()) {
                    0
                } else {
                    after.find(&format!("\n{}", next)).map_or(after.len(), |at| at + 1)
                };
                parts.push(&after[..end]);
                rest = &after[end..];
            }
        }
    }
}

pub fn compare(cases: &[Case], file: &str) -> Comparison {
    let others = answers_in(file);
    let mut result = Comparison { passed: 0, failed: 0, report: String::new() };
    for (number, case) in cases.iter().enumerate() {
        let own = printed_to(case);
        let other = others.get(number).copied();
        if other == Some(own.as_str()) {
            result.passed += 1;
            continue;
        }
        result.failed += 1;
        if result.failed <= SHOWN {
            let kind = case.kind() as char;
            let there = beginning(other.unwrap_or("(no answer)\n"));
            let here = beginning(&own);
            result.report +=
                &format!("case {} ({}):\n  here:  {}  there: {}", number, kind, here, there);
        }
    }
    result
}
