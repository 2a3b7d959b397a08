// The cases of page 01 with the answers that it gives, and the rule and the
// limits by hand. The five errors that come easily are made on purpose. Four
// must give the wrong tick that page 01 foretells; the fifth, for which it
// foretells none, must differ from the rule on P10. A sixth, of carriers that
// share a lift, must differ from the rule on a train.

use crate::answers::answer_to_text;
use crate::halls::{complete, line};
use crate::mistakes;
use crate::page;
use crate::plan::plan;
use crate::rule::Pair;
use crate::selftest_asking;
use crate::selftest_book;
use crate::selftest_closed;
use crate::selftest_coding;
use crate::selftest_dwell;
use crate::selftest_lent;
use crate::selftest_refusals;
use crate::selftest_shared;
use crate::selftest_trolley;
use crate::selftest_write;
use crate::systematic::PRINTED_JOB;
use crate::text;

#[derive(Default)]
pub struct Checks {
    passed: usize,
    failures: Vec<String>,
}

impl Checks {
    pub fn same<T: PartialEq + std::fmt::Debug>(&mut self, name: &str, found: T, wanted: T) {
        if found == wanted {
            self.passed += 1;
        } else {
            self.failures.push(format!("{}: found {:?}, wanted {:?}", name, found, wanted));
        }
    }

    pub fn prints(&mut self, name: &str, text: &[u8], wanted: &str) {
        self.same(name, answer_to_text(text).printed().as_str(), wanted);
    }
}

fn proved_cases(checks: &mut Checks) {
    for (name, job, wanted) in page::cases() {
        checks.same(name, plan(&job).map(|plan| plan.ticks), wanted);
    }
    let plan_of_page = "PLAN 3\n0 0 4 4\n1 5 4 9\n2 3 1 4\nCOST 17\n";
    checks.prints("P1", b"NODES 1\nLANES 0\nCARRIERS 0\nORDER 0\n", "PLAN 0\nCOST 0\n");
    checks.prints("P8", PRINTED_JOB.as_bytes(), plan_of_page);
    checks.same("P9 cost", plan(&page::printed_job_reversed()).map(|plan| plan.cost()), Ok(14));
    checks.prints("P11", &text::write(&page::goal_out_of_reach()), "REFUSED 8 5\n");
}

fn easy_errors(checks: &mut Checks) {
    let printed = page::printed_job();
    checks.same("difference reversed", mistakes::difference_reversed(&printed)[2], 1);
    checks.same("after the last", mistakes::after_the_last(&printed)[2], 8);
    checks.same("meetings only", mistakes::meetings_only(&page::head_on()), vec![0, 0]);
    checks.same("parity dropped", mistakes::parity_dropped(&page::all_six_lanes()), vec![0, 1]);
    let apart = page::two_lanes_apart();
    checks.same("no walk as a distance", mistakes::no_walk_as_distance(&apart), vec![0, 3]);
    checks.same("zero as no walk", mistakes::zero_as_no_walk(&page::train()), vec![0, 0, 0]);
}

/// Which of the differences -2 to 2 the rule forbids without a dwell, by distance
/// between the starts, lead of the earlier carrier, lead of the later one, and
/// gap.
fn rule(checks: &mut Checks) {
    for (between_starts, lead_of_earlier, lead_of_later, gap, wanted) in [
        // Below gap 0 the stretch is forbidden with both its ends.
        (2, 1, 1, -1, vec![-1, 0, 1]),
        (1, 1, 1, -2, vec![-1, 0, 1]),
        (1, 2, -1, -2, vec![1, 2]),
        (1, -1, 2, -2, vec![-2, -1]),
        (3, 0, 0, -2, vec![0]),
        // At gap 0 an end is free if its difference from ds is odd.
        (2, 1, 1, 0, vec![0]),
        (1, 1, 1, 0, vec![-1, 0, 1]),
        (2, 2, -1, 0, vec![2]),
        (1, 2, -1, 0, vec![1]),
        (1, 0, 0, 0, vec![]),
        (2, 0, 0, 0, vec![0]),
        // Above gap 0, or with the ends the wrong way round, nothing is.
        (1, 1, 1, 1, vec![]),
        (2, 2, 2, 2, vec![]),
        (1, -1, -1, -2, vec![]),
        (1, -1, 0, 0, vec![]),
    ] {
        let pair = Pair { between_starts, lead_of_earlier, lead_of_later, gap, dwell: 0 };
        let found: Vec<i64> = (-2..=2).filter(|&difference| !pair.permits(difference)).collect();
        let name = format!("{} {} {} {}", between_starts, lead_of_earlier, lead_of_later, gap);
        checks.same(&name, found, wanted);
    }
}

fn limits(checks: &mut Checks) {
    let rest = "LANES 0\nCARRIERS 0\nORDER 0\n";
    for (count, wanted) in [
        ("1", "PLAN 0\nCOST 0\n"),
        ("1024", "PLAN 0\nCOST 0\n"),
        ("1025", "REFUSED 2 1\n"),
        ("0", "REFUSED 2 1\n"),
        ("9999", "REFUSED 2 1\n"),
        ("01", "REFUSED 1 1\n"),
        ("10000", "REFUSED 1 1\n"),
        ("", "REFUSED 1 1\n"),
    ] {
        let text = format!("NODES {}\n{}", count, rest);
        checks.prints(&format!("NODES {}", count), text.as_bytes(), wanted);
    }
    for (carriers, wanted) in [(64, "PLAN 64"), (65, "REFUSED 2 131")] {
        let moves: Vec<(u16, u16)> = (0..carriers).map(|start| (start, start + 1)).collect();
        let text = text::write(&page::job(line(129), &moves));
        let print = answer_to_text(&text).printed();
        checks.same("carriers at the limit", print.lines().next(), Some(wanted));
    }
    let full = complete(92);
    checks.same("the full hall", full.lane_numbers.len(), 8192);
    checks.prints("4,096 lanes", &text::write(&page::job(full, &[])), "PLAN 0\nCOST 0\n");
    checks.prints("4,097 lanes", b"NODES 9\nLANES 4097\n", "REFUSED 2 2\n");
    checks.prints("4,096 lanes missing", b"NODES 9\nLANES 4096\n", "REFUSED 1 3\n");
}

/// The report, and whether every check passed.
pub fn run() -> (String, bool) {
    let mut checks = Checks::default();
    proved_cases(&mut checks);
    easy_errors(&mut checks);
    rule(&mut checks);
    limits(&mut checks);
    selftest_refusals::refusals_of_texts(&mut checks);
    selftest_refusals::refusals_of_numbers(&mut checks);
    selftest_refusals::paths(&mut checks);
    selftest_lent::run(&mut checks);
    selftest_shared::run(&mut checks);
    selftest_write::run(&mut checks);
    selftest_closed::run(&mut checks);
    selftest_dwell::run(&mut checks);
    selftest_coding::run(&mut checks);
    selftest_book::run(&mut checks);
    selftest_trolley::run(&mut checks);
    selftest_asking::run(&mut checks);
    let mut report = checks.failures.join("\n");
    if !report.is_empty() {
        report.push('\n');
    }
    let failed = checks.failures.len();
    report += &format!("selftest: {} passed, {} failed\n", checks.passed, failed);
    (report, failed == 0)
}
