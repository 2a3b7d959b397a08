// Carriers that wait on their goals, by hand: the cases of the rules with their
// ticks and cost, the widened rule, the errors that come easily with the ticks
// that they would give, and the refusals of texts with their lines. Then every
// permitted difference of every pair of moves in all small networks is tried
// with every choice of shortest paths.

use crate::job::{refuse, Job};
use crate::mistakes_dwell as mistakes;
use crate::page::{self, dwelling};
use crate::paths::{house_path_of_carrier, judge_for_carrier};
use crate::plan::plan;
use crate::rule::{Distances, Pair};
use crate::safe_ticks::limits;
use crate::selftest::Checks;
use crate::shortest::{
    all_distances, all_paths, crosses, meets, some_choice_collides, AllDistances, Timed,
};
use crate::small::{all_small_halls, pairs_in};
use crate::systematic::PRINTED_JOB;

fn cases_of_the_rules(checks: &mut Checks) {
    for (number, (job, ticks, cost)) in page::dwell_cases().into_iter().enumerate() {
        let found = plan(&job).map(|plan| (plan.cost(), plan.ticks));
        checks.same(&format!("dwell, case {}", number), found, Ok((cost, ticks)));
    }
    for (number, (job, refusal)) in page::dwell_refusals().into_iter().enumerate() {
        let found = plan(&job).map(|plan| plan.ticks);
        checks.same(&format!("dwell, refusal {}", number), found, Err(refusal));
    }
    // Goal ticks and cost are printed without the dwell.
    let text = [PRINTED_JOB, "DWELL 2\n"].concat();
    let printed = "PLAN 3\n0 0 4 4\n1 7 4 11\n2 5 1 6\nCOST 21\n";
    checks.prints("the printed job with a dwell", text.as_bytes(), printed);
    let bare = "NODES 1\nLANES 0\nCARRIERS 0\nORDER 0\nDWELL 255\n";
    checks.prints("no carriers", bare.as_bytes(), "PLAN 0\nCOST 0\n");
}

/// Which of the differences -4 to 4 the rule forbids, by distance between the
/// starts, lead of the earlier carrier, lead of the later one, gap and dwell.
fn rule(checks: &mut Checks) {
    for (between_starts, lead_of_earlier, lead_of_later, gap, dwell, wanted) in [
        (2, 1, 0, -1, 1, vec![-1, 0, 1, 2]),
        (2, 1, 0, -1, 2, vec![-2, -1, 0, 1, 2, 3]),
        // At gap 0 no end is free, neither an old one nor a moved one.
        (1, 0, 0, 0, 0, vec![]),
        (1, 0, 0, 0, 1, vec![-1, 0, 1]),
        (1, 0, 0, 0, 2, vec![-2, -1, 0, 1, 2]),
        (2, 0, 0, 0, 1, vec![-1, 0, 1]),
        (2, 1, 1, 0, 2, vec![-3, -2, -1, 0, 1, 2, 3]),
        // A stretch that is empty at first is widened like any other.
        (1, -1, -1, 0, 0, vec![]),
        (1, -1, -1, 0, 1, vec![0]),
        (1, -1, -1, 0, 2, vec![-1, 0, 1]),
        (1, -2, -2, -2, 1, vec![]),
        (1, -2, -1, -2, 1, vec![]),
        (1, -2, -1, -2, 2, vec![-1, 0]),
        (1, -3, 1, -2, 1, vec![-2]),
        (1, -3, 1, -2, 0, vec![]),
        (3, 3, -4, -2, 1, vec![3, 4]),
        // Above gap 0 nothing is forbidden, however long the dwell.
        (1, 1, 1, 1, 1, vec![]),
        (2, 2, 2, 2, 255, vec![]),
    ] {
        let pair = Pair { between_starts, lead_of_earlier, lead_of_later, gap, dwell };
        let found: Vec<i64> = (-4..=4).filter(|&difference| !pair.permits(difference)).collect();
        let name = format!(
            "{} {} {} {}, dwell {}",
            between_starts, lead_of_earlier, lead_of_later, gap, dwell
        );
        checks.same(&name, found, wanted);
    }
}

/// Each error of rule 11.17, and some more, on a case that tells it from the rule,
/// and the wrong ticks.
fn easy_errors(checks: &mut Checks) {
    let printed = dwelling(2, page::printed_job());
    let against = dwelling(2, page::against());
    let one_chute = dwelling(2, page::one_chute());
    let opposite = dwelling(1, page::opposite_sides());
    let six_lanes = |dwell: u32| dwelling(dwell, page::all_six_lanes());
    let two_nodes = dwelling(255, page::two_nodes());
    let wide_apart = dwelling(255, page::wide_apart());
    type Mistake = fn(&Job) -> Vec<i64>;
    let errors: [(&str, Mistake, &Job, Vec<i64>); 12] = [
        ("dwell left out", mistakes::dwell_left_out, &printed, vec![0, 5, 3]),
        ("upper end only", mistakes::upper_end_only, &one_chute, vec![0, 0]),
        ("upper end only", mistakes::upper_end_only, &opposite, vec![0, 0]),
        ("lower end only", mistakes::lower_end_only, &against, vec![0, 5]),
        ("lower end only", mistakes::lower_end_only, &one_chute, vec![0, 3]),
        ("old ends", mistakes::old_ends_excepted, &six_lanes(1), vec![0, 0]),
        ("moved ends", mistakes::moved_ends_excepted, &six_lanes(2), vec![0, 2]),
        ("moved ends", mistakes::moved_ends_excepted, &two_nodes, vec![0, 256]),
        ("empty before", mistakes::empty_before_widened, &opposite, vec![0, 0]),
        ("gap overlooked", mistakes::gap_overlooked, &wide_apart, vec![0, 255]),
        ("a tick early", mistakes::gone_a_tick_early, &printed, vec![0, 6, 4]),
        ("a tick early", mistakes::gone_a_tick_early, &one_chute, vec![0, 0]),
    ];
    for (name, mistake, job, wrong) in errors {
        checks.same(name, mistake(job), wrong.clone());
        let right = plan(job).map(|plan| plan.ticks);
        checks.same(&format!("{} is an error", name), right == Ok(wrong), false);
    }
    checks.same("waits in the cost", mistakes::cost_with_waits(&printed), Some(27));
}

/// What follows the 14 lines of page 01's job, and the refusal.
fn refusals_of_texts(checks: &mut Checks) {
    for (end, wanted) in [
        ("DWELL 0\n", "2 15"),
        ("DWELL 256\n", "2 15"),
        ("DWELL 9999\n", "2 15"),
        ("DWELL 10000\n", "1 15"),
        ("DWELL 01\n", "1 15"),
        ("DWELL 00\n", "1 15"),
        ("DWELL 0256\n", "1 15"),
        ("DWELL\n", "1 15"),
        ("DWELL \n", "1 15"),
        ("DWELL 2", "1 15"),
        ("DWELL 0", "1 15"),
        ("D", "1 15"),
        ("DWELL 2 \n", "1 15"),
        (" DWELL 2\n", "1 15"),
        ("DWELL  2\n", "1 15"),
        ("DWELL 2\r\n", "1 15"),
        ("DWELL 2 2\n", "1 15"),
        ("dwell 2\n", "1 15"),
        ("DWELLS 2\n", "1 15"),
        ("2\n", "1 15"),
        ("\n", "1 15"),
        ("CLOSED 1\n0\n", "1 15"),
        ("CARRIERS 0\n", "1 15"),
        ("\nDWELL 2\n", "1 15"),
        ("DWELL 2\n\n", "1 16"),
        ("DWELL 2\nDWELL 2\n", "1 16"),
        ("DWELL 2\nx", "1 16"),
        ("DWELL 0\nx", "2 15"),
        ("DWELL 02\nx", "1 15"),
    ] {
        let text = [PRINTED_JOB, end].concat();
        checks.prints(&format!("{:?}", end), text.as_bytes(), &format!("REFUSED {}\n", wanted));
    }
    // Before a line of the text, and in the place of one.
    for (line, instead, wanted) in [
        ("NODES", "DWELL 2\nNODES", "1 1"),
        ("LANES", "DWELL 2\nLANES", "1 2"),
        ("0 1", "DWELL 2\n0 1", "1 3"),
        ("1 2", "DWELL 2", "1 4"),
        ("CARRIERS", "DWELL 2\nCARRIERS", "1 7"),
        ("CARRIERS 3", "DWELL 2", "1 7"),
        ("ORDER", "DWELL 2\nORDER", "1 11"),
        ("0\n1\n2\n", "DWELL 2\n0\n1\n2\n", "1 12"),
        ("0\n1\n2\n", "0\n1\nDWELL 2\n", "1 14"),
    ] {
        let text = PRINTED_JOB.replacen(line, instead, 1);
        checks.prints(&format!("{:?}", instead), text.as_bytes(), &format!("REFUSED {}\n", wanted));
    }
    // Lines before it decide, and a carrier without a walk keeps its line.
    let order = [&PRINTED_JOB.replace("1\n2\n", "1\n1\n"), "DWELL 0\n"].concat();
    checks.prints("7 goes before", order.as_bytes(), "REFUSED 7 14\n");
    let lost = "NODES 3\nLANES 1\n0 1\nCARRIERS 1\n0 2\nORDER 1\n0\nDWELL 9\n";
    checks.prints("no walk", lost.as_bytes(), "REFUSED 8 5\n");
    let zero = lost.replace('9', "0");
    checks.prints("2 goes before 8", zero.as_bytes(), "REFUSED 2 8\n");
}

/// A path does not depend on the dwell, unless that is too long.
fn questions(checks: &mut Checks) {
    for (dwell, path, passed) in [
        (0, Ok(vec![2, 1]), Ok(())),
        (255, Ok(vec![2, 1]), Ok(())),
        (256, refuse(2, 5), refuse(2, 5)),
        (u32::MAX, refuse(2, 5), refuse(2, 5)),
    ] {
        let job = dwelling(dwell, page::printed_job());
        checks.same("house path", house_path_of_carrier(&job, 2), path);
        checks.same("judging", judge_for_carrier(&job, 2, &[2, 1]), passed);
    }
}

/// Whether some choice of shortest paths meets or crosses at a difference: found
/// by trying all of them, and told from distances alone.
fn collides(table: &AllDistances, job: &Job, difference: i64) -> (bool, bool) {
    let dwell = i64::from(job.dwell);
    let rivals = all_paths(table, job.moves[1]);
    let found = all_paths(table, job.moves[0]).iter().any(|path| {
        let one = Timed { path, tick: 0, dwell };
        rivals.iter().any(|path| {
            let other = Timed { path, tick: difference, dwell };
            meets(one, other) || crosses(one, other)
        })
    });
    let (one, other) = (job.moves[0], job.moves[1]);
    (found, some_choice_collides(table, dwell, (one, 0), (other, difference)))
}

/// Every difference that matters, of every pair in all small networks: where the
/// rule permits it, no choice of paths collides.
fn permitted_is_safe(checks: &mut Checks, dwell: u32) {
    let (mut permitted, mut colliding, mut both, mut told_otherwise) = (0, 0, 0, 0);
    for job in all_small_halls().iter().flat_map(|hall| pairs_in(hall, dwell)) {
        if plan(&job).is_err() {
            continue;
        }
        let table = all_distances(&job.hall);
        let pair = Pair::of(&Distances::of(&job), dwell, 0, 1);
        for difference in -9..=9 {
            let permits = pair.map_or(true, |pair| pair.permits(difference));
            let (found, told) = collides(&table, &job, difference);
            permitted += usize::from(permits);
            colliding += usize::from(found);
            both += usize::from(permits && found);
            told_otherwise += usize::from(found != told);
        }
    }
    checks.same(&format!("permitted and unsafe with dwell {}", dwell), both, 0);
    checks.same("told from distances otherwise than found", told_otherwise, 0);
    checks.same("there are some of each", permitted > 10_000 && colliding > 10_000, true);
}

pub fn run(checks: &mut Checks) {
    cases_of_the_rules(checks);
    checks.same("limits, no dwell", limits(0), [64_512, 65_535, 65_535, 4_194_240]);
    checks.same("limits, dwell 255", limits(255), [80_577, 81_600, 81_855, 5_222_400]);
    rule(checks);
    easy_errors(checks);
    refusals_of_texts(checks);
    questions(checks);
    for dwell in 0..=3 {
        permitted_is_safe(checks, dwell);
    }
}
