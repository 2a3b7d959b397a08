// What a batch holds: how often each kind of case is accepted and how often
// it meets each refusal, so that a reader sees at a glance what is missing.
// Refusal 9 comes only where a table is lent shorter than its least length, and
// the column of 6, which is not in use, has zeros alone. Of a floor book each call and
// each question counts by itself, and a trolley counts once. What was chosen, planned,
// written, admitted and asked is told in a few lines below the table.

use crate::answers::answers_to;
use crate::batch::{Case, KINDS};
use crate::histogram_asking::Questions;
use crate::histogram_book::Admitted;
use crate::histogram_trolley::Unloaded;
use crate::histogram_write::Written;
use crate::job::{Job, Refusal, MOST_CARRIERS, MOST_DWELL};
use crate::paths::{choose, Choice};
use crate::text;

/// A payload over so many bytes is large.
const LARGE: usize = 8000;

#[derive(Default)]
struct Row {
    cases: usize,
    accepted: usize,
    refused: [usize; 18],
}

#[derive(Default)]
struct Extra {
    /// Refusals 2 from numbers by place.
    places: [usize; 6],
    own: usize,
    spare: usize,
    neither: usize,
    /// Cases with a large payload, and accepted plans with 64 carriers among
    /// them: the ones that take long on a slow machine.
    large: usize,
    full_plans: usize,
    bytes: usize,
    longest: usize,
}

/// Accepted plans with two carriers or more, and what their carriers share.
#[derive(Default)]
struct Shared {
    plans: usize,
    /// Some two carriers have one start, one goal, or both in common.
    start: usize,
    goal: usize,
    both: usize,
    /// No two carriers have an end in common.
    none: usize,
    more_than_nodes: usize,
    full: usize,
    /// Some node is closed.
    closed: usize,
    /// Carriers wait on their goals, and as long as they may.
    dwelling: usize,
    longest: usize,
}

/// The job of an accepted case that is planned.
fn planned(case: &Case) -> Option<Job> {
    match case {
        Case::Plan { text } => text::read(text).ok(),
        Case::PlanRecords { job, .. } => Some(job.job()),
        Case::PlanLists { job, .. } => Some(job.job()),
        _ => None,
    }
}

/// What is chosen in a case with a choice, unless its text is not read.
fn chosen(case: &Case) -> Option<Choice> {
    match case {
        Case::Choose { asked, own, spare, text } => {
            text::read(text).ok().map(|job| choose(&job.hall, *asked, own, spare))
        }
        Case::ChooseNumbers { asked, own, spare, hall } => Some(choose(hall, *asked, own, spare)),
        _ => None,
    }
}

/// Whether some number stands twice.
fn repeats<T: Ord>(mut numbers: Vec<T>) -> bool {
    numbers.sort_unstable();
    numbers.windows(2).any(|two| two[0] == two[1])
}

impl Shared {
    fn note(&mut self, job: &Job) {
        let Job { hall, moves, dwell, .. } = job;
        if moves.len() < 2 {
            return;
        }
        let start = repeats(moves.iter().map(|asked| asked.start).collect());
        let goal = repeats(moves.iter().map(|asked| asked.goal).collect());
        self.plans += 1;
        self.start += usize::from(start);
        self.goal += usize::from(goal);
        let both = repeats(moves.iter().map(|asked| (asked.start, asked.goal)).collect());
        self.both += usize::from(both);
        self.none += usize::from(!start && !goal);
        self.more_than_nodes += usize::from(moves.len() > hall.nodes as usize);
        self.full += usize::from(moves.len() == MOST_CARRIERS);
        self.closed += usize::from(!hall.closed.is_empty());
        self.dwelling += usize::from(*dwell > 0);
        self.longest += usize::from(*dwell == MOST_DWELL);
    }

    fn printed(&self) -> String {
        format!(
            "\naccepted plans of two carriers or more: {}; some two have one start in {}, one goal \
             in {}, both in {}; no end is shared in {}\
             \nof them with more carriers than nodes: {}, with 64 carriers: {}, with closed \
             nodes: {}, with a dwell: {}, with a dwell of 255: {}",
            self.plans,
            self.start,
            self.goal,
            self.both,
            self.none,
            self.more_than_nodes,
            self.full,
            self.closed,
            self.dwelling,
            self.longest
        )
    }
}

impl Extra {
    fn note(&mut self, case: &Case) {
        let length = case.payload().len();
        self.bytes += length + 5;
        self.longest = self.longest.max(length);
        self.large += usize::from(length > LARGE);
        match chosen(case) {
            Some(Choice::Own) => self.own += 1,
            Some(Choice::Spare) => self.spare += 1,
            Some(Choice::Neither) => self.neither += 1,
            None => {}
        }
    }

    fn note_refusal(&mut self, case: &Case, refusal: Refusal) {
        if refusal.number == 2 && b"nptowjxyBTG".contains(&case.kind()) {
            self.places[refusal.at] += 1;
        }
    }

    fn note_plan(&mut self, case: &Case, job: &Job) {
        let is_large = case.payload().len() > LARGE;
        self.full_plans += usize::from(is_large && job.moves.len() == MOST_CARRIERS);
    }
}

pub fn histogram(cases: &[Case]) -> String {
    let mut rows: Vec<Row> = KINDS.iter().map(|_| Row::default()).collect();
    let mut extra = Extra::default();
    let mut shared = Shared::default();
    let mut written = Written::default();
    let mut admitted = Admitted::default();
    let mut unloaded = Unloaded::default();
    let mut questions = Questions::default();
    for case in cases {
        extra.note(case);
        admitted.note(case);
        unloaded.note(case);
        questions.note(case);
        let place = KINDS.iter().position(|&kind| kind == case.kind()).expect("a known kind");
        rows[place].cases += 1;
        for answer in answers_to(case) {
            written.note(case, &answer);
            if let Some(refusal) = answer.refusal() {
                rows[place].refused[refusal.number as usize] += 1;
                extra.note_refusal(case, refusal);
                continue;
            }
            rows[place].accepted += 1;
            if let Some(job) = planned(case) {
                shared.note(&job);
                extra.note_plan(case, &job);
            }
        }
    }
    let below = [
        shared.printed(),
        written.printed(),
        admitted.printed(),
        unloaded.printed(),
        questions.printed(),
    ];
    printed(&rows, &extra, &below.concat())
}

fn printed(rows: &[Row], extra: &Extra, below: &str) -> String {
    let mut out = "kind   cases accepted".to_string();
    (1..=17).for_each(|number| out += &format!("{:>7}", number));
    for (kind, row) in KINDS.iter().zip(rows) {
        out += &format!("\n{:<4} {:>7} {:>8}", *kind as char, row.cases, row.accepted);
        row.refused[1..].iter().for_each(|count| out += &format!("{:>7}", count));
    }
    out += &format!("\nrefusal 2 from numbers, by place: {:?}", extra.places);
    out += &format!("\nchoices: {} own, {} spare, {} none", extra.own, extra.spare, extra.neither);
    out += below;
    out + &format!(
        "\nlarge cases (over 8,000 bytes): {}, plans of 64 carriers among them: {}\
         \nbytes: {} in all, {} in the longest payload\n",
        extra.large, extra.full_plans, extra.bytes, extra.longest
    )
}
