//! Prints the figures, the growth and the goals, as Markdown.

use crate::jobs::{Call, Job};

/// A job with the microseconds of one call to each library; the number says why the call is refused, or is 0.
pub struct Row {
    pub job: Job,
    pub number: u32,
    pub archive: f64,
    pub rust: f64,
    pub c: f64,
}

/// Largest ratio to the faster baseline, largest growth of the time over that of the pairs, largest part that a count by eights takes of the time of
/// the loop of before.
const RATIO: f64 = 1.1;
const GROWTH: f64 = 1.25;
const PART: f64 = 0.5;

impl Row {
    fn baseline(&self) -> f64 {
        self.rust.min(self.c)
    }

    fn ratio(&self) -> f64 {
        self.archive / self.baseline()
    }

    fn is_pairs(&self) -> bool {
        self.number == 0 && self.job.call.unit() == "pairs" && self.job.call != Call::Report
    }
}

/// Microseconds with two decimals, below 0.1 with four.
fn micros(t: f64) -> String {
    if t < 0.1 { format!("{t:.4}") } else { format!("{t:.2}") }
}

fn print_figures(rows: &[Row]) {
    println!("| call | input | size | archive us | Rust us | C us | ratio |");
    println!("|---|---|--:|--:|--:|--:|--:|");
    for r in rows {
        let (job, call) = (&r.job, r.job.call);
        let refused = if r.number == 0 { String::new() } else { format!(" (refused: {})", r.number) };
        print!("| {} | {}{refused} | {} {} ", call.name(), job.input, job.size, call.unit());
        println!("| {} | {} | {} | {:.2} |", micros(r.archive), micros(r.rust), micros(r.c), r.ratio());
    }
}

/// Neighbours that differ in size alone.
fn neighbours(rows: &[Row]) -> impl Iterator<Item = (&Row, &Row)> {
    let alike = |x: &Job, y: &Job| x.call == y.call && x.family == y.family && x.size < y.size;
    let pairs = rows.windows(2).map(|w| (&w[0], &w[1]));
    pairs.filter(move |(x, y)| alike(&x.job, &y.job) && y.number == 0)
}

fn times(x: &Row, y: &Row) -> f64 {
    y.job.size as f64 / x.job.size as f64
}

fn print_growth(rows: &[Row]) {
    println!("| call | input | from | to | archive | Rust | C |");
    println!("|---|---|--:|--:|--:|--:|--:|");
    for (x, y) in neighbours(rows) {
        let doubled = |from: f64, to: f64| (to / from).powf(1.0 / times(x, y).log2());
        let by = [doubled(x.archive, y.archive), doubled(x.rust, y.rust), doubled(x.c, y.c)];
        let job = &y.job;
        print!("| {} | {} | {} | {} ", job.call.name(), job.family, x.job.size, job.size);
        println!("| {:.2} | {:.2} | {:.2} |", by[0], by[1], by[2]);
    }
}

fn print_goal(goal: &str, all: usize, missed: &[String]) {
    let verdict = if missed.is_empty() { "met" } else { "missed" };
    println!("- {goal}: {verdict} ({} of {all})", all - missed.len());
    for m in missed {
        println!("  - {m}");
    }
}

fn print_ratio_goal(goal: &str, mut rows: Vec<&Row>) {
    let all = rows.len();
    rows.retain(|r| r.ratio() > RATIO);
    rows.sort_by(|x, y| y.ratio().total_cmp(&x.ratio()));
    let missed: Vec<String> = rows.iter().map(|r| format!("{}: {:.2}", r.job.title(), r.ratio())).collect();
    print_goal(goal, all, &missed);
}

/// Beside each miss stands what the faster baseline does on the same inputs: a table that leaves the caches costs all three.
fn print_growth_goal(goal: &str, mut steps: Vec<(&Row, &Row)>) {
    let all = steps.len();
    let grown = |x: &Row, y: &Row| y.archive / x.archive;
    steps.retain(|(x, y)| grown(x, y) > GROWTH * times(x, y));
    let line = |(x, y): &(&Row, &Row)| {
        let baseline = y.baseline() / x.baseline();
        format!("{} from {}: {:.2} times; faster baseline: {baseline:.2} times", y.job.title(), x.job.size, grown(x, y))
    };
    print_goal(goal, all, &steps.iter().map(line).collect::<Vec<_>>());
}

fn print_small_goal(goal: &str, mut rows: Vec<&Row>) {
    let all = rows.len();
    rows.retain(|r| r.archive >= 10.0);
    let line = |r: &&Row| format!("{}: {:.2} us", r.job.title(), r.archive);
    print_goal(goal, all, &rows.iter().map(line).collect::<Vec<_>>());
}

/// The count by eights beside the loop of before, on as many flags, and beside the baselines.
fn print_count_goal(goal: &str, rows: &[Row]) {
    let of = |call| rows.iter().filter(move |r| r.job.call == call && r.job.size >= 1024);
    let part = |r: &Row| of(Call::CountSingly).find(|s| s.job.size == r.job.size).map(|s| r.archive / s.archive);
    let parts: Vec<(&Row, f64)> = of(Call::Count).filter_map(|r| Some((r, part(r)?))).collect();
    let missed = parts.iter().filter(|(r, part)| *part > PART || r.ratio() > 1.0);
    let line =
        |(r, part): &(&Row, f64)| format!("{}: {part:.2} of the loop of before, {:.2} of the faster baseline", r.job.title(), r.ratio());
    print_goal(goal, parts.len(), &missed.map(line).collect::<Vec<_>>());
}

fn print_goals(rows: &[Row]) {
    let pairs = || rows.iter().filter(|r| r.is_pairs());
    let others = rows.iter().filter(|r| r.job.call.unit() != "pairs" || r.job.call == Call::Report);
    let steps = neighbours(rows).filter(|(x, _)| x.is_pairs());
    let large = pairs().filter(|r| r.job.size >= 256).collect();
    let small = pairs().filter(|r| r.job.size <= 64).collect();
    print_ratio_goal("(a) from 256 pairs up at most 1.1 times the faster baseline", large);
    print_growth_goal("(b) linear: time grows at most 1.25 times as much as the pairs", steps.collect());
    print_small_goal("(c) up to 64 pairs under 10 us", small);
    print_ratio_goal(
        "(d) judging, texts, reports, counts, ends, reach and the follower at most 1.1 times the faster baseline",
        others.collect(),
    );
    print_count_goal("(e) from 1,024 flags up at most half the time of the loop of before, and no more than either baseline", rows);
}

pub fn print(rows: &[Row]) {
    println!("## Figures\n");
    print_figures(rows);
    println!("\n## Growth of the time where the size doubles\n");
    print_growth(rows);
    println!("\n## Goals\n");
    print_goals(rows);
}
