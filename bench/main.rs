//! Benchmarks: the archive against plain Rust and plain C, on the same inputs in one run. Before anything is timed, the three must agree on
//! every reply and every byte of the lent buffers.

mod inputs;
mod jobs;
mod libraries;
mod plain;
mod report;
mod trials;

use jobs::{Call, Job, SEED};
use libraries::{Archive, Library, PlainC, PlainRust};
use plain::{Reply, Scratch, Table};
use report::Row;
use std::collections::BTreeMap;
use std::hint::black_box;
use std::time::{Duration, Instant};

const BATCHES: usize = 25;
const BATCH: Duration = Duration::from_millis(2);

type Libraries = [Box<dyn Library>; 3];

/// What a call may write to.
#[derive(PartialEq)]
struct Buffers {
    cells: Vec<u16>,
    others: Vec<u16>,
    bytes: Vec<u8>,
    made: Vec<u16>,
    flags: Vec<u8>,
}

/// A job ready to be run: its names as the writer takes them.
struct Ready<'a> {
    job: &'a Job,
    names: Vec<&'a [u8]>,
}

fn ready(job: &Job) -> Ready<'_> {
    let names = job.names.iter().map(|n| n.as_bytes()).collect();
    Ready { job, names }
}

/// Buffers of the lengths that the call wants, all bytes 7.
fn buffers(job: &Job) -> Buffers {
    let (a, b) = &job.tables[0];
    let (cells, others, bytes) = match job.call {
        Call::Fit | Call::Refine | Call::Reach => (0, 0, job.size),
        Call::Synthesize => (job.size * 32, 0, job.size),
        Call::Read | Call::Archive | Call::List | Call::Report => (a.cells.len(), b.cells.len(), job.room),
        Call::Write => (0, 0, job.room),
        Call::Judge | Call::Count | Call::CountSingly | Call::Ends | Call::Follow => (0, 0, 0),
    };
    let pairs = if job.call == Call::Report { job.size } else { 0 };
    Buffers {
        cells: vec![0x707; cells],
        others: vec![0x707; others],
        bytes: vec![7; bytes],
        made: vec![0x707; pairs * 32],
        flags: vec![7; pairs],
    }
}

/// The follower over all signals: the state it ends in, and in place of the line how often it moved. No reply is kept whole: to copy it right
/// after it was written field by field would cost more than the step.
fn follow_all(l: &mut dyn Library, job: &Job) -> Reply {
    let t = job.tables[0].0.table();
    let (mut state, mut moves) = (0, 0);
    for &s in &job.bytes {
        let reply = l.follow(&t, state, s as usize);
        state = reply.value;
        moves += usize::from(reply.yes);
    }
    Reply { value: state, line: moves, ..Reply::default() }
}

/// How many counts one run of a job makes: of few flags so many that what stands around a count does not matter.
fn counts_in_run(job: &Job) -> usize {
    match job.call {
        Call::Count | Call::CountSingly => 1 + 4096 / job.size.max(1),
        _ => 1,
    }
}

/// The count, as often as one run makes it.
fn count_all(job: &Job, mut count: impl FnMut(&[u8]) -> usize) -> Reply {
    let mut kept = 0;
    for _ in 0..counts_in_run(job) {
        kept = count(black_box(&job.bytes));
    }
    Reply { value: kept, ..Reply::default() }
}

/// Makes a search, which leaves marks and returns nothing.
fn mark(l: &mut dyn Library, t: &Table, job: &Job, to: &mut Buffers) -> Reply {
    l.mark_reached(&mut to.bytes, t.initial, &job.sets, t.cells);
    Reply::default()
}

/// The lister, which returns the length of what it prints.
fn list(l: &mut dyn Library, job: &Job, to: &mut Buffers) -> Reply {
    let length = l.list(&job.bytes, &job.plan, &mut to.cells, &mut to.others, &mut to.bytes);
    Reply { value: length, ..Reply::default() }
}

/// Makes a report, which returns the length of what it prints too.
fn report(l: &mut dyn Library, job: &Job, to: &mut Buffers) -> Reply {
    let texts = [&job.bytes[..], &job.plan];
    let length = l.report(texts, [&mut to.cells, &mut to.others], &mut to.made, &mut to.flags, &mut to.bytes);
    Reply { value: length, ..Reply::default() }
}

/// The i-th call.
fn run(l: &mut dyn Library, r: &Ready, i: usize, to: &mut Buffers) -> Reply {
    let job = r.job;
    let (a, b) = &job.tables[i % job.tables.len()];
    let (a, b) = (a.table(), b.table());
    match job.call {
        Call::Judge => l.judge(&a),
        Call::Fit => l.fit(&a, &b, &mut to.bytes),
        Call::Refine => l.refine(&a, &b, &mut to.bytes),
        Call::Synthesize => l.synthesize(&a, &b, &mut to.cells, &mut to.bytes),
        Call::Read => l.read_together(&job.bytes, &job.plan, &mut to.cells, &mut to.others),
        Call::Archive => l.read_archive_together(&job.bytes, &job.plan, &mut to.cells, &mut to.others),
        Call::List => list(l, job, to),
        Call::Write => l.write(&a, b"startup", &r.names, &mut to.bytes),
        Call::Report => report(l, job, to),
        Call::Count => count_all(job, |flags| l.count_kept(flags)),
        Call::CountSingly => count_all(job, |flags| l.count_singly(flags)),
        Call::Ends => Reply { value: l.count_ends(&a, &job.bytes), ..Reply::default() },
        Call::Reach => mark(l, &a, job, to),
        Call::Follow => follow_all(l, job),
    }
}

/// The refusal number of a call: that of its reply, or the one that the lister or the report printed.
fn refusal_of(job: &Job, reply: &Reply, to: &Buffers) -> u32 {
    if !matches!(job.call, Call::List | Call::Report) {
        return reply.number;
    }
    let printed = String::from_utf8_lossy(&to.bytes[..reply.value.min(job.room)]);
    match printed.split('\t').collect::<Vec<_>>()[..] {
        ["refused", _, number, _] => number.parse().expect("a number"),
        _ => 0,
    }
}

/// Has the three libraries make the i-th call; their common refusal number. Stops the program where they differ.
fn agree(ls: &mut Libraries, r: &Ready, i: usize) -> u32 {
    let results = ls.each_mut().map(|l| {
        let mut to = buffers(r.job);
        (run(l.as_mut(), r, i, &mut to), to)
    });
    for (reply, to) in &results[1..] {
        assert_eq!(*reply, results[0].0, "replies differ: {}", r.job.title());
        assert!(*to == results[0].1, "buffers differ: {}", r.job.title());
    }
    let (reply, to) = &results[0];
    if reply.number == 0 {
        check_outcome(r.job, reply, to);
    }
    refusal_of(r.job, reply, to)
}

/// What is known of the outcome: reading a text gives the table that it was made of, writing the table that text; the lister and the report read
/// too, and print what is expected and nothing else; a counter's sequencer has as many kept states as document 000 says, one for each value; of a
/// chain all states are reached, and the last is its only end.
fn check_outcome(job: &Job, reply: &Reply, to: &Buffers) {
    let kept = to.bytes.iter().filter(|&&flag| flag == 1).count();
    match job.family.as_str() {
        trials::NAME => {}
        "counter" => assert_eq!(kept, job.size),
        "counter with errors" => assert_eq!(kept, job.size / 2),
        _ => match job.call {
            Call::Read | Call::Archive => check_cells(job, to),
            Call::List | Call::Report => {
                check_cells(job, to);
                check_printed(job, to);
            }
            Call::Write => assert!(to.bytes[..job.size] == job.bytes),
            Call::Ends if job.family == "chain" => assert_eq!(reply.value, 1),
            Call::Reach if job.family == "chain" => assert_eq!(kept, job.size),
            _ => {}
        },
    }
}

fn check_cells(job: &Job, to: &Buffers) {
    let (a, b) = &job.tables[0];
    assert!(to.cells == a.cells && to.others == b.cells);
}

fn check_printed(job: &Job, to: &Buffers) {
    let (printed, rest) = to.bytes.split_at(job.printed.len());
    assert!(printed == job.printed.as_bytes() && rest.iter().all(|&b| b == 7));
}

/// Tries the small inputs; how many calls each refusal number turned away.
fn try_all(ls: &mut Libraries) -> BTreeMap<u32, usize> {
    let mut counts = BTreeMap::new();
    for job in trials::all(SEED) {
        *counts.entry(agree(ls, &ready(&job), 0)).or_default() += 1;
    }
    counts
}

fn time(l: &mut dyn Library, r: &Ready, to: &mut Buffers, calls: usize) -> Duration {
    let start = Instant::now();
    for i in 0..calls {
        black_box(run(l, black_box(r), i, to));
    }
    start.elapsed()
}

/// How many calls fill a batch: all inputs equally often.
fn calls_in_batch(l: &mut dyn Library, r: &Ready, to: &mut Buffers) -> usize {
    let once = r.job.tables.len();
    let mut calls = once;
    loop {
        let taken = time(l, r, to, calls);
        if taken * 2 >= BATCH {
            let wanted = calls as f64 * BATCH.as_secs_f64() / taken.as_secs_f64();
            return (wanted as usize / once).max(1) * once;
        }
        calls *= 2;
    }
}

/// Microseconds of one call to each library: the least of the batches, which alternate so that a disturbance hits all three.
fn measure(ls: &mut Libraries, r: &Ready) -> [f64; 3] {
    let mut to = buffers(r.job);
    let calls = ls.each_mut().map(|l| calls_in_batch(l.as_mut(), r, &mut to));
    let mut least = [f64::INFINITY; 3];
    for _ in 0..BATCHES {
        for i in 0..3 {
            let taken = time(ls[i].as_mut(), r, &mut to, calls[i]);
            least[i] = least[i].min(taken.as_secs_f64() * 1e6 / (calls[i] * counts_in_run(r.job)) as f64);
        }
    }
    least
}

/// The three agree on all inputs of a job; the refusal of the first.
fn agree_on_all(ls: &mut Libraries, r: &Ready) -> u32 {
    let number = agree(ls, r, 0);
    for i in 1..r.job.tables.len() {
        agree(ls, r, i);
    }
    number
}

fn measured(ls: &mut Libraries, job: Job) -> Row {
    let r = ready(&job);
    let number = agree_on_all(ls, &r);
    let [archive, rust, c] = measure(ls, &r);
    Row { job, number, archive, rust, c }
}

/// Times nothing: a test of the baselines, and of the archive by them.
fn only_agree(ls: &mut Libraries) {
    let jobs = jobs::all("");
    for job in &jobs {
        agree_on_all(ls, &ready(job));
    }
    println!("The three agree on {} jobs and {} small inputs.", jobs.len(), try_all(ls).values().sum::<usize>());
}

/// Only calls, for a profiler: each job so many times on one library.
#[inline(never)]
fn repeat(l: &mut dyn Library, jobs: &[Job], calls: usize) {
    for job in jobs {
        time(l, &ready(job), &mut buffers(job), calls);
    }
}

/// Without arguments measures everything; with one, the jobs whose title has it, or, if it is `agree`, nothing: see `only_agree`. With three (part
/// of a title; library: 0 archive, 1 Rust, 2 C; calls) see `repeat`.
fn main() {
    let args: Vec<String> = std::env::args().skip(1).collect();
    let mut ls: Libraries = [Box::new(Archive), Box::new(PlainRust(Scratch::new())), Box::new(PlainC)];
    if args == ["agree"] {
        return only_agree(&mut ls);
    }
    let jobs = jobs::all(args.first().map_or("", |part| part));
    if let [_, library, calls] = &args[..] {
        let number = |s: &String| s.parse::<usize>().expect("a number");
        return repeat(ls[number(library)].as_mut(), &jobs, number(calls));
    }
    println!("Seed {SEED}; least of {BATCHES} batches of {} ms each.\n", BATCH.as_millis());
    println!("Small inputs on which the three agree, by refusal number (0: none): {:?}\n", try_all(&mut ls));
    let rows: Vec<Row> = jobs.into_iter().map(|job| measured(&mut ls, job)).collect();
    report::print(&rows);
}
