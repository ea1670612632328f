//! Small random inputs, many of them refused, on which the three libraries must agree before anything is timed.

use crate::inputs::{self, Owned, Random, Texts};
use crate::jobs::{Call, Job};
use crate::plain::NO_STEP;

pub const NAME: &str = "trial";

const TRIALS: usize = 40_000;

/// Every number of flags below this one is counted, from each of as many seeds.
const FLAGS: usize = 100;

/// How many small tables each of the two searches takes.
const SEARCHES: usize = 10_000;

/// A set of four signals.
fn set(r: &mut Random) -> u32 {
    r.below(16) as u32
}

/// A cell of a small table: mostly a state or blank, now and then neither.
fn cell(r: &mut Random, states: usize, declared: bool) -> u16 {
    match r.below(4000) {
        0 => states as u16,
        1 => r.below(states) as u16,
        n if declared && n % 2 == 0 => r.below(states) as u16,
        _ => NO_STEP,
    }
}

/// A small table; one in ten has a signal in both lists or a wrong number of cells.
fn table(r: &mut Random) -> Owned {
    let states = 1 + r.below(5);
    let inputs = set(r);
    let outputs = if r.below(20) == 0 { set(r) } else { set(r) & !inputs };
    let mut t = Owned::new(states, inputs, outputs);
    for k in 0..states * 32 {
        let declared = (inputs | outputs) >> (k % 32) & 1 == 1;
        t.cells[k] = cell(r, states, declared);
    }
    if r.below(20) == 0 {
        t.cells.pop();
    }
    t
}

/// A second table that suits the first more often than chance would have it.
fn partner(r: &mut Random, call: Call, a: &Owned) -> Owned {
    let mut b = table(r);
    if r.below(4) != 0 {
        let more = set(r) & !(a.inputs | a.outputs);
        (b.inputs, b.outputs) = match call {
            Call::Fit => (a.outputs, a.inputs | more),
            _ => (a.inputs, a.outputs | more),
        };
    }
    for k in 0..b.cells.len() {
        let declared = (b.inputs | b.outputs) >> (k % 32) & 1 == 1;
        b.cells[k] = cell(r, b.states, declared);
    }
    b
}

fn pair_trial(r: &mut Random, call: Call) -> Job {
    let a = table(r);
    let b = partner(r, call, &a);
    let mut job = Job::of_pairs(call, NAME, vec![(a, b)]);
    job.size += usize::from(r.below(30) == 0);
    job
}

/// The four short names; now and then one has capital letters, or is another, one of whose letters may be capital.
fn few_names(r: &mut Random) -> Vec<String> {
    let short = inputs::short_names();
    let name = |i: usize| match r.below(16) {
        0 => inputs::respelled(&short[i], r.next() as u32),
        1 => inputs::respelled(&short[r.below(4)], r.below(2) as u32),
        _ => short[i].clone(),
    };
    (0..4).map(name).collect()
}

/// Four of the 32 long names; now and then one in capital letters, or a new one.
fn some_names(r: &mut Random) -> Vec<String> {
    let long = inputs::long_names();
    let name = |_| match r.below(12) {
        0 => long[r.below(32)].to_ascii_uppercase(),
        1 => "reference".into(),
        _ => long[r.below(32)].clone(),
    };
    (0..4).map(name).collect()
}

/// Short texts of a module and of a plan, which has names of its own or the module's; now and then the module has all 32 that there can be.
fn texts(r: &mut Random) -> Texts {
    let crowded = r.below(8) == 0;
    let names = if crowded { inputs::long_names() } else { few_names(r) };
    let others = match r.below(2) {
        _ if crowded => some_names(r),
        0 => few_names(r),
        _ => names.clone(),
    };
    let (a, module) = inputs::text_table(r.next(), if crowded { 720 } else { 120 }, &names, 0);
    let (b, plan) = inputs::text_table(r.next(), 120, &others, 0);
    Texts { tables: (a, b), module, plan, printed: String::new() }
}

/// Changes a byte, leaves one out, doubles one or turns the case of a letter.
fn change(r: &mut Random, bytes: &mut Vec<u8>) {
    let letters = b"\t\n0159_azin\r/";
    let at = r.below(bytes.len());
    match r.below(4) {
        0 => bytes[at] = letters[r.below(letters.len())],
        1 => drop(bytes.remove(at)),
        2 => bytes.insert(at, bytes[at]),
        _ if bytes[at].is_ascii_alphabetic() => bytes[at] ^= 32,
        _ => {}
    }
}

/// Makes up to two changes.
fn damage(r: &mut Random, texts: &mut Texts) {
    for _ in 0..r.below(3) {
        let text = if r.below(2) == 0 { &mut texts.module } else { &mut texts.plan };
        change(r, text);
    }
}

/// Short texts with up to two changes. One lister in four gets so little room that a refusal's line or several clashes may be cut off, though not
/// a refusal's number.
fn text_trial(r: &mut Random, call: Call) -> Job {
    let mut texts = texts(r);
    damage(r, &mut texts);
    let mut job = Job::of_texts(call, NAME, texts);
    if call == Call::List && r.below(4) == 0 {
        job.room = 13 + r.below(8);
    }
    job
}

/// Makes texts of two tables, with names for all signals.
fn texts_of(a: Owned, b: Owned, names: &[String], others: &[String]) -> Texts {
    let (module, plan) = (inputs::text_of(&a, "module", names), inputs::text_of(&b, "plan", others));
    Texts { tables: (a, b), module: module.into(), plan: plan.into(), printed: String::new() }
}

/// Gives the names of a small table's signals, which may clash, and names for the others.
fn all_names(r: &mut Random) -> Vec<String> {
    few_names(r).into_iter().chain(inputs::long_names().into_iter().skip(4)).collect()
}

/// Makes texts of two small tables, with up to two changes. One report in four gets so little room that what it prints may be cut off, though not a
/// refusal's number; one in eight gets room for any number of pairs.
fn report_trial(r: &mut Random) -> Job {
    let a = table(r);
    let b = partner(r, Call::Synthesize, &a);
    let names = all_names(r);
    let others = if r.below(4) == 0 { all_names(r) } else { names.clone() };
    let mut texts = texts_of(a, b, &names, &others);
    damage(r, &mut texts);
    let mut job = Job::of_texts(Call::Report, NAME, texts);
    if r.below(4) == 0 {
        job.room = 13 + r.below(200);
    }
    if r.below(8) == 0 {
        job.size = r.below(30);
    }
    job
}

/// Makes reports of the first pair counts that are too large, for the library and for a report, and of a table whose text would be too long.
fn large_reports(seed: u64) -> [Job; 3] {
    let names = inputs::long_names();
    let bare = |states| Owned::new(states, 0, 0);
    let pairs = [(bare(64), bare(65)), (bare(25), bare(41)), (bare(32), inputs::followed(seed, 32))];
    pairs.map(|(a, b)| Job::of_texts(Call::Report, NAME, texts_of(a, b, &names, &names)))
}

/// A small table whose names may clash; one in eight has a name that breaks the rule or none for its last signal, one in four little room.
fn write_trial(r: &mut Random) -> Job {
    let mut job = Job::of_table(Call::Write, NAME, table(r));
    job.names = few_names(r);
    match r.below(16) {
        0 => job.names[r.below(4)] = ["", "a b", "seventeen_letters"][r.below(3)].into(),
        1 => drop(job.names.pop()),
        _ => {}
    }
    if r.below(4) == 0 {
        job.room = r.below(200);
    }
    job
}

/// Few flags, counted in both ways.
fn count_trials(seed: u64) -> impl Iterator<Item = Job> {
    let flags = (0..FLAGS * FLAGS).map(move |i| inputs::flags(seed + i as u64, i % FLAGS));
    flags.flat_map(|flags| [Call::Count, Call::CountSingly].map(|call| Job::of_flags(call, NAME, flags.clone())))
}

/// Makes a table for a search, with any cells, few or many of them steps. Up to 64 states the archive searches in less room, so one table in four has
/// about as many. The first state may be none.
fn searched(r: &mut Random) -> Owned {
    let states = if r.below(4) == 0 { 60 + r.below(10) } else { r.below(8) };
    let mut t = Owned::new(states, u32::MAX, 0);
    let rare = 1 + r.below(64);
    for k in 0..t.cells.len() {
        t.cells[k] = match r.below(rare) {
            0 if r.below(8) == 0 => r.next() as u16,
            0 => r.below(states + 1) as u16,
            _ => NO_STEP,
        };
    }
    t.initial = r.below(states + 1);
    t
}

/// Makes a row longer or shorter by one.
fn stretch<T>(r: &mut Random, row: &mut Vec<T>, entry: T) {
    if r.below(2) == 0 {
        row.push(entry);
    } else {
        row.pop();
    }
}

/// Makes a search by any sets and flags; one in ten has too many or too few cells, marks, sets or flags.
fn search_trial(r: &mut Random, call: Call) -> Job {
    let mut job = Job::of_searched(call, NAME, vec![searched(r)]);
    job.bytes = inputs::flags(r.next(), job.size);
    job.sets = (0..job.size).map(|_| r.next() as u32).collect();
    match r.below(40) {
        0 => stretch(r, &mut job.tables[0].0.cells, 0),
        1 => job.size += 1,
        2 => stretch(r, &mut job.sets, 1),
        3 => stretch(r, &mut job.bytes, 1),
        _ => {}
    }
    job
}

/// Makes small searches, and one of the first number of states that is too large.
fn search_trials(seed: u64, call: Call) -> impl Iterator<Item = Job> {
    let mut r = Random(seed);
    let small = (0..SEARCHES).map(move |_| search_trial(&mut r, call));
    let large = move || Job::of_searched(call, NAME, vec![inputs::path(seed, 4097)]);
    small.chain(std::iter::once_with(large))
}

/// The first pair count that is too large.
fn too_many_pairs() -> Job {
    Job::of_pairs(Call::Fit, NAME, vec![inputs::chain(64, 65)])
}

pub fn all(seed: u64) -> impl Iterator<Item = Job> {
    let mut r = Random(seed);
    let random = (0..TRIALS).map(move |i| match i % 8 {
        0 => pair_trial(&mut r, Call::Fit),
        1 => pair_trial(&mut r, Call::Refine),
        2 => pair_trial(&mut r, Call::Synthesize),
        3 => text_trial(&mut r, Call::Read),
        4 => text_trial(&mut r, Call::Archive),
        5 => text_trial(&mut r, Call::List),
        6 => report_trial(&mut r),
        _ => write_trial(&mut r),
    });
    let searches = [Call::Ends, Call::Reach].into_iter().flat_map(move |call| search_trials(seed, call));
    let large = std::iter::once_with(too_many_pairs).chain(large_reports(seed));
    random.chain(count_trials(seed)).chain(searches).chain(large)
}
