//! What is measured: calls and their inputs.

use crate::inputs::{self, Owned, Random, Texts};

pub const SEED: u64 = 20_261_115;

/// Numbers of states of each table in the families over pairs.
const SIZES: [usize; 6] = [2, 4, 8, 16, 32, 64];

/// How many random inputs calls take in turn: over a single one the processor learns every branch by heart.
const VARIANTS: u64 = 16;

const SIGNALS: usize = 1_000_000;

/// Numbers of states of the tables that are searched, and how many states the tables of one size have together: where they have fewer, the
/// processor learns every branch by heart, and where they have more, they leave the cache.
const SEARCHED: [usize; 5] = [16, 64, 256, 1024, 4096];
const SEARCHED_TOGETHER: usize = 4096;

/// How many flags are counted.
const FLAGS: [usize; 5] = [7, 64, 1024, 4096, 1_048_576];

/// How long texts are at most: those that are read and written, those of the archive reading, those of the lister.
const LIMITS: [usize; 4] = [1024, 4096, 16384, 65536];
const ARCHIVE_LIMITS: [usize; 2] = [4096, 65536];
const LIST_LIMITS: [usize; 2] = [1024, 65536];

#[derive(Clone, Copy, PartialEq)]
pub enum Call {
    Judge,
    Fit,
    Refine,
    Synthesize,
    Read,
    Archive,
    List,
    Write,
    Report,
    Count,
    CountSingly,
    Ends,
    Reach,
    Follow,
}

impl Call {
    pub fn name(self) -> &'static str {
        match self {
            Call::Judge => "judge",
            Call::Fit => "fit",
            Call::Refine => "refine",
            Call::Synthesize => "synthesize",
            Call::Read => "read",
            Call::Archive => "archive",
            Call::List => "list",
            Call::Write => "write",
            Call::Report => "report",
            Call::Count | Call::CountSingly => "count",
            Call::Ends => "ends",
            Call::Reach => "reach",
            Call::Follow => "follow",
        }
    }

    /// What the size of an input counts.
    pub fn unit(self) -> &'static str {
        match self {
            Call::Read | Call::Archive | Call::List | Call::Write | Call::Count | Call::CountSingly => "bytes",
            Call::Follow => "signals",
            Call::Judge | Call::Ends | Call::Reach => "states",
            _ => "pairs",
        }
    }

    /// How many bytes a call on texts is lent: enough for all that it may print.
    fn room(self) -> usize {
        match self {
            Call::List => 768,
            Call::Write => 65536,
            Call::Report => 65608,
            _ => 0,
        }
    }
}

/// One line of the figures: a call and its inputs. Calls take the pairs of tables in turn. A module's text, signals or flags are in `bytes`, a
/// plan's text is in `plan`; `printed` is what the lister or the report prints of the two, and `room` says how many bytes a call on texts is lent. A
/// search goes by the signals in `sets`, one set for each state.
pub struct Job {
    pub call: Call,
    pub family: String,
    pub input: String,
    pub size: usize,
    pub tables: Vec<(Owned, Owned)>,
    pub bytes: Vec<u8>,
    pub sets: Vec<u32>,
    pub plan: Vec<u8>,
    pub printed: String,
    pub names: Vec<String>,
    pub room: usize,
}

impl Job {
    pub fn of_pairs(call: Call, family: &str, tables: Vec<(Owned, Owned)>) -> Job {
        Job {
            call,
            family: family.into(),
            input: family.into(),
            size: tables[0].0.states * tables[0].1.states,
            tables,
            bytes: Vec::new(),
            sets: Vec::new(),
            plan: Vec::new(),
            printed: String::new(),
            names: Vec::new(),
            room: call.room(),
        }
    }

    pub fn of_table(call: Call, family: &str, table: Owned) -> Job {
        let mut job = Job::of_pairs(call, family, vec![(table.clone(), table)]);
        job.size = job.tables[0].0.states;
        job
    }

    pub fn of_bytes(call: Call, family: &str, table: Owned, bytes: Vec<u8>) -> Job {
        let mut job = Job::of_table(call, family, table);
        job.size = bytes.len();
        job.bytes = bytes;
        job
    }

    /// The count takes no table.
    pub fn of_flags(call: Call, family: &str, flags: Vec<u8>) -> Job {
        Job::of_bytes(call, family, Owned::new(1, 0, 0), flags)
    }

    /// Takes tables of one size, all of whose states are kept and go by every signal. A search has no second table.
    pub fn of_searched(call: Call, family: &str, tables: Vec<Owned>) -> Job {
        let states = tables[0].states;
        let alone = |t| (t, Owned::new(1, 0, 0));
        let mut job = Job::of_pairs(call, family, tables.into_iter().map(alone).collect());
        job.bytes = vec![1; states];
        job.sets = vec![u32::MAX; states];
        job
    }

    pub fn of_texts(call: Call, family: &str, texts: Texts) -> Job {
        let mut job = Job::of_pairs(call, family, vec![texts.tables]);
        if call != Call::Report {
            job.size = texts.module.len();
        }
        job.bytes = texts.module;
        job.plan = texts.plan;
        job.printed = texts.printed;
        job
    }

    pub fn title(&self) -> String {
        let (call, unit) = (self.call.name(), self.call.unit());
        format!("{call}, {}, {} {unit}", self.input, self.size)
    }
}

type Pair = (Owned, Owned);

fn mirrored((a, b): Pair) -> Pair {
    (a, b.mirror())
}

/// One family, small to large.
fn family(call: Call, name: &str, make: impl Fn(usize) -> Vec<Pair>) -> Vec<Job> {
    let job = |&n| Job::of_pairs(call, name, make(n));
    SIZES.iter().map(job).collect()
}

/// Chains over two tables of n states, and over one of n times n and one of a single state. The maker takes the second table mirrored.
fn chains() -> Vec<Job> {
    let mut jobs = Vec::new();
    for (long, name) in [(false, "chain n x n"), (true, "chain n x 1")] {
        let shape = |n: usize| if long { (n * n, 1) } else { (n, n) };
        let fit = |n| inputs::chain(shape(n).0, shape(n).1);
        let refine = |n| inputs::chain_refined(shape(n).0, shape(n).1);
        jobs.extend(family(Call::Fit, name, |n| vec![fit(n)]));
        jobs.extend(family(Call::Refine, name, |n| vec![refine(n)]));
        jobs.extend(family(Call::Synthesize, name, |n| vec![mirrored(fit(n))]));
    }
    jobs
}

fn random_pairs(n: usize, dense: bool, refined: bool) -> impl Iterator<Item = Pair> {
    (0..VARIANTS).map(move |i| inputs::random_pair(SEED + n as u64 * VARIANTS + i, n, dense, refined))
}

/// Random tables; refinement and the maker take the second one mirrored.
fn randoms() -> Vec<Job> {
    let mut jobs = Vec::new();
    for (dense, name) in [(false, "random, few signals"), (true, "random, 32 signals")] {
        let fit = |n| random_pairs(n, dense, false);
        let refine = |n| random_pairs(n, dense, true);
        jobs.extend(family(Call::Fit, name, |n| fit(n).collect()));
        jobs.extend(family(Call::Refine, name, |n| refine(n).map(mirrored).collect()));
        jobs.extend(family(Call::Synthesize, name, |n| fit(n).map(mirrored).collect()));
    }
    jobs
}

/// Tables judged alone, of as many states as the families over pairs have pairs: without fault, and with a step for an undeclared signal in the
/// last row.
fn judged() -> Vec<Job> {
    let states = || SIZES.iter().map(|n| n * n);
    let sound = |n| Job::of_table(Call::Judge, "few signals", inputs::chain_refined(n, 1).0);
    let dense = |n| Job::of_table(Call::Judge, "32 signals", inputs::followed(SEED, n));
    let faulty = |n| Job::of_table(Call::Judge, "fault in the last row", inputs::undeclared_at_end(n));
    states().map(sound).chain(states().map(dense)).chain(states().map(faulty)).collect()
}

/// Document 000's counter, Table 1. With its error variable among the states the largest is beyond the library's limit.
fn counters() -> Vec<Job> {
    let plain = (9..14).map(|k| ("counter", k, inputs::counter(k)));
    let errors = (9..14).map(|k| ("counter with errors", k, inputs::counter_with_errors(k)));
    let job = |(name, k, pair)| {
        let mut job = Job::of_pairs(Call::Synthesize, name, vec![pair]);
        job.input = format!("{name}, k = {k}");
        job
    };
    plain.chain(errors).map(job).collect()
}

/// Texts in which no names clash, small to large.
fn texts(call: Call, limits: &[usize]) -> Vec<Job> {
    let mut jobs = Vec::new();
    for (name, names) in [("4 short names", inputs::short_names()), ("32 long names", inputs::long_names())] {
        for &limit in limits {
            let mut job = Job::of_texts(call, name, inputs::same_texts(SEED + limit as u64, limit, &names));
            job.names = names.clone();
            jobs.push(job);
        }
    }
    jobs
}

/// Texts in which many names clash: with the first of one text, or each with its like in the other text.
fn clashes() -> Vec<Job> {
    let job = |name, make: fn(u64, usize) -> Texts, limit| Job::of_texts(Call::List, name, make(SEED + limit as u64, limit));
    let spellings = LIST_LIMITS.map(|limit| job("32 spellings of a name", inputs::spellings, limit));
    let capitals = LIST_LIMITS.map(|limit| job("16 names and their capitals", inputs::capitals, limit));
    spellings.into_iter().chain(capitals).collect()
}

/// Takes reports of the run of document 01, of the same without a sequencer, of the plan that document 01 has for that, and of larger runs.
fn reports() -> Vec<Job> {
    let job = |name, texts| Job::of_texts(Call::Report, name, texts);
    let mut jobs = vec![
        job("the documents' run", inputs::documents_run()),
        job("the documents' run, none", inputs::documents_none()),
        job("document 01's plan without a sequencer", inputs::no_sequencer()),
    ];
    for (name, names) in [("4 short names", inputs::short_names()), ("32 long names", inputs::long_names())] {
        jobs.extend([8, 16, 32].map(|n| job(name, inputs::startups(n, &names))));
    }
    jobs
}

/// Flags counted eight at a time, and one by one as before.
fn counts() -> Vec<Job> {
    let job = |call, family, length: usize| Job::of_flags(call, family, inputs::flags(SEED + length as u64, length));
    let words = FLAGS.map(|length| job(Call::Count, "by eights", length));
    let singly = FLAGS.map(|length| job(Call::CountSingly, "one by one", length));
    words.into_iter().chain(singly).collect()
}

/// Takes one family of searched tables, small to large.
fn searched(call: Call, name: &str, make: impl Fn(u64, usize) -> Owned) -> Vec<Job> {
    let seeds = |n: usize| (0..SEARCHED_TOGETHER / n).map(move |i| SEED + n as u64 * VARIANTS + i as u64);
    let tables = |n| seeds(n).map(|s| make(s, n)).collect();
    SEARCHED.iter().map(|&n| Job::of_searched(call, name, tables(n))).collect()
}

/// Takes what the maker leaves of the random pairs over few signals with verdict yes; over 32 signals hardly any is yes. A kept pair leads to kept
/// pairs alone, so there are as many ends as by the maker's own flags.
fn made() -> Vec<Job> {
    let tables = |n| random_pairs(n, false, false).map(mirrored).filter_map(inputs::made).collect();
    SIZES[1..].iter().map(|&n| Job::of_searched(Call::Ends, "left by the maker", tables(n))).collect()
}

fn searches(call: Call) -> Vec<Job> {
    let mut jobs = searched(call, "chain", inputs::path);
    for (steps, name) in [(4, "4 steps a state"), (32, "32 steps a state")] {
        jobs.extend(searched(call, name, |seed, n| inputs::scattered(seed, n, steps)));
    }
    jobs
}

fn follows() -> Vec<Job> {
    let job = |states| {
        let mut r = Random(SEED);
        let signals = (0..SIGNALS).map(|_| r.below(32) as u8).collect();
        let table = inputs::followed(SEED, states);
        Job::of_bytes(Call::Follow, &format!("{states} states"), table, signals)
    };
    [64, 4096].map(job).into()
}

/// The jobs whose title has this part.
pub fn all(part: &str) -> Vec<Job> {
    let mut jobs = judged();
    jobs.extend(chains());
    jobs.extend(randoms());
    jobs.extend(counters());
    jobs.extend(texts(Call::Read, &LIMITS));
    jobs.extend(texts(Call::Archive, &ARCHIVE_LIMITS));
    jobs.extend(texts(Call::List, &LIST_LIMITS));
    jobs.extend(clashes());
    jobs.extend(texts(Call::Write, &LIMITS));
    jobs.extend(reports());
    jobs.extend(counts());
    jobs.extend(searches(Call::Ends));
    jobs.extend(made());
    jobs.extend(searches(Call::Reach));
    jobs.extend(follows());
    jobs.retain(|j| j.title().contains(part));
    jobs
}
