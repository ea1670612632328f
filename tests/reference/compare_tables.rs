//! The calls on tables: the archives against the reference, reply for reply and byte for byte.

use crate::bytes::{from_bytes, to_bytes};
use crate::cases::Cases;
use crate::lent::Lent;
use crate::random::Random;
use crate::random_tables::{
    chain, chain_allowed, damage, meeting_tables, module_and_plan, refining_tables, sizes, sizes_about_the_smaller_room,
};
use crate::reply::Reply;
use crate::table::{members, Fault, Table, MOST_STATES, NO_STEP, SIGNALS};
use crate::tally::Tally;
use crate::{archive, calls, places};

#[derive(Clone, Copy, Debug, PartialEq)]
enum Call {
    Judge,
    Mirror,
    Follow,
    Product,
    Fit,
    Compose,
    Refine,
    Synthesize,
    CountKept,
    CountSteps,
    CFit,
    CRefine,
    CFollow,
    CFollowRecord,
}
use Call::*;

/// The calls, with the ones that have more to go wrong drawn more often.
const DRAWN: &[Call] = &[
    Judge, Mirror, Follow, Product, Product, Fit, Fit, Compose, Compose, Refine, Refine, Synthesize, Synthesize, Synthesize,
    CountKept, CountSteps, CFit, CFit, CRefine, CRefine, CFollow, CFollow, CFollowRecord, CFollowRecord,
];

/// The arguments of a call: all of them are there, whichever the call takes, and all are compared afterwards.
#[derive(Clone, PartialEq)]
struct Case {
    call: Call,
    a: Table,
    b: Table,
    a_bytes: Vec<u8>,
    b_bytes: Vec<u8>,
    state: usize,
    signal: usize,
    cells: Lent<u16>,
    flags: Lent<u8>,
}

/// The call and its arguments, as a failed case shows them.
impl std::fmt::Debug for Case {
    fn fmt(&self, to: &mut std::fmt::Formatter) -> std::fmt::Result {
        let Case { call, a, b, a_bytes, b_bytes, state, signal, cells, flags } = self;
        write!(to, "{call:?}\n  first: {a:?}\n  second: {b:?}\n  bytes {} and {}, ", a_bytes.len(), b_bytes.len())?;
        write!(to, "state {state}, signal {signal}, cells {}, flags {}", cells.len(), flags.len())
    }
}

impl Case {
    /// The table that a refusal names, as the call sees it: in C its cells are the bytes.
    fn table(&self, which: u32) -> Table {
        let (table, bytes) = if which == 2 { (&self.b, &self.b_bytes) } else { (&self.a, &self.a_bytes) };
        if takes_bytes(self.call) { from_bytes(table, bytes) } else { table.clone() }
    }

    /// Mends a cell of a table, and the bytes beside it, for the check that finds it bad: for 5 it gets a step to state 0, which 6 may still find
    /// bad, for 6 no step.
    fn mend(&mut self, which: u32, Fault { number, state, signal }: Fault) {
        let (table, bytes) = if which == 2 { (&mut self.b, &mut self.b_bytes) } else { (&mut self.a, &mut self.a_bytes) };
        let place = state * SIGNALS + signal;
        let mended = if number == 5 { 0 } else { NO_STEP };
        if let Some(cell) = table.cells.get_mut(place) {
            *cell = mended;
        }
        if let Some(cell) = bytes.get_mut(2 * place..2 * place + 2) {
            cell.copy_from_slice(&to_bytes(&[mended]));
        }
    }
}

/// Asks that everything that can occur does, and runs the cases.
pub fn run(cases: &Cases, tally: &mut Tally) {
    if cases.are_at_least(1_000) {
        ask_for_all_outcomes(tally);
        ask_for_all_sizes(tally);
    }
    cases.run(tally, |r, tally| {
        let case = match r.kind_of_first_cases(CHAIN_CALLS.len() * CHAIN_LENGTHS.len()) {
            0 => random_case(r),
            kind => chain_case(r, kind - 1),
        };
        compare(tally, case);
    });
}

fn compare(tally: &mut Tally, case: Case) {
    let (mut expected, mut actual) = (case.clone(), case.clone());
    let reply = by_reference(&mut expected);
    let answer = by_archive(&mut actual);
    record(tally, &expected, &reply);
    if reply.bad_cell().is_some() {
        mend_bad_cells(tally, case.clone());
    }
    tally.check(reply == answer && expected == actual, || {
        let buffers = [expected.cells.difference(&actual.cells), expected.flags.difference(&actual.flags)];
        format!(
            "{case:?}\n  expected {reply:?}, state {}\n  is       {answer:?}, state {}\n  cells and flags: {buffers:?}",
            expected.state, actual.state
        )
    });
}

/// Mends each bad cell that the archive names and calls again, until it names none. The reference is not asked: the first table's cells have to be
/// named before the second's, and those of one table in the order of faults. So all bad cells are named, each in its turn and by its own number.
fn mend_bad_cells(tally: &mut Tally, mut case: Case) {
    let mut named = Vec::new();
    let mut answer = by_archive(&mut case);
    while let Some(cell) = answer.bad_cell() {
        let comes_later = named.last() < Some(&(answer.table, cell));
        named.push((answer.table, cell));
        if !comes_later {
            break;
        }
        case.mend(answer.table, cell);
        answer = by_archive(&mut case);
    }
    tally.saw(mended(named.len()));
    tally.check(answer.bad_cell().is_none(), || format!("bad cells named out of turn: {named:?}\n  {case:?}"));
}

fn by_reference(case: &mut Case) -> Reply {
    let Case { call, a, b, a_bytes, b_bytes, state, signal, cells, flags } = case;
    match call {
        Judge => Reply::of(calls::judge(a)),
        Mirror => Reply::of(calls::mirror(a)),
        Follow => calls::follow(a, *state, *signal),
        Product => Reply::of(calls::make_product(a, b, cells.part())),
        Fit => Reply::of(calls::judge_fit(a, b, flags.part())),
        Compose => Reply::of(calls::make_composition(a, b, cells.part(), flags.part())),
        Refine => Reply::of(calls::judge_refinement(a, b, flags.part())),
        Synthesize => Reply::of(calls::synthesize(a, b, cells.part(), flags.part())),
        CountKept => counted(calls::count_kept(flags.part())),
        CountSteps => counted(calls::count_steps(a.states, &a.cells)),
        CFit => Reply::of(calls::judge_fit(&from_bytes(a, a_bytes), &from_bytes(b, b_bytes), flags.part())),
        CRefine => Reply::of(calls::judge_refinement(&from_bytes(a, a_bytes), &from_bytes(b, b_bytes), flags.part())),
        CFollow => calls::follow(&from_bytes(a, a_bytes), *state, *signal),
        CFollowRecord => {
            let reply = calls::follow(&from_bytes(a, a_bytes), *state, *signal);
            *state = reply.value;
            reply
        }
    }
}

fn by_archive(case: &mut Case) -> Reply {
    let Case { call, a, b, a_bytes, b_bytes, state, signal, cells, flags } = case;
    match call {
        Judge => archive::judge(a),
        Mirror => archive::mirror(a),
        Follow => archive::follow(a, *state, *signal),
        Product => archive::make_product(a, b, cells.part()),
        Fit => archive::judge_fit(a, b, flags.part()),
        Compose => archive::make_composition(a, b, cells.part(), flags.part()),
        Refine => archive::judge_refinement(a, b, flags.part()),
        Synthesize => archive::synthesize(a, b, cells.part(), flags.part()),
        CountKept => counted(archive::count_kept(flags.part())),
        CountSteps => counted(archive::count_steps(a.states, &a.cells)),
        CFit => archive::c_fit(a, a_bytes, b, b_bytes, flags.part()),
        CRefine => archive::c_refine(a, a_bytes, b, b_bytes, flags.part()),
        CFollow => archive::c_follow(a, a_bytes, *state, *signal),
        CFollowRecord => archive::c_follow_record(a, a_bytes, state, *signal),
    }
}

fn counted(value: usize) -> Reply {
    Reply { value, ..Reply::default() }
}

fn random_case(r: &mut Random) -> Case {
    let call = r.pick(DRAWN);
    let sizes = if takes_bytes(call) && r.percent(5) { sizes_about_the_smaller_room(r) } else { sizes(r) };
    let (mut a, mut b) = match call {
        Synthesize => module_and_plan(r, sizes),
        Refine | CRefine => refining_tables(r, sizes),
        _ => meeting_tables(r, sizes),
    };
    // The buffers are as long as the sound tables need; damage comes after.
    let pairs = (a.states * b.states).min(4_200);
    let (mut cells, mut flags) = (pairs * SIGNALS, pairs);
    let is_count = matches!(call, CountKept | CountSteps);
    let faults = if is_count { 0 } else { r.pick(&[0, 0, 0, 0, 0, 0, 1, 1, 2, 3]) };
    // A fault of the first table hides those of the second, so the second is at times damaged alone.
    let spares_first = !takes_one(call) && r.percent(40);
    for _ in 0..faults {
        match r.below(6) {
            0 => cells = wrong_length(r, cells),
            1 => flags = wrong_length(r, flags),
            2 if !takes_one(call) => damage(r, &mut b),
            _ => damage(r, if spares_first { &mut b } else { &mut a }),
        }
    }
    if is_count {
        scatter(r, &mut a);
    }
    let (state, signal) = (random_state(r, &a), random_signal(r, &a));
    if faults > 0 && is_follower(call) && r.percent(50) {
        damage_own_cell(r, &mut a, state, signal);
    }
    let (a_bytes, b_bytes) = (random_bytes(r, &a, faults), random_bytes(r, &b, faults));
    Case { call, a, b, a_bytes, b_bytes, state, signal, cells: Lent::arbitrary(r, cells), flags: Lent::arbitrary(r, flags) }
}

fn takes_one(call: Call) -> bool {
    matches!(call, Judge | Mirror) || is_follower(call)
}

fn is_follower(call: Call) -> bool {
    matches!(call, Follow | CFollow | CFollowRecord)
}

fn takes_bytes(call: Call) -> bool {
    matches!(call, CFit | CRefine | CFollow | CFollowRecord)
}

pub fn wrong_length(r: &mut Random, length: usize) -> usize {
    r.pick(&[0, length.saturating_sub(1), length + 1, length / 2, length * 2])
}

/// Arbitrary cells, at times not as many as the states ask for, which a count takes as they are.
fn scatter(r: &mut Random, table: &mut Table) {
    if r.percent(20) {
        let length = r.pick(&[0, table.cells.len() / 2, table.cells.len() - 1, table.cells.len() + 1, table.cells.len() + 70]);
        table.cells.resize(length, NO_STEP);
        table.states = r.pick(&[0, 1, 4_097, 65_536, usize::MAX, table.states]);
    }
    for cell in table.cells.iter_mut() {
        if r.percent(5) {
            *cell = r.below(65_536) as u16;
        }
    }
}

fn random_state(r: &mut Random, table: &Table) -> usize {
    if r.percent(10) {
        return r.pick(&[table.states, table.states.wrapping_add(1), 65_535, 65_536, usize::MAX, 1 << 32]);
    }
    r.below(table.states.clamp(1, 5_000))
}

fn random_signal(r: &mut Random, table: &Table) -> usize {
    let declared: Vec<usize> = members(table.signals()).collect();
    match r.below(20) {
        0..=17 if declared.is_empty() => 31,
        0..=17 => r.pick(&declared),
        18 => r.below(SIGNALS),
        _ => r.pick(&[32, 33, 63, 64, 256, 1 << 32, (1 << 32) + 1, usize::MAX]),
    }
}

/// The cell that the follower looks at is bad, if there is such a cell.
fn damage_own_cell(r: &mut Random, table: &mut Table, state: usize, signal: usize) {
    if state < table.states && signal < SIGNALS {
        if let Some(cell) = table.cells.get_mut(state * SIGNALS + signal) {
            *cell = r.pick(&[table.states.min(65_534) as u16, 65_534]);
        }
    }
}

/// The cells as bytes; of a damaged case, at times not the right number of them.
fn random_bytes(r: &mut Random, table: &Table, faults: usize) -> Vec<u8> {
    let mut bytes = to_bytes(&table.cells);
    if faults > 0 && r.percent(15) {
        let length = bytes.len();
        bytes.resize(r.pick(&[0, length / 2, length.saturating_sub(1), length + 1, length + 2, length + 64]), 255);
    }
    bytes
}

const CHAIN_CALLS: [Call; 5] = [Fit, Compose, CFit, Refine, CRefine];
const CHAIN_LENGTHS: [usize; 4] = [2, 17, 1_024, 4_096];

/// Takes the longest fixpoints there are: as many rounds as pairs. The numbers are those of each length with each call.
fn chain_case(r: &mut Random, number: usize) -> Case {
    let call = CHAIN_CALLS[number % CHAIN_CALLS.len()];
    let length = 1 + r.given(CHAIN_LENGTHS[number / CHAIN_CALLS.len()] - 1, MOST_STATES - 1);
    let (a, taker) = chain(length);
    let b = if matches!(call, Refine | CRefine) { chain_allowed() } else { taker };
    let (cells, flags) = (Lent::arbitrary(r, length * SIGNALS), Lent::arbitrary(r, length));
    let (a_bytes, b_bytes) = (to_bytes(&a.cells), to_bytes(&b.cells));
    Case { call, a, b, a_bytes, b_bytes, state: 0, signal: 0, cells, flags }
}

fn record(tally: &mut Tally, done: &Case, reply: &Reply) {
    let call = done.call;
    let seen = outcome(call, reply.number, reply.table, reply.yes);
    tally.saw(&seen);
    if let Some(cell) = reply.bad_cell() {
        places::record(tally, &seen, cell, &done.table(reply.table));
    }
    if reply.number == 0 && reply.value > 0 && matches!(call, Fit | Compose | Synthesize | CFit) {
        tally.saw(&dropping(call, reply.yes));
    }
    if let Some(sizes) = telling_sizes(done, reply).filter(|_| takes_bytes(call)) {
        tally.saw(&with_sizes(call, sizes));
    }
}

const ABOVE_THE_SMALLER_ROOM: &str = "accepted, with 65 to 80 states";
const A_BYTE_SHORT: &str = "a byte too few";
const A_BYTE_OVER: &str = "a byte too many";
const A_FLAG_SHORT: &str = "a flag too few";
const A_FLAG_OVER: &str = "a flag too many";

/// Sizes that tell the right calls for C from wrong ones: tables that need the larger room, and lengths that are off by one.
fn telling_sizes(Case { a, b, a_bytes, b_bytes, flags, .. }: &Case, reply: &Reply) -> Option<&'static str> {
    let (table, bytes) = if reply.table == 2 { (b, b_bytes) } else { (a, a_bytes) };
    let off_by_one = |length: usize, right: usize, short, over| match length.wrapping_sub(right) {
        1 => Some(over),
        usize::MAX => Some(short),
        _ => None,
    };
    match reply.number {
        0 if (65..=80).contains(&a.states.max(b.states)) => Some(ABOVE_THE_SMALLER_ROOM),
        4 => off_by_one(bytes.len(), 2 * SIGNALS * table.states, A_BYTE_SHORT, A_BYTE_OVER),
        10 => off_by_one(flags.len(), a.states * b.states, A_FLAG_SHORT, A_FLAG_OVER),
        _ => None,
    }
}

fn with_sizes(call: Call, sizes: &str) -> String {
    format!("{call:?}: {sizes}")
}

fn outcome(call: Call, number: u32, table: u32, yes: bool) -> String {
    match number {
        0 if !has_verdict(call) => format!("{call:?}: accepted"),
        0 => format!("{call:?}: {}", if yes { "yes" } else { "no" }),
        _ => format!("{call:?}: refused {number:2} of {table}"),
    }
}

/// Whether the call says yes or no; of the follower, no is "not now".
fn has_verdict(call: Call) -> bool {
    !matches!(call, Judge | Mirror | Product | CountKept | CountSteps)
}

fn mended(cells: usize) -> &'static str {
    match cells {
        0..=1 => "a bad cell mended",
        2..=4 => "2 to 4 bad cells mended, one by one",
        _ => "5 bad cells or more mended, one by one",
    }
}

fn dropping(call: Call, yes: bool) -> String {
    format!("{call:?}: {}, with pairs dropped", if yes { "yes" } else { "no" })
}

fn ask_for_all_outcomes(tally: &mut Tally) {
    for call in DRAWN.iter().copied() {
        tally.must_have_seen(&outcome(call, 0, 0, false));
        tally.must_have_seen(&outcome(call, 0, 0, true));
        if matches!(call, Fit | Compose | Synthesize | CFit) {
            tally.must_have_seen(&dropping(call, true));
        }
        for (number, table) in refusals(call) {
            let refusal = outcome(call, number, table, false);
            tally.must_have_seen(&refusal);
            places::ask(tally, &refusal, number, is_follower(call));
        }
    }
    for cells in [1, 2, 5] {
        tally.must_have_seen(mended(cells));
    }
}

fn ask_for_all_sizes(tally: &mut Tally) {
    for call in [CFit, CRefine, CFollow, CFollowRecord] {
        tally.must_have_seen(&with_sizes(call, A_BYTE_SHORT));
        tally.must_have_seen(&with_sizes(call, A_BYTE_OVER));
    }
    for call in [CFit, CRefine] {
        for sizes in [ABOVE_THE_SMALLER_ROOM, A_FLAG_SHORT, A_FLAG_OVER] {
            tally.must_have_seen(&with_sizes(call, sizes));
        }
    }
}

/// Every refusal of a call, with the table that it names.
fn refusals(call: Call) -> Vec<(u32, u32)> {
    let of_one = (1..=6).map(|number| (number, 1));
    let of_two = of_one.clone().chain((1..=6).map(|number| (number, 2)));
    match call {
        Judge | Mirror => of_one.collect(),
        Follow | CFollow | CFollowRecord => [1, 2, 3, 4, 5, 11, 12].map(|number| (number, 1)).to_vec(),
        Product | Fit | Compose | CFit => of_two.chain([(7, 0), (9, 0), (10, 0)]).collect(),
        Refine | CRefine => of_two.chain([(9, 0), (10, 0)]).collect(),
        Synthesize => of_two.chain([(8, 0), (9, 0), (10, 0)]).collect(),
        CountKept | CountSteps => Vec::new(),
    }
}
