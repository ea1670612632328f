//! Calls of the sequencer maker whose answers are worked out by hand: three situations of document 01, two of them from other first states too, 4,096
//! pairs, and calls that are refused. The reference and the archive are both held to them.

use crate::lent::Lent;
use crate::random::Random;
use crate::reply::Reply;
use crate::table::{Fault, Table, NO_STEP, SIGNALS};
use crate::tally::Tally;
use crate::{archive, calls};

// Signals are numbered as the run of document 01 declares them.
const POWER: usize = 0;
const SETTLED: usize = 1;
const START: usize = 2;
const READ: usize = 3;

/// Steps by state, signal and next state.
type Steps = &'static [(usize, usize, usize)];

const REF: Steps = &[(0, POWER, 1), (1, SETTLED, 2)];
const PLAN: Steps = &[(0, START, 1), (1, POWER, 2), (2, SETTLED, 3), (3, READ, 4)];
const PLAN_WITHOUT_SETTLED: Steps = &[(0, START, 1), (1, POWER, 2), (2, READ, 3)];
const POWER_TWICE: Steps = &[(0, POWER, 1), (1, POWER, 2)];

/// A call that is accepted, and what it gives. The lists and the first state of the result are sets of signals and a pair.
struct Situation {
    name: &'static str,
    module: Table,
    plan: Table,
    yes: bool,
    rounds: usize,
    kept: usize,
    ends: usize,
    first: usize,
    lists: (u32, u32),
    steps: Steps,
    is_dropped: fn(usize, usize) -> bool,
}

fn situations() -> Vec<Situation> {
    let run_elsewhere = Situation {
        name: "run, from states 1 and 1",
        module: table(3, 1, 1, 2, REF),
        plan: table(5, 1, 4, 11, PLAN),
        yes: false,
        ends: 0,
        first: 6,
        ..run()
    };
    let none_elsewhere = |name, states, kept, first| Situation {
        name,
        module: table(states, states - 1, 1, 2, REF),
        plan: table(states, states - 1, 1, 2, POWER_TWICE),
        yes: true,
        kept,
        ends: 1,
        first,
        ..none()
    };
    vec![
        run(),
        run_elsewhere,
        waits(),
        none(),
        none_elsewhere("none, from states 2 and 2", 3, 2, 8),
        none_elsewhere("none, of 64 states each, from the last ones", 64, 3_906, 4_095),
    ]
}

/// The run of document 01.
fn run() -> Situation {
    Situation {
        name: "run",
        module: table(3, 0, 1, 2, REF),
        plan: table(5, 0, 4, 11, PLAN),
        yes: true,
        rounds: 1,
        kept: 11,
        ends: 1,
        first: 0,
        lists: (6, 9),
        steps: &[(0, START, 1), (1, POWER, 7), (3, READ, 4), (7, SETTLED, 13), (10, START, 11), (13, READ, 14)],
        is_dropped: |p, q| p == 1 && q != 2,
    }
}

/// A plan without `settled`: after `start` the sequencer only waits.
fn waits() -> Situation {
    Situation {
        name: "waits",
        module: table(3, 0, 1, 2, REF),
        plan: table(4, 0, 4, 11, PLAN_WITHOUT_SETTLED),
        yes: true,
        rounds: 1,
        kept: 8,
        ends: 1,
        first: 0,
        lists: (6, 9),
        steps: &[(0, START, 1), (2, READ, 3), (8, START, 9), (10, READ, 11)],
        is_dropped: |p, _| p == 1,
    }
}

/// A plan by which `power` comes twice: no sequencer meets it.
fn none() -> Situation {
    Situation {
        name: "none",
        module: table(3, 0, 1, 2, REF),
        plan: table(3, 0, 1, 2, POWER_TWICE),
        yes: false,
        rounds: 2,
        kept: 2,
        ends: 0,
        first: 0,
        lists: (3, 0),
        steps: &[],
        is_dropped: |p, q| p == 1 || q < 2,
    }
}

/// A call that is refused, with the cells and flags that it is lent.
struct Refused {
    name: &'static str,
    module: Table,
    plan: Table,
    lent: (usize, usize),
    refusal: Reply,
}

/// Each table has a row of cells, and so has the result.
fn refused_by_rows() -> Vec<Refused> {
    let plan = || row(1, 0, 4, 11);
    let empty = || row(1, 0, 0, 0);
    let in_both_lists = || row(1, 0, 1, 1);
    let sends_unknown = || row(1, 0, 0, 16);
    let rows = [
        ("output unknown to the plan", sends_unknown(), plan(), 8, 0),
        ("output that the plan takes", row(1, 0, 0, 4), plan(), 8, 0),
        ("input unknown to the plan", row(1, 0, 16, 0), plan(), 8, 0),
        ("no state", row(0, 0, 0, 0), plan(), 1, 1),
        ("plan of 4,097 states", empty(), row(4_097, 0, 4, 11), 1, 2),
        ("first state that does not exist", empty(), row(1, 1, 0, 0), 2, 2),
        ("input that is an output", in_both_lists(), plan(), 3, 1),
        ("plan's input that is an output, and an output of both", row(1, 0, 0, 1), in_both_lists(), 3, 2),
        ("a row short", empty(), row(2, 0, 0, 0), 4, 2),
        ("step by a signal that the module does not have", starting(row(1, 0, 0, 2), 0), plan(), 6, 1),
        ("step by a signal that the plan does not have", empty(), starting(row(1, 0, 4, 10), 0), 6, 2),
        ("step to no state, and an output unknown", starting(sends_unknown(), 1), plan(), 5, 1),
        ("first state that does not exist, and an output unknown", sends_unknown(), row(1, 1, 4, 11), 2, 2),
    ];
    let refused = |(name, module, plan, number, table)| Refused { name, module, plan, lent: (SIGNALS, 1), refusal: refusal(number, table, 0) };
    rows.into_iter().map(refused).collect()
}

fn refused_by_sizes() -> Vec<Refused> {
    let bare = |states| table(states, 0, 0, 0, &[]);
    let mut bad_cell = table(3, 0, 1, 2, &[]);
    bad_cell.set_step(2, POWER, 3);
    let rows = [
        ("step to no state", bad_cell, table(5, 0, 4, 11, PLAN), (480, 15), refusal(5, 1, 2)),
        ("64 by 65 states", bare(64), bare(65), (480, 15), refusal(9, 0, 0)),
        ("a cell over", bare(1), bare(1), (33, 1), refusal(10, 0, 0)),
        ("a flag short", bare(3), bare(5), (480, 14), refusal(10, 0, 0)),
    ];
    rows.into_iter().map(|(name, module, plan, lent, refusal)| Refused { name, module, plan, lent, refusal }).collect()
}

fn table(states: usize, initial: usize, inputs: u32, outputs: u32, steps: Steps) -> Table {
    let mut table = Table::blank(states, initial, inputs, outputs);
    for &(from, signal, to) in steps {
        table.set_step(from, signal, to);
    }
    table
}

/// A table with the cells of one state, whatever its number of states.
fn row(states: usize, initial: usize, inputs: u32, outputs: u32) -> Table {
    Table { states, initial, inputs, outputs, cells: vec![NO_STEP; SIGNALS] }
}

/// Gives state 0 a step by signal 0.
fn starting(mut table: Table, to: usize) -> Table {
    table.set_step(0, 0, to);
    table
}

/// A refusal by 1 to 6 has its place at signal 0 here.
fn refusal(number: u32, table: u32, state: usize) -> Reply {
    let refused: Result<(), Reply> =
        if number <= 6 { Reply::refused_at(Fault { number, state, signal: 0 }, table) } else { Reply::refused(number, table) };
    refused.expect_err("a refusal is an error")
}

/// The maker, and the calls that count in what it gives.
struct Calls {
    whose: &'static str,
    synthesize: fn(&Table, &Table, &mut [u16], &mut [u8]) -> Reply,
    count_kept: fn(&[u8]) -> usize,
    count_steps: fn(usize, &[u16]) -> usize,
    count_ends: fn(&Table, &[u8]) -> usize,
}

const BOTH: [Calls; 2] = [
    Calls {
        whose: "reference",
        synthesize: |module, plan, cells, flags| Reply::of(calls::synthesize(module, plan, cells, flags)),
        count_kept: calls::count_kept,
        count_steps: calls::count_steps,
        count_ends: calls::count_ends,
    },
    Calls {
        whose: "archive",
        synthesize: archive::synthesize,
        count_kept: archive::count_kept,
        count_steps: archive::count_steps,
        count_ends: archive::count_ends,
    },
];

pub fn compare(tally: &mut Tally) {
    for calls in &BOTH {
        situations().iter().for_each(|situation| compare_situation(tally, calls, situation));
        refused_by_rows().iter().chain(&refused_by_sizes()).for_each(|refused| compare_refusal(tally, calls, refused));
    }
}

fn compare_situation(tally: &mut Tally, calls: &Calls, situation: &Situation) {
    let Situation { name, module, plan, yes, rounds, kept, ends, first, lists: (inputs, outputs), steps, is_dropped } = situation;
    let pairs = module.states * plan.states;
    let table = table(pairs, *first, *inputs, *outputs, steps);
    let verdict = Reply { yes: *yes, value: *rounds, ..Reply::default() }.with_table(&table);
    let (mut cells, mut flags) = lent(pairs * SIGNALS, pairs);
    let mut expected = (cells.clone(), flags.clone());
    expected.0.part().copy_from_slice(&table.cells);
    let is_kept = |pair: usize| u8::from(!is_dropped(pair / plan.states, pair % plan.states));
    expected.1.part().iter_mut().zip(0..pairs).for_each(|(flag, pair)| *flag = is_kept(pair));

    let reply = (calls.synthesize)(module, plan, cells.part(), flags.part());
    let differences = [expected.0.difference(&cells), expected.1.difference(&flags)];
    tally.check(reply == verdict && differences == [None, None], || {
        format!("situation '{name}', {}\n  expected {verdict:?}\n  is       {reply:?}\n  cells and flags {differences:?}", calls.whose)
    });
    let counts = [(calls.count_kept)(flags.part()), (calls.count_steps)(pairs, cells.part()), (calls.count_ends)(&table, flags.part())];
    let expected = [*kept, steps.len(), *ends];
    tally.check(counts == expected, || format!("situation '{name}', {}: kept, steps and ends {counts:?}, expected {expected:?}", calls.whose));
}

fn compare_refusal(tally: &mut Tally, calls: &Calls, Refused { name, module, plan, lent: (cells, flags), refusal }: &Refused) {
    let before = lent(*cells, *flags);
    let (mut cells, mut flags) = before.clone();
    let reply = (calls.synthesize)(module, plan, cells.part(), flags.part());
    tally.check(reply == *refusal && (cells, flags) == before, || {
        format!("refused '{name}', {}\n  expected {refusal:?} and both buffers as lent\n  is       {reply:?}", calls.whose)
    });
}

/// Buffers with something in them.
fn lent(cells: usize, flags: usize) -> (Lent<u16>, Lent<u8>) {
    let r = &mut Random::of_case(cells as u64, flags as u64);
    (Lent::arbitrary(r, cells), Lent::arbitrary(r, flags))
}
