//! Demand 3 by brute force: every sequencer of few states makes the module meet the plan exactly if it refines the table that the archive
//! returns, and none does where the archive says that there is none.

use crate::answers::sequencer;
use crate::cases::Cases;
use crate::random::Random;
use crate::random_tables::{module_and_plan, near};
use crate::refine::refines;
use crate::synth::{lists_refused, meets, sequencer_lists};
use crate::table::{has, members, Table, NO_STEP, SIGNALS};
use crate::tally::Tally;

/// More sequencers than this are not tried for one module and plan.
const MOST_SEQUENCERS: usize = 7_000;

const MEET: &str = "sequencers that make the module meet the plan";
const MISS: &str = "sequencers that do not";

pub fn run(cases: &Cases, tally: &mut Tally) {
    if cases.are_at_least(1) {
        [MEET, MISS, "pairs with a sequencer", "pairs with none"].iter().for_each(|outcome| tally.must_have_seen(outcome));
        try_all(tally, 0b01, 3);
        try_all(tally, 0b11, 2);
    }
    cases.run(tally, |r, tally| {
        let (module, plan) = random_pair(r, 3, |plan| how_many(2, plan.signals()) <= MOST_SEQUENCERS);
        try_pair(tally, &module, &plan, 2);
        let (module, plan) = random_pair(r, 6, |_| true);
        try_larger(tally, r, &module, &plan);
    });
}

/// Draws a module and a plan that check 8 accepts. Two drawings in five do not suit; that none of so many does cannot be told from never.
pub fn random_pair(r: &mut Random, most_states: usize, suits: impl Fn(&Table) -> bool) -> (Table, Table) {
    const MOST_TRIES: usize = 100;
    let draw = |_| {
        let sizes = (r.between(1, most_states), r.between(1, most_states));
        module_and_plan(r, sizes)
    };
    let mut pairs = (0..MOST_TRIES).map(draw);
    let suiting = pairs.find(|(module, plan)| !lists_refused(module, plan) && suits(plan));
    suiting.unwrap_or_else(|| (Table::blank(1, 0, 0, 0), Table::blank(1, 0, 0, 0)))
}

/// What a signal is to module and plan where check 8 accepts it: the module's lists hold it or not, then the plan's (inputs, outputs).
const ROLES: [[u32; 4]; 6] = [[0, 0, 0, 0], [0, 0, 1, 0], [1, 0, 1, 0], [0, 0, 0, 1], [1, 0, 0, 1], [0, 1, 0, 1]];

/// All modules and plans of up to two states over signal 0, or signals 0 and 1, with all sequencers of up to so many states.
fn try_all(tally: &mut Tally, signals: u32, most_states: usize) {
    for (place, first) in ROLES.into_iter().enumerate() {
        // A second role that stands before the first is the same with the two signals exchanged.
        let seconds = if has(signals, 1) { &ROLES[place..] } else { &ROLES[..1] };
        for second in seconds {
            let [m_in, m_out, p_in, p_out] = [0, 1, 2, 3].map(|list| first[list] | second[list] << 1);
            for module in all_tables(2, m_in, m_out) {
                for plan in all_tables(2, p_in, p_out) {
                    try_pair(tally, &module, &plan, most_states);
                }
            }
        }
    }
}

/// Tries all sequencers of up to so many states, and the one returned. A module and plan count once.
fn try_pair(tally: &mut Tally, module: &Table, plan: &Table, most_states: usize) {
    let returned = returned_sequencer(module, plan);
    tally.saw(if returned.is_some() { "pairs with a sequencer" } else { "pairs with none" });
    let unfit = returned.as_ref().filter(|returned| !meets(module, returned, plan));
    let mut fault = unfit.map(|returned| said(module, plan, returned, "the one returned does not meet the plan"));
    let (inputs, outputs) = sequencer_lists(module, plan);
    for sequencer in all_tables(most_states, inputs, outputs) {
        fault = fault.or(try_sequencer(tally, module, plan, &sequencer, returned.as_ref()));
    }
    tally.check(fault.is_none(), || fault.unwrap_or_default());
}

/// Tries random sequencers of up to twelve states that are near the one returned, or near one that only waits.
fn try_larger(tally: &mut Tally, r: &mut Random, module: &Table, plan: &Table) {
    let returned = returned_sequencer(module, plan);
    let (inputs, outputs) = sequencer_lists(module, plan);
    let waiting = Table::blank(1, 0, inputs, outputs);
    let mut fault = None;
    for _ in 0..10 {
        let states = r.between(1, 12);
        let sequencer = near(r, returned.as_ref().unwrap_or(&waiting), states);
        tally.saw(&format!("larger sequencers, {}", if returned.is_some() { "near the one returned" } else { "where there is none" }));
        fault = fault.or(try_sequencer(tally, module, plan, &sequencer, returned.as_ref()));
    }
    tally.check(fault.is_none(), || fault.unwrap_or_default());
}

/// The equivalence of demand 3: what contradicts it, if anything does.
fn try_sequencer(tally: &mut Tally, module: &Table, plan: &Table, sequencer: &Table, returned: Option<&Table>) -> Option<String> {
    let meets = meets(module, sequencer, plan);
    let refines = returned.is_some_and(|returned| refines(sequencer, returned));
    tally.saw(if meets { MEET } else { MISS });
    (meets != refines).then(|| said(module, plan, sequencer, &format!("meets the plan: {meets}, refines: {refines}")))
}

/// What the archive returns: the table that its reply and its buffer make, or none.
fn returned_sequencer(module: &Table, plan: &Table) -> Option<Table> {
    let made = sequencer(module, plan);
    made.reply.yes.then(|| made.table())
}

fn said(module: &Table, plan: &Table, sequencer: &Table, fault: &str) -> String {
    format!("{fault}\n  module: {module:?}\n  plan: {plan:?}\n  sequencer: {sequencer:?}")
}

/// How many tables of exactly so many states there are, with the first state fixed.
fn how_many(states: usize, signals: u32) -> usize {
    (states + 1).saturating_pow(states as u32 * signals.count_ones())
}

/// All tables of up to so many states with these lists. The first state is 0: the others are the same with their states renamed.
fn all_tables(most_states: usize, inputs: u32, outputs: u32) -> impl Iterator<Item = Table> {
    (1..=most_states).flat_map(move |states| tables_of(states, inputs, outputs))
}

/// All tables of exactly so many states: their cells count up like the digits of a number, no step before all states.
fn tables_of(states: usize, inputs: u32, outputs: u32) -> impl Iterator<Item = Table> {
    let places: Vec<usize> = (0..states).flat_map(|state| members(inputs | outputs).map(move |signal| state * SIGNALS + signal)).collect();
    let mut next = Some(Table::blank(states, 0, inputs, outputs));
    std::iter::from_fn(move || {
        let table = next.take()?;
        next = successor(&table, &places);
        Some(table)
    })
}

fn successor(table: &Table, places: &[usize]) -> Option<Table> {
    let mut table = table.clone();
    for &place in places {
        let cell = &mut table.cells[place];
        *cell = if *cell == NO_STEP { 0 } else { *cell + 1 };
        if usize::from(*cell) < table.states {
            return Some(table);
        }
        *cell = NO_STEP;
    }
    None
}
