//! Compares what the archive finds reached in a table, and its count of ends, with the reference, and tries what holds of every answer. The tables
//! have any cells, or are made by the archive of a module and a plan.

use crate::cases::Cases;
use crate::compare_tables::wrong_length;
use crate::demand3::random_pair;
use crate::lent::Lent;
use crate::random::Random;
use crate::table::{Table, MOST_STATES, SIGNALS};
use crate::tally::Tally;
use crate::ways::{ANY, NONE, YES};
use crate::{archive, calls, ways};

/// Holds a table that no check has seen, and what is lent beside it: flags for the ends; marks and sets of signals for what is reached.
#[derive(Clone)]
struct Case {
    origin: &'static str,
    table: Table,
    flags: Vec<u8>,
    marks: Lent<u8>,
    sets: Vec<u32>,
}

/// Shows the table and what is lent, for a failed case.
impl std::fmt::Debug for Case {
    fn fmt(&self, to: &mut std::fmt::Formatter) -> std::fmt::Result {
        let Case { origin, table, flags, marks, sets } = self;
        write!(to, "{origin}: {table:?}\n  marks {}, flags {}: {:?}", marks.len(), flags.len(), &flags[..flags.len().min(100)])?;
        write!(to, "\n  sets {}: {:x?}", sets.len(), &sets[..sets.len().min(100)])
    }
}

impl Case {
    fn count_by_archive(&self) -> usize {
        archive::count_ends(&self.table, &self.flags)
    }

    fn marks_by(&self, mark: fn(&mut [u8], usize, &[u32], &[u16])) -> Lent<u8> {
        let mut marks = self.marks.clone();
        mark(marks.part(), self.table.initial, &self.sets, &self.table.cells);
        marks
    }

    /// Tells whether the sizes are right for both calls.
    fn sizes_agree(&self) -> bool {
        let Table { states, initial, ref cells, .. } = self.table;
        calls::sizes_agree(states, initial, &self.flags, cells) && calls::sizes_agree(self.marks.len(), initial, &self.sets, cells)
    }
}

pub fn run(cases: &Cases, tally: &mut Tally) {
    if cases.are_at_least(1_000) {
        ways::ask(tally);
    }
    cases.run(tally, |r, tally| {
        let case = match r.kind_of_first_cases(BOUNDS.len() + 2 * LONGEST.len()) {
            0 => recorded(tally, random_case(r)),
            kind if kind <= BOUNDS.len() => recorded(tally, bound_case(r, BOUNDS[kind - 1])),
            // To say what can be said of the longest would take the reference seconds.
            kind => longest_case(r, kind - BOUNDS.len() - 1),
        };
        compare(tally, r, &case);
    });
}

fn recorded(tally: &mut Tally, case: Case) -> Case {
    ways::record_ends(tally, case.origin, &case.table, &case.flags);
    ways::record_marks(tally, case.origin, &case.table, case.marks.len(), &case.sets);
    case
}

fn compare(tally: &mut Tally, r: &mut Random, case: &Case) {
    let (expected, counted) = (calls::count_ends(&case.table, &case.flags), case.count_by_archive());
    tally.check(expected == counted, || format!("expected {expected} ends, are {counted}\n  {case:?}"));
    let (expected, marked) = (case.marks_by(calls::mark_reached), case.marks_by(archive::mark_reached));
    tally.check(expected == marked, || format!("marks {}\n  {case:?}", expected.difference(&marked).unwrap_or_default()));
    let broken = broken_property(r, case);
    tally.check(broken.is_none(), || format!("{}\n  {case:?}", broken.unwrap_or_default()));
}

/// Tries what holds of every answer, without the reference: under yes all that is reached is kept, so flags of 1 alone give the same count; under
/// none there is no end; and with other numbers for the states there are as many ends, and each state has the same mark.
fn broken_property(r: &mut Random, case: &Case) -> Option<String> {
    let ends = case.count_by_archive();
    let all_kept = archive::count_ends(&case.table, &vec![1; case.flags.len()]);
    if case.origin == YES && all_kept != ends || case.origin == NONE && ends != 0 {
        return Some(format!("{ends} ends, and {all_kept} with flags of 1 alone"));
    }
    if !case.sizes_agree() {
        return None;
    }
    let (other, numbers) = renumbered(r, case);
    if other.count_by_archive() != ends {
        return Some(format!("{ends} ends, and {} with other numbers for the states", other.count_by_archive()));
    }
    let (mut marks, mut others) = (case.marks_by(archive::mark_reached), other.marks_by(archive::mark_reached));
    let (marks, others) = (marks.part(), others.part());
    let state = (0..numbers.len()).find(|&state| marks[state] != others[numbers[state]])?;
    Some(format!("state {state} has the mark {}, and {} as state {}", marks[state], others[numbers[state]], numbers[state]))
}

/// Gives each state another number, and moves its row, flag and set there. The new numbers come along.
fn renumbered(r: &mut Random, case: &Case) -> (Case, Vec<usize>) {
    let mut numbers: Vec<usize> = (0..case.table.states).collect();
    r.shuffle(&mut numbers);
    let mut other = case.clone();
    other.table.initial = numbers[case.table.initial];
    for (state, &number) in numbers.iter().enumerate() {
        other.flags[number] = case.flags[state];
        other.sets[number] = case.sets[state];
        for signal in 0..SIGNALS {
            let cell = case.table.cells[state * SIGNALS + signal];
            let to = numbers.get(usize::from(cell));
            other.table.cells[number * SIGNALS + signal] = to.map_or(cell, |&to| to as u16);
        }
    }
    (other, numbers)
}

/// Adds to a table and its flags what is lent for the marks.
fn with_lent(r: &mut Random, (origin, table, flags): (&'static str, Table, Vec<u8>)) -> Case {
    let (marks, sets) = (Lent::arbitrary(r, table.states), random_sets(r, &table));
    Case { origin, table, flags, marks, sets }
}

fn random_case(r: &mut Random) -> Case {
    let made = if r.percent(40) {
        composition(r)
    } else {
        let states = some_states(r);
        any_table(r, states)
    };
    let mut case = with_lent(r, made);
    if r.percent(15) {
        damage(r, &mut case);
    }
    case
}

/// Takes what the archive makes of a module and a plan, with its own header and flags.
fn composition(r: &mut Random) -> (&'static str, Table, Vec<u8>) {
    let most_states = r.pick(&[2, 3, 4, 6, 12]);
    let (module, plan) = random_pair(r, most_states, |_| true);
    let pairs = module.states * plan.states;
    let (mut cells, mut flags) = (vec![0; pairs * SIGNALS], vec![0; pairs]);
    let reply = archive::synthesize(&module, &plan, &mut cells, &mut flags);
    let table = Table { states: reply.states, initial: reply.initial, inputs: reply.inputs, outputs: reply.outputs, cells };
    (if reply.yes { YES } else { NONE }, table, flags)
}

/// Draws mostly few steps a state, so that dead ends and parts that are not reached are frequent.
fn any_table(r: &mut Random, states: usize) -> (&'static str, Table, Vec<u8>) {
    let inputs = any_set(r);
    let outputs = if r.percent(50) { !inputs } else { any_set(r) };
    let mut table = Table::blank(states, r.below(states), inputs, outputs);
    let most_steps = r.pick(&[1, 2, 2, 3, 4, SIGNALS]);
    for state in 0..states {
        for _ in 0..r.between(0, most_steps) {
            let signal = if r.percent(20) { SIGNALS - 1 } else { r.below(SIGNALS) };
            table.cells[state * SIGNALS + signal] = any_cell(r, state, states);
        }
    }
    let flags = (0..states).map(|_| any_flag(r)).collect();
    (ANY, table, flags)
}

/// Draws mostly few states; at times about 64, or about the most that there may be.
fn some_states(r: &mut Random) -> usize {
    match r.below(1_000) {
        0..=909 => r.between(1, 12),
        910..=993 => r.between(60, 70),
        994..=997 => r.between(100, 400),
        _ => r.between(MOST_STATES - 1, MOST_STATES + 1),
    }
}

/// Draws mostly a state, often the next one, at times the same one; else a number that is just too large, or anything.
fn any_cell(r: &mut Random, state: usize, states: usize) -> u16 {
    let cell = match r.below(20) {
        0..=9 => r.below(states),
        10..=15 => (state + 1) % states,
        16 => state,
        17 => states,
        18 => r.pick(&[states + 1, 65_534, 65_535]),
        _ => r.below(65_536),
    };
    cell as u16
}

/// Draws mostly 1; at times 0, what differs from 1 in a single bit, or anything.
fn any_flag(r: &mut Random) -> u8 {
    match r.below(8) {
        0..=4 => 1,
        5 => 0,
        6 => 1 ^ 1 << r.below(8),
        _ => r.below(256) as u8,
    }
}

fn any_set(r: &mut Random) -> u32 {
    r.below(1 << 32) as u32
}

/// Allows every state all signals, none, those that the table declares, its outputs, or any.
fn random_sets(r: &mut Random, table: &Table) -> Vec<u32> {
    let same = r.pick(&[Some(u32::MAX), Some(0), Some(table.signals()), Some(table.outputs), None, None]);
    (0..table.states).map(|_| same.unwrap_or_else(|| any_set(r))).collect()
}

/// Makes one size wrong. What is added would make a difference if it were looked at.
fn damage(r: &mut Random, case: &mut Case) {
    let Case { table, flags, marks, sets, .. } = case;
    let states = table.states;
    let length = wrong_length(r, states);
    match r.below(6) {
        0 => table.states = r.pick(&[0, states.saturating_sub(1), states + 1, MOST_STATES + 1, states + 65_536, states + (1 << 32), usize::MAX]),
        1 => table.initial = r.pick(&[states, states, states + 1, table.initial + 65_536, table.initial + (1 << 32), usize::MAX]),
        2 => table.cells.resize(wrong_length(r, states * SIGNALS), 0),
        3 => flags.resize(length, 1),
        4 => *marks = Lent::arbitrary(r, length),
        _ => sets.resize(length, u32::MAX),
    }
}

/// Lists numbers of states next to a bound, each of which one of the first cases has.
const BOUNDS: [usize; 6] = [63, 64, 65, MOST_STATES - 1, MOST_STATES, MOST_STATES + 1];

fn bound_case(r: &mut Random, states: usize) -> Case {
    let states = 1 + r.given(states - 1, MOST_STATES);
    let made = any_table(r, states);
    with_lent(r, made)
}

const LONGEST: [usize; 3] = [64, 65, MOST_STATES];

/// Takes the most that a search can have before it, twice for each number of states: a way through all states, in any order; and a step in every
/// cell.
fn longest_case(r: &mut Random, number: usize) -> Case {
    let states = 1 + r.given(LONGEST[number / 2] - 1, MOST_STATES - 1);
    let table = if number % 2 == 0 { longest_way(r, states) } else { full_table(r, states) };
    Case { origin: ANY, table, flags: vec![1; states], marks: Lent::arbitrary(r, states), sets: vec![u32::MAX; states] }
}

fn longest_way(r: &mut Random, states: usize) -> Table {
    let mut order: Vec<usize> = (0..states).collect();
    r.shuffle(&mut order);
    let mut way = Table::blank(states, order[0], 0, 0);
    for two in order.windows(2) {
        way.set_step(two[0], r.below(SIGNALS), two[1]);
    }
    way
}

fn full_table(r: &mut Random, states: usize) -> Table {
    let cells = (0..states * SIGNALS).map(|_| r.below(states) as u16).collect();
    Table { cells, ..Table::blank(states, r.below(states), 0, 0) }
}
