//! Counts the ways through a table that tell the right ends and marks from wrong ones: a comparison that never meets them would take a wrong answer
//! for the right one.

use crate::calls::ends;
use crate::reach::reached;
use crate::table::{members, Table, MOST_STATES, NO_STEP, SIGNALS};
use crate::tally::Tally;

/// Name where a table comes from: any cells, or a composition with its verdict.
pub const ANY: &str = "any table";
pub const YES: &str = "composition, yes";
pub const NONE: &str = "composition, none";

const FIRST: &str = "an end that is the first state";
const NO_END: &str = "no end";
const SEVERAL: &str = "several ends";
const BY_INPUT: &str = "an end reached only through an input";
const BY_OUTPUT: &str = "an end reached only through an output";
const BY_UNDECLARED: &str = "an end reached only through an undeclared signal";
const STRAY_CELL: &str = "an end with a cell that names no state, not 65,535";
const UNREACHED: &str = "a kept state without a step, not reached";
const DROPPED: &str = "a reached state without a step, not kept";
const ODD_FLAG: &str = "a reached state without a step, its flag above 1";
const FIRST_DROPPED: &str = "the first state dropped, others with steps";
const LOOP: &str = "a reached kept state with steps to itself alone";
const LAST_STEP: &str = "a reached kept state with a step by signal 31 alone";
const LARGE: &str = "more than 64 states";

const ALL: &str = "all of several states marked";
const NOT_ALL: &str = "a state not marked";
const OUTSIDE: &str = "a state not marked that a step outside the sets leads to";
const STRAY_STEP: &str = "a marked state with a cell in its set that names no state, not 65,535";
const BY_LAST: &str = "a state marked only through signal 31";

const TOO_MANY: &str = "too many states";
const NO_FIRST: &str = "no such first state";
const ENTRIES: &str = "not one entry for each state";
const CELLS: &str = "not 32 cells for each state";

/// Lists numbers of states next to a bound: the most in the smaller room, and the most that there may be.
const SIZES: [usize; 5] = [63, 64, 65, MOST_STATES - 1, MOST_STATES];

/// Counts what can be said of a table and its flags.
pub fn record_ends(tally: &mut Tally, origin: &str, table: &Table, flags: &[u8]) {
    if !record_sizes(tally, "ends", table.states, table, flags.len()) {
        return;
    }
    let Table { states, initial, inputs, outputs, ref cells } = *table;
    let row = |state: usize| &cells[state * SIGNALS..][..SIGNALS];
    let steps = |state: usize| (0..SIGNALS).filter(move |&signal| usize::from(row(state)[signal]) < states);
    let by = |signals: u32| reached(initial, &vec![signals; states], cells);
    let (all, without_inputs, without_outputs, declared) = (by(u32::MAX), by(!inputs), by(!outputs), by(inputs | outputs));
    let ends = ends(table, flags);
    let (idle, moving): (Vec<usize>, Vec<usize>) = (0..states).partition(|&state| steps(state).next().is_none());
    let moving_kept = || moving.iter().copied().filter(|&state| all[state] && flags[state] == 1);
    let outcomes = [
        (FIRST, ends.contains(&initial)),
        (NO_END, ends.is_empty()),
        (SEVERAL, ends.len() > 1),
        (BY_INPUT, ends.iter().any(|&end| !without_inputs[end])),
        (BY_OUTPUT, ends.iter().any(|&end| !without_outputs[end])),
        (BY_UNDECLARED, ends.iter().any(|&end| !declared[end])),
        (STRAY_CELL, ends.iter().any(|&end| row(end).iter().any(|&cell| cell != NO_STEP))),
        (UNREACHED, idle.iter().any(|&state| !all[state] && flags[state] == 1)),
        (DROPPED, idle.iter().any(|&state| all[state] && flags[state] == 0)),
        (ODD_FLAG, idle.iter().any(|&state| all[state] && flags[state] > 1)),
        (FIRST_DROPPED, flags[initial] == 0 && !moving.is_empty()),
        (LOOP, moving_kept().any(|state| steps(state).all(|signal| usize::from(row(state)[signal]) == state))),
        (LAST_STEP, moving_kept().any(|state| steps(state).eq([SIGNALS - 1]))),
        (LARGE, states > 64),
    ];
    record(tally, origin, &outcomes);
}

/// Counts what can be said of a table, the number of marks and the sets.
pub fn record_marks(tally: &mut Tally, origin: &str, table: &Table, marks: usize, sets: &[u32]) {
    if !record_sizes(tally, "marks", marks, table, sets.len()) {
        return;
    }
    let Table { initial, ref cells, .. } = *table;
    let by = |allowed: u32| reached(initial, &sets.iter().map(|set| set & allowed).collect::<Vec<u32>>(), cells);
    let (marked, without_last) = (by(u32::MAX), by(!(1 << (SIGNALS - 1))));
    let is_stray = |state: usize, signal: usize| (marks..usize::from(NO_STEP)).contains(&usize::from(cells[state * SIGNALS + signal]));
    let outcomes = [
        (ALL, marks > 1 && !marked.contains(&false)),
        (NOT_ALL, marked.contains(&false)),
        (OUTSIDE, marked != reached(initial, &vec![u32::MAX; marks], cells)),
        (STRAY_STEP, (0..marks).any(|state| marked[state] && members(sets[state]).any(|signal| is_stray(state, signal)))),
        (BY_LAST, marked != without_last),
    ];
    record(tally, origin, &outcomes);
}

/// Counts the sizes that are wrong, or the number of states where it is next to a bound. Says whether the sizes are right.
fn record_sizes(tally: &mut Tally, call: &str, states: usize, table: &Table, entries: usize) -> bool {
    let sizes = [
        (TOO_MANY, states > MOST_STATES),
        (NO_FIRST, table.initial >= states),
        (ENTRIES, entries != states),
        (CELLS, states.checked_mul(SIGNALS) != Some(table.cells.len())),
    ];
    let wrong: Vec<&str> = sizes.iter().filter(|(_, is_wrong)| *is_wrong).map(|(size, _)| *size).collect();
    match wrong[..] {
        [] if SIZES.contains(&states) => tally.saw(&of_size(call, states)),
        [] => (),
        [size] => tally.saw(&alone(call, size)),
        _ => tally.saw(&outcome(call, "several sizes wrong")),
    }
    wrong.is_empty()
}

fn record(tally: &mut Tally, origin: &str, outcomes: &[(&str, bool)]) {
    for (what, _) in outcomes.iter().filter(|(_, is_met)| *is_met) {
        tally.saw(&outcome(origin, what));
    }
}

/// Asks for all that can occur. A composition has no odd flags, stray cells or undeclared steps; under yes all that is reached is kept, and under
/// none only the first state is reached.
pub fn ask(tally: &mut Tally) {
    let of_any = [
        FIRST, NO_END, SEVERAL, BY_INPUT, BY_OUTPUT, BY_UNDECLARED, STRAY_CELL, UNREACHED, DROPPED, ODD_FLAG, FIRST_DROPPED, LOOP, LAST_STEP,
        ALL, NOT_ALL, OUTSIDE, STRAY_STEP, BY_LAST,
    ];
    let of_yes = [FIRST, NO_END, SEVERAL, BY_INPUT, BY_OUTPUT, UNREACHED, LOOP, LAST_STEP, LARGE, ALL, NOT_ALL, OUTSIDE, BY_LAST];
    let of_none = [NO_END, UNREACHED, DROPPED, FIRST_DROPPED, LARGE, NOT_ALL];
    for (origin, asked) in [(ANY, &of_any[..]), (YES, &of_yes), (NONE, &of_none)] {
        asked.iter().for_each(|what| tally.must_have_seen(&outcome(origin, what)));
    }
    for call in ["ends", "marks"] {
        [TOO_MANY, NO_FIRST, ENTRIES, CELLS].iter().for_each(|size| tally.must_have_seen(&alone(call, size)));
        SIZES.iter().for_each(|&states| tally.must_have_seen(&of_size(call, states)));
    }
}

fn outcome(origin: &str, what: &str) -> String {
    format!("{origin}: {what}")
}

fn alone(call: &str, size: &str) -> String {
    outcome(call, &format!("{size}, the other sizes right"))
}

fn of_size(call: &str, states: usize) -> String {
    outcome(call, &format!("{states} states"))
}
