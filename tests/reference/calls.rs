//! The calls on tables: their checks in the order of the numbers, then the result in the lent buffers.

use crate::fit::{compose, fit, Fit};
use crate::product::product;
use crate::reach::reached;
use crate::refine::{marks, refines};
use crate::reply::{Outcome, Reply};
use crate::synth::{lists_refused, sequencer};
use crate::table::{has, Fault, Table, MOST_PAIRS, MOST_STATES, NO_STEP, SIGNALS};

pub fn judge(table: &Table) -> Outcome {
    accept(table, 1)?;
    Ok(Reply::default())
}

pub fn mirror(table: &Table) -> Outcome {
    accept(table, 1)?;
    Ok(Reply::default().with_table(&table.mirror()))
}

pub fn make_product(a: &Table, b: &Table, cells: &mut [u16]) -> Outcome {
    accept_composable(a, b)?;
    let pairs = accept_pairs(a, b)?;
    accept_length(cells, pairs * SIGNALS)?;
    let table = product(a, b);
    cells.copy_from_slice(&table.cells);
    Ok(Reply::default().with_table(&table))
}

pub fn judge_fit(a: &Table, b: &Table, flags: &mut [u8]) -> Outcome {
    accept_composable(a, b)?;
    let pairs = accept_pairs(a, b)?;
    accept_length(flags, pairs)?;
    let fit = fit(a, b);
    fill_flags(flags, &fit.kept);
    Ok(verdict(&fit))
}

pub fn make_composition(a: &Table, b: &Table, cells: &mut [u16], flags: &mut [u8]) -> Outcome {
    accept_composable(a, b)?;
    give_table(a, b, compose, cells, flags)
}

pub fn judge_refinement(x: &Table, y: &Table, lent: &mut [u8]) -> Outcome {
    accept_both(x, y)?;
    let pairs = accept_pairs(x, y)?;
    accept_length(lent, pairs)?;
    fill_flags(lent, &marks(x, y));
    Ok(Reply { yes: refines(x, y), ..Reply::default() })
}

pub fn synthesize(module: &Table, plan: &Table, cells: &mut [u16], flags: &mut [u8]) -> Outcome {
    accept_both(module, plan)?;
    if lists_refused(module, plan) {
        return Reply::refused(8, 0);
    }
    give_table(module, plan, sequencer, cells, flags)
}

/// The follower makes checks 1 to 4, 11 and 12, then 5 for its own cell, which it names. The reply's value is the state afterwards.
pub fn follow(table: &Table, state: usize, signal: usize) -> Reply {
    match next_state(table, state, signal) {
        Ok(Some(next)) => Reply { yes: true, value: next, ..Reply::default() },
        Ok(None) => Reply { value: state, ..Reply::default() },
        Err(refusal) => Reply { value: state, ..refusal },
    }
}

fn next_state(table: &Table, state: usize, signal: usize) -> Result<Option<usize>, Reply> {
    if let Some(fault) = table.shape_fault() {
        return Reply::refused_at(fault, 1);
    }
    if state >= table.states {
        return Reply::refused(11, 1);
    }
    if !has(table.signals(), signal) {
        return Reply::refused(12, 1);
    }
    match table.step(state, signal) {
        Some(next) if next >= table.states => Reply::refused_at(Fault { number: 5, state, signal }, 1),
        step => Ok(step),
    }
}

pub fn count_kept(flags: &[u8]) -> usize {
    flags.iter().filter(|&&flag| flag == 1).count()
}

/// Cells that hold a step: of cells that no check has seen, those that name a state.
pub fn count_steps(states: usize, cells: &[u16]) -> usize {
    cells.iter().filter(|&&cell| holds_step(states, cell)).count()
}

fn holds_step(states: usize, cell: u16) -> bool {
    cell != NO_STEP && usize::from(cell) < states
}

pub fn count_ends(table: &Table, flags: &[u8]) -> usize {
    ends(table, flags).len()
}

/// Lists the ends (02, S-4): kept states, reached from the first by steps of any signals, without a step out. There are none where the sizes do
/// not agree.
pub fn ends(table: &Table, flags: &[u8]) -> Vec<usize> {
    let Table { states, initial, ref cells, .. } = *table;
    if !sizes_agree(states, initial, flags, cells) {
        return Vec::new();
    }
    let reached = reached(initial, &vec![u32::MAX; states], cells);
    let has_step = |state: usize| count_steps(states, &cells[state * SIGNALS..][..SIGNALS]) > 0;
    (0..states).filter(|&state| flags[state] == 1 && reached[state] && !has_step(state)).collect()
}

/// Marks with 1 the states that are reached from the first by steps of the signals in each state's set, and all others with 0. Where the sizes do not
/// agree, the marks stay as they are.
pub fn mark_reached(marks: &mut [u8], initial: usize, sets: &[u32], cells: &[u16]) {
    if sizes_agree(marks.len(), initial, sets, cells) {
        fill_flags(marks, &reached(initial, sets, cells));
    }
}

/// Tells whether a table may have so many states, the first is one of them, and each has an entry and a row of cells.
pub fn sizes_agree<T>(states: usize, initial: usize, entries: &[T], cells: &[u16]) -> bool {
    states <= MOST_STATES && initial < states && entries.len() == states && cells.len() == states * SIGNALS
}

/// Checks 1 to 6; a refusal carries its place, in the table that it names.
pub fn accept(table: &Table, which: u32) -> Result<(), Reply> {
    table.fault().map_or(Ok(()), |fault| Reply::refused_at(fault, which))
}

fn accept_both(a: &Table, b: &Table) -> Result<(), Reply> {
    accept(a, 1)?;
    accept(b, 2)
}

fn accept_composable(a: &Table, b: &Table) -> Result<(), Reply> {
    accept_both(a, b)?;
    if a.outputs & b.outputs != 0 {
        return Reply::refused(7, 0);
    }
    Ok(())
}

fn accept_pairs(a: &Table, b: &Table) -> Result<usize, Reply> {
    if a.states as u128 * b.states as u128 > MOST_PAIRS {
        return Reply::refused(9, 0);
    }
    Ok(a.states * b.states)
}

fn accept_length<T>(lent: &[T], needed: usize) -> Result<(), Reply> {
    if lent.len() != needed {
        return Reply::refused(10, 0);
    }
    Ok(())
}

/// What composing and the sequencer maker have in common: checks 9 and 10, then cells and flags with either verdict.
fn give_table(a: &Table, b: &Table, make: fn(&Table, &Table) -> (Table, Fit), cells: &mut [u16], flags: &mut [u8]) -> Outcome {
    let pairs = accept_pairs(a, b)?;
    accept_length(cells, pairs * SIGNALS)?;
    accept_length(flags, pairs)?;
    let (table, fit) = make(a, b);
    cells.copy_from_slice(&table.cells);
    fill_flags(flags, &fit.kept);
    Ok(verdict(&fit).with_table(&table))
}

fn verdict(fit: &Fit) -> Reply {
    Reply { yes: fit.fits, value: fit.rounds, ..Reply::default() }
}

fn fill_flags(flags: &mut [u8], kept: &[bool]) {
    for (flag, &kept) in flags.iter_mut().zip(kept) {
        *flag = u8::from(kept);
    }
}
