//! Places of bad cells that tell the right rule from wrong ones: a comparison that never meets them would take a wrong rule for the right one.

use crate::table::{Fault, Table, SIGNALS};
use crate::tally::Tally;

const AFTER_5: &str = "after an earlier 5";
const AFTER_6: &str = "after an earlier 6";
const BEFORE_LOWER_SIGNAL: &str = "before one of a later state and a lower signal";
const NOT_ZERO: &str = "at a state and a signal above 0, not equal";
const LAST_CELL: &str = "in the last cell";

/// Counts what can be said of the cell that a refusal names, in the table that it names.
pub fn record(tally: &mut Tally, refusal: &str, named: Fault, table: &Table) {
    let others: Vec<Fault> = table.bad_cells().filter(|&other| other != named).collect();
    let is_after = |number| others.iter().any(|other| other.number == number && (other.state, other.signal) < (named.state, named.signal));
    let is_before = |other: &Fault| other.number == named.number && other.state > named.state && other.signal < named.signal;
    let places = [
        (AFTER_5, is_after(5)),
        (AFTER_6, is_after(6)),
        (BEFORE_LOWER_SIGNAL, others.iter().any(is_before)),
        (NOT_ZERO, named.state > 0 && named.signal > 0 && named.state != named.signal),
        (LAST_CELL, named.state + 1 == table.states && named.signal + 1 == SIGNALS),
    ];
    for (place, _) in places.iter().filter(|(_, is_met)| *is_met) {
        tally.saw(&outcome(refusal, place));
    }
}

/// The table check names the first bad cell; the follower names its own, even after an earlier one.
pub fn ask(tally: &mut Tally, refusal: &str, number: u32, is_follower: bool) {
    let places: &[&str] = match number {
        5 if is_follower => &[AFTER_5, NOT_ZERO],
        5 => &[AFTER_6, BEFORE_LOWER_SIGNAL, NOT_ZERO, LAST_CELL],
        6 => &[BEFORE_LOWER_SIGNAL, NOT_ZERO, LAST_CELL],
        _ => &[],
    };
    for place in places {
        tally.must_have_seen(&outcome(refusal, place));
    }
}

fn outcome(refusal: &str, place: &str) -> String {
    format!("{refusal}, {place}")
}
