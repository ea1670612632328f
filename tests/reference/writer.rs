//! The writer of table text: the table, its name, the names of its signals and their numbering settle every byte.

use crate::calls::accept;
use crate::reply::{Outcome, Reply};
use crate::table::{has, members, Table};
use crate::text::{is_name, MOST_BYTES};

/// Checks 1 to 6, 16 (table name, then signals), 18, 28 and 23; then the text. Bytes past it stay.
pub fn write(table: &Table, name: &[u8], names: &[&[u8]], out: &mut [u8]) -> Outcome {
    accept(table, 1)?;
    let declared: Vec<&[u8]> = members(table.signals()).map(|signal| signal_name(names, signal)).collect();
    if !is_name(name) || !declared.iter().all(|name| is_name(name)) {
        return Reply::refused(16, 0);
    }
    if any_two(&declared, |one, other| one == other) {
        return Reply::refused(18, 0);
    }
    if any_two(&declared, <[u8]>::eq_ignore_ascii_case) {
        return Reply::refused(28, 0);
    }
    let text = text_of(table, name, names);
    if text.len() > out.len() || text.len() > MOST_BYTES {
        return Reply::refused(23, 0);
    }
    out[..text.len()].copy_from_slice(&text);
    Ok(Reply { value: text.len(), ..Reply::default() })
}

/// Whether two of the names, at different places, are as asked.
pub fn any_two(names: &[&[u8]], are: impl Fn(&[u8], &[u8]) -> bool) -> bool {
    (1..names.len()).any(|later| names[..later].iter().any(|earlier| are(earlier, names[later])))
}

/// A name that was not lent is an empty one.
fn signal_name<'n>(names: &[&'n [u8]], signal: usize) -> &'n [u8] {
    names.get(signal).copied().unwrap_or(b"")
}

/// The text of an accepted table: signals by ascending number; steps by state of departure, those of one state by ascending signal number.
pub fn text_of(table: &Table, name: &[u8], names: &[&[u8]]) -> Vec<u8> {
    let mut text = line(&[b"table", name, &digits(table.states), &digits(table.initial)]);
    for signal in members(table.signals()) {
        text.extend(declaration_line(table, names, signal));
    }
    for state in 0..table.states {
        for signal in members(table.signals()) {
            text.extend(step_line(table, names, state, signal));
        }
    }
    text
}

pub fn declaration_line(table: &Table, names: &[&[u8]], signal: usize) -> Vec<u8> {
    let kind: &[u8] = if has(table.inputs, signal) { b"in" } else { b"out" };
    line(&[kind, signal_name(names, signal)])
}

/// The line of a step, or nothing where there is no step.
pub fn step_line(table: &Table, names: &[&[u8]], state: usize, signal: usize) -> Vec<u8> {
    let Some(to) = table.step(state, signal) else { return Vec::new() };
    line(&[b"step", &digits(state), signal_name(names, signal), &digits(to)])
}

pub fn line(fields: &[&[u8]]) -> Vec<u8> {
    let mut line = fields.join(&b'\t');
    line.push(b'\n');
    line
}

pub fn digits(number: usize) -> Vec<u8> {
    number.to_string().into_bytes()
}
