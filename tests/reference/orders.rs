//! Wrong orders of the steps of one state: a comparison that meets no text in which such an order would show would take it for the right one.

use crate::tally::Tally;

/// A step line of a text.
struct Step<'t> {
    state: &'t [u8],
    signal: &'t [u8],
    is_output: bool,
}

/// What a text has in which a wrong order would show, and whether that order exchanges two steps that stand next to each other.
type Order = (&'static str, fn(&Step, &Step) -> bool);

const ORDERS: &[Order] = &[
    ("steps of a state not from the highest signal", |_, _| true),
    ("steps of a state not by name", |one, next| one.signal > next.signal),
    ("steps of a state not inputs before outputs", |one, next| one.is_output && !next.is_output),
    ("steps of a state not outputs before inputs", |one, next| !one.is_output && next.is_output),
];

/// Counts the wrong orders that would show in a text; in the text itself the order is right.
pub fn record(tally: &mut Tally, call: &str, text: &[u8]) {
    let steps = steps_of(text);
    let neighbours: Vec<&[Step]> = steps.windows(2).filter(|two| two[0].state == two[1].state).collect();
    for (order, exchanges) in ORDERS {
        if neighbours.iter().any(|two| exchanges(&two[0], &two[1])) {
            tally.saw(&outcome(call, order));
        }
    }
}

pub fn ask(tally: &mut Tally, call: &str) {
    for (order, _) in ORDERS {
        tally.must_have_seen(&outcome(call, order));
    }
}

fn outcome(call: &str, order: &str) -> String {
    format!("{call}: {order}")
}

fn steps_of(text: &[u8]) -> Vec<Step<'_>> {
    let (mut outputs, mut steps) = (Vec::new(), Vec::new());
    for line in text.split(|&byte| byte == b'\n') {
        let fields: Vec<&[u8]> = line.split(|&byte| byte == b'\t').collect();
        match fields[..] {
            [b"out", name] => outputs.push(name),
            [b"step", state, signal, _] => steps.push(Step { state, signal, is_output: outputs.contains(&signal) }),
            _ => (),
        }
    }
    steps
}
