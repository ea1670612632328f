//! Other numbers for states and signals: an answer may change in these numbers alone.

use crate::answers::Answer;
use crate::random::Random;
use crate::reply::Reply;
use crate::table::{members, Table, SIGNALS};

/// The new number of each; what has none keeps its own, as "no step" does.
pub struct Numbers(Vec<usize>);

impl Numbers {
    fn of(&self, old: usize) -> usize {
        self.0.get(old).copied().unwrap_or(old)
    }

    /// The numbers below `count` in any order.
    pub fn random(r: &mut Random, count: usize) -> Numbers {
        let mut numbers: Vec<usize> = (0..count).collect();
        r.shuffle(&mut numbers);
        Numbers(numbers)
    }

    pub fn unchanged() -> Numbers {
        Numbers(Vec::new())
    }

    /// The numbers of pairs, from those of the states of the two tables.
    pub fn of_pairs(first: &Numbers, second: &Numbers) -> Numbers {
        Numbers(first.0.iter().flat_map(|p| second.0.iter().map(move |q| p * second.0.len() + q)).collect())
    }

    /// The pair (q, p) in the place of (p, q), where p is a state of `a` and q one of `b`.
    pub fn swapping(a: &Table, b: &Table) -> Numbers {
        Numbers((0..a.states * b.states).map(|pair| pair % b.states * a.states + pair / b.states).collect())
    }

    /// The first signals get the given numbers, in this order; the others share the numbers that are left.
    pub fn of_signals(given: Vec<usize>) -> Numbers {
        let left: Vec<usize> = (0..SIGNALS).filter(|number| !given.contains(number)).collect();
        Numbers([given, left].concat())
    }

    fn of_set(&self, set: u32) -> u32 {
        members(set).fold(0, |new, signal| new | 1 << self.of(signal))
    }
}

pub fn table(table: &Table, states: &Numbers, signals: &Numbers) -> Table {
    let (inputs, outputs) = (signals.of_set(table.inputs), signals.of_set(table.outputs));
    Table { states: table.states, initial: states.of(table.initial), inputs, outputs, cells: cells(&table.cells, states, signals) }
}

/// The answer of a call on two tables; a refusal stays as it is.
pub fn answer(answer: &Answer, pairs: &Numbers, signals: &Numbers) -> Answer {
    let Answer { reply, cells: old_cells, flags: old_flags } = answer;
    if reply.number != 0 {
        return answer.clone();
    }
    let (inputs, outputs) = (signals.of_set(reply.inputs), signals.of_set(reply.outputs));
    // A call that makes no table has no first state either.
    let initial = if reply.states == 0 { 0 } else { pairs.of(reply.initial) };
    let mut flags = old_flags.clone();
    for (pair, &flag) in old_flags.iter().enumerate() {
        flags[pairs.of(pair)] = flag;
    }
    Answer { reply: Reply { initial, inputs, outputs, ..*reply }, cells: cells(old_cells, pairs, signals), flags }
}

fn cells(old: &[u16], states: &Numbers, signals: &Numbers) -> Vec<u16> {
    let mut cells = old.to_vec();
    for (place, &to) in old.iter().enumerate() {
        cells[states.of(place / SIGNALS) * SIGNALS + signals.of(place % SIGNALS)] = states.of(usize::from(to)) as u16;
    }
    cells
}
