//! Answers of the archive, each from buffers of the length that the call needs, for comparisons in which the reference is not asked.

use crate::archive;
use crate::reply::Reply;
use crate::table::{Table, MOST_PAIRS, NO_STEP, SIGNALS};

pub const TOO_MANY_PAIRS: u32 = 9;

/// What stands in the buffers before a call: neither is a result of one.
const OLD_CELL: u16 = 54_321;
const OLD_FLAG: u8 = 99;

/// Yes or no, or the number of the refusal.
pub type Verdict = Result<bool, u32>;

pub fn verdict(reply: &Reply) -> Verdict {
    if reply.number == 0 { Ok(reply.yes) } else { Err(reply.number) }
}

/// What a call on two tables answers, and the buffers that it was lent; one that the call does not take is empty.
#[derive(Clone, PartialEq)]
pub struct Answer {
    pub reply: Reply,
    pub cells: Vec<u16>,
    pub flags: Vec<u8>,
}

impl Answer {
    /// The table that was made.
    pub fn table(&self) -> Table {
        let Reply { states, initial, inputs, outputs, .. } = self.reply;
        Table { states, initial, inputs, outputs, cells: self.cells.clone() }
    }

    /// Whether pairs are dropped, the first is kept, and it has a step.
    pub fn drops_pairs_and_moves(&self) -> bool {
        let first = self.reply.initial * SIGNALS;
        let moves = self.cells.iter().skip(first).take(SIGNALS).any(|&cell| cell != NO_STEP);
        self.reply.yes && self.reply.value > 0 && moves
    }

    /// Whether the buffers are as they were lent.
    pub fn is_untouched(&self) -> bool {
        self.cells.iter().all(|&cell| cell == OLD_CELL) && self.flags.iter().all(|&flag| flag == OLD_FLAG)
    }
}

/// One entry for each pair; more pairs than there may be are refused whatever the length is.
fn entries(a: &Table, b: &Table) -> usize {
    a.states.saturating_mul(b.states).min(MOST_PAIRS as usize + 1)
}

fn cells(a: &Table, b: &Table) -> Vec<u16> {
    vec![OLD_CELL; entries(a, b) * SIGNALS]
}

fn flags(a: &Table, b: &Table) -> Vec<u8> {
    vec![OLD_FLAG; entries(a, b)]
}

pub fn product(a: &Table, b: &Table) -> Answer {
    let mut cells = cells(a, b);
    let reply = archive::make_product(a, b, &mut cells);
    Answer { reply, cells, flags: Vec::new() }
}

pub fn fit(a: &Table, b: &Table) -> Answer {
    let mut flags = flags(a, b);
    let reply = archive::judge_fit(a, b, &mut flags);
    Answer { reply, cells: Vec::new(), flags }
}

pub fn composition(a: &Table, b: &Table) -> Answer {
    let (mut cells, mut flags) = (cells(a, b), flags(a, b));
    let reply = archive::make_composition(a, b, &mut cells, &mut flags);
    Answer { reply, cells, flags }
}

pub fn sequencer(module: &Table, plan: &Table) -> Answer {
    let (mut cells, mut flags) = (cells(module, plan), flags(module, plan));
    let reply = archive::synthesize(module, plan, &mut cells, &mut flags);
    Answer { reply, cells, flags }
}

/// The marks stand in the flags.
pub fn refinement(x: &Table, y: &Table) -> Answer {
    let mut flags = flags(x, y);
    let reply = archive::judge_refinement(x, y, &mut flags);
    Answer { reply, cells: Vec::new(), flags }
}

pub fn refines(x: &Table, y: &Table) -> Verdict {
    verdict(&refinement(x, y).reply)
}

/// To meet the plan is to fit the module and, composed with it, refine the plan.
pub fn meets(module: &Table, sequencer: &Table, plan: &Table) -> Verdict {
    let composition = composition(module, sequencer);
    if verdict(&composition.reply)? { refines(&composition.table(), plan) } else { Ok(false) }
}
