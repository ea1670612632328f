//! What the program prints, from the bytes of its two files, and what its report leaves in the buffers that it is lent.

use crate::calls::{count_ends, count_kept, count_steps, synthesize};
use crate::lent::Lent;
use crate::random::Random;
use crate::reply::Reply;
use crate::table::{Table, SIGNALS};
use crate::text::{fill, read_both, Rule, MODULE, PLAN};
use crate::writer::{digits, line, write};

const TEXT_BYTES: usize = 65_536;

/// More pairs get 10, whatever room there is.
const MOST_PAIRS: usize = 1_024;

/// The cells and flags that there are for the two tables and the result.
pub struct Room {
    pub module_cells: usize,
    pub plan_cells: usize,
    pub cells: usize,
    pub flags: usize,
}

/// Every cell buffer of the program has 32,768 cells.
pub const PROGRAM: Room = Room { module_cells: 32_768, plan_cells: 32_768, cells: 32_768, flags: 1_024 };

/// The cells lent for module, plan and result, and the flags lent for the result.
#[derive(Clone, PartialEq, Eq)]
pub struct Buffers {
    pub module_cells: Lent<u16>,
    pub plan_cells: Lent<u16>,
    pub cells: Lent<u16>,
    pub flags: Lent<u8>,
}

impl Buffers {
    pub fn arbitrary(r: &mut Random, room: &Room) -> Buffers {
        Buffers {
            module_cells: Lent::arbitrary(r, room.module_cells),
            plan_cells: Lent::arbitrary(r, room.plan_cells),
            cells: Lent::arbitrary(r, room.cells),
            flags: Lent::arbitrary(r, room.flags),
        }
    }

    fn room(&self) -> Room {
        Room { module_cells: self.module_cells.len(), plan_cells: self.plan_cells.len(), cells: self.cells.len(), flags: self.flags.len() }
    }

    /// Where each buffer first differs from its fellow.
    pub fn differences(&self, other: &Buffers) -> [Option<String>; 4] {
        [
            self.module_cells.difference(&other.module_cells),
            self.plan_cells.difference(&other.plan_cells),
            self.cells.difference(&other.cells),
            self.flags.difference(&other.flags),
        ]
    }
}

/// What comes of two texts that no check refuses.
struct Made {
    module: Table,
    plan: Table,
    cells: Vec<u16>,
    flags: Vec<u8>,
    printed: Vec<u8>,
}

/// A file that can't be read is `None`.
pub fn print(module: Option<&[u8]>, plan: Option<&[u8]>) -> Vec<u8> {
    make(module, plan, &PROGRAM).map_or_else(|refusal| refusal_line(&refusal), |made| made.printed)
}

/// What is printed for two texts. The tables read and the result are left in the buffers; a refusal, of the reading or after it, leaves both
/// tables without steps, and the result's buffers as they were.
pub fn report(module: &[u8], plan: &[u8], lent: &mut Buffers) -> Vec<u8> {
    let outcome = make(Some(module), Some(plan), &lent.room());
    fill(lent.module_cells.part(), outcome.as_ref().ok().map(|made| &made.module));
    fill(lent.plan_cells.part(), outcome.as_ref().ok().map(|made| &made.plan));
    match outcome {
        Err(refusal) => refusal_line(&refusal),
        Ok(made) => {
            lent.cells.part()[..made.cells.len()].copy_from_slice(&made.cells);
            lent.flags.part()[..made.flags.len()].copy_from_slice(&made.flags);
            made.printed
        }
    }
}

/// The texts of the two files, or 24 for the first that can't be read.
pub fn texts<'t>(module: Option<&'t [u8]>, plan: Option<&'t [u8]>) -> Result<(&'t [u8], &'t [u8]), Reply> {
    let Some(module) = module else { return Reply::refused(24, MODULE) };
    let Some(plan) = plan else { return Reply::refused(24, PLAN) };
    Ok((module, plan))
}

fn make(module: Option<&[u8]>, plan: Option<&[u8]>, room: &Room) -> Result<Made, Reply> {
    let (module, plan) = texts(module, plan)?;
    let (module, plan, signals) = read_both(Rule::Folded, module, plan, room.module_cells, room.plan_cells)?;

    // The buffers are cut to the pairs, as many as there is room for: so of 8, 9 and 10 for pairs the first that applies is given.
    let pairs = module.states * plan.states;
    let mut cells = vec![0; room.cells.min(pairs.min(MOST_PAIRS) * SIGNALS)];
    let mut flags = vec![0; room.flags.min(pairs.min(MOST_PAIRS))];
    let reply = synthesize(&module, &plan, &mut cells, &mut flags)?;

    let names: Vec<&[u8]> = signals.iter().map(|signal| signal.name.as_slice()).collect();
    let table = Table { states: pairs, initial: reply.initial, inputs: reply.inputs, outputs: reply.outputs, cells };
    let mut text = vec![0; TEXT_BYTES];
    let length = if reply.yes { write(&table, b"sequencer", &names, &mut text)?.value } else { 0 };

    let mut printed = summary(&reply, &table, &flags);
    printed.extend(&text[..length]);
    Ok(Made { module, plan, cells: table.cells, flags, printed })
}

/// The six lines that stand before the text.
fn summary(reply: &Reply, table: &Table, flags: &[u8]) -> Vec<u8> {
    let verdict: &[u8] = if reply.yes { b"yes" } else { b"none" };
    let counts = [
        ("pairs", table.states),
        ("kept", count_kept(flags)),
        ("rounds", reply.value),
        ("steps", count_steps(table.states, &table.cells)),
        ("ends", count_ends(table, flags)),
    ];
    let mut lines = line(&[b"verdict", verdict]);
    for (word, count) in counts {
        lines.extend(line(&[word.as_bytes(), &digits(count)]));
    }
    lines
}

pub fn refusal_line(refusal: &Reply) -> Vec<u8> {
    line(&[b"refused", &digits(refusal.table as usize), &digits(refusal.number as usize), &digits(refusal.line)])
}
