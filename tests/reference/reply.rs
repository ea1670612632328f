//! What a call answers: one record for every call, in the layout in which the archives give it back.

use crate::table::{Fault, Table};

#[repr(C)]
#[derive(Clone, Copy, Debug, Default, PartialEq, Eq)]
pub struct Reply {
    /// The refusal's number, or 0.
    pub number: u32,
    /// The table or text at fault, or 0.
    pub table: u32,
    /// The line of a refused reading, or 0.
    pub line: usize,
    /// The verdict; for the follower, whether it moved.
    pub yes: bool,
    /// Rounds, the follower's state, or a length.
    pub value: usize,
    pub states: usize,
    pub initial: usize,
    pub inputs: u32,
    pub outputs: u32,
    /// The plan's numbers, of a joint reading.
    pub states_2: usize,
    pub initial_2: usize,
    pub inputs_2: u32,
    pub outputs_2: u32,
    /// Whether the refusal has a place: those by 1 to 6 do.
    pub placed: bool,
    /// The state and the signal of the place, or 0.
    pub cell_state: usize,
    pub cell_signal: usize,
}

/// A reply, or the refusal's reply.
pub type Outcome = Result<Reply, Reply>;

impl Reply {
    /// A refusal by a number from 7 on carries no place.
    pub fn refused<T>(number: u32, table: u32) -> Result<T, Reply> {
        Err(Reply { number, table, ..Reply::default() })
    }

    /// A refusal by 1 to 6 carries its place.
    pub fn refused_at<T>(Fault { number, state, signal }: Fault, table: u32) -> Result<T, Reply> {
        Err(Reply { number, table, placed: true, cell_state: state, cell_signal: signal, ..Reply::default() })
    }

    /// The bad cell that a refusal by 5 or 6 names.
    pub fn bad_cell(&self) -> Option<Fault> {
        matches!(self.number, 5 | 6).then_some(Fault { number: self.number, state: self.cell_state, signal: self.cell_signal })
    }

    pub fn with_table(self, table: &Table) -> Reply {
        Reply { states: table.states, initial: table.initial, inputs: table.inputs, outputs: table.outputs, ..self }
    }

    pub fn with_plan(self, plan: &Table) -> Reply {
        Reply { states_2: plan.states, initial_2: plan.initial, inputs_2: plan.inputs, outputs_2: plan.outputs, ..self }
    }

    pub fn of(outcome: Outcome) -> Reply {
        outcome.unwrap_or_else(|refusal| refusal)
    }
}
