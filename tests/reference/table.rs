//! A table: an interface automaton without internal actions, with at most one step for each state and signal; and checks 1 to 6.

pub const NO_STEP: u16 = 65_535;
pub const SIGNALS: usize = 32;
pub const MOST_STATES: usize = 4_096;
pub const MOST_PAIRS: u128 = 4_096;

/// Why one of checks 1 to 6 turns a table away, and the place: a state and a signal (02, S-2). The least fault counts: the lower number, then the
/// first place in state order, then signal order.
#[derive(Clone, Copy, Debug, PartialEq, Eq, PartialOrd, Ord)]
pub struct Fault {
    pub number: u32,
    pub state: usize,
    pub signal: usize,
}

/// Any numbers whatever may stand here, so that damaged tables can be lent too: `fault` tells.
#[derive(Clone, PartialEq, Eq)]
pub struct Table {
    pub states: usize,
    pub initial: usize,
    pub inputs: u32,
    pub outputs: u32,
    pub cells: Vec<u16>,
}

pub fn has(set: u32, signal: usize) -> bool {
    signal < SIGNALS && set >> signal & 1 == 1
}

/// The members of a set of signals, lowest first.
pub fn members(mut set: u32) -> impl Iterator<Item = usize> {
    std::iter::from_fn(move || {
        let lowest = (set != 0).then(|| set.trailing_zeros() as usize)?;
        set &= set - 1;
        Some(lowest)
    })
}

impl Table {
    /// A table without steps.
    pub fn blank(states: usize, initial: usize, inputs: u32, outputs: u32) -> Table {
        Table { states, initial, inputs, outputs, cells: vec![NO_STEP; states * SIGNALS] }
    }

    pub fn signals(&self) -> u32 {
        self.inputs | self.outputs
    }

    pub fn step(&self, state: usize, signal: usize) -> Option<usize> {
        let cell = self.cells[state * SIGNALS + signal];
        (cell != NO_STEP).then_some(usize::from(cell))
    }

    pub fn set_step(&mut self, state: usize, signal: usize, to: usize) {
        self.cells[state * SIGNALS + signal] = u16::try_from(to).expect("a state of a table is a 16-bit number");
    }

    pub fn clear_step(&mut self, state: usize, signal: usize) {
        self.cells[state * SIGNALS + signal] = NO_STEP;
    }

    /// The mirror exchanges the two lists.
    pub fn mirror(&self) -> Table {
        Table { inputs: self.outputs, outputs: self.inputs, ..self.clone() }
    }

    /// The first of checks 1 to 6 that applies, where it first does. Any cell bad by 5 counts before all that are bad by 6.
    pub fn fault(&self) -> Option<Fault> {
        self.shape_fault().or_else(|| self.bad_cells().min())
    }

    /// Checks 1 to 4, which look at no cell: their place is state 0, signal 0.
    pub fn shape_fault(&self) -> Option<Fault> {
        let number = if self.states == 0 || self.states > MOST_STATES {
            1
        } else if self.initial >= self.states {
            2
        } else if self.inputs & self.outputs != 0 {
            3
        } else if self.cells.len() != self.states * SIGNALS {
            4
        } else {
            return None;
        };
        Some(Fault { number, state: 0, signal: 0 })
    }

    /// Checks 5 and 6: the cells that either finds bad, by the lower number that applies to the cell.
    pub fn bad_cells(&self) -> impl Iterator<Item = Fault> + '_ {
        let cells = (0..self.states).flat_map(|state| (0..SIGNALS).map(move |signal| (state, signal)));
        cells.filter_map(|(state, signal)| Some(Fault { number: self.bad_by(state, signal)?, state, signal }))
    }

    /// The lower of checks 5 and 6 that finds a cell bad, if one does.
    fn bad_by(&self, state: usize, signal: usize) -> Option<u32> {
        match self.step(state, signal)? {
            to if to >= self.states => Some(5),
            _ if !has(self.signals(), signal) => Some(6),
            _ => None,
        }
    }
}

/// A short form of a table that names its steps alone, so that a failed case can be read and typed in again.
impl std::fmt::Debug for Table {
    fn fmt(&self, to: &mut std::fmt::Formatter) -> std::fmt::Result {
        let Table { states, initial, inputs, outputs, cells } = self;
        write!(to, "states {states} initial {initial} inputs {inputs:#x} outputs {outputs:#x} cells {}:", cells.len())?;
        let filled = cells.iter().enumerate().filter(|(_, &cell)| cell != NO_STEP);
        for (place, cell) in filled.take(200) {
            write!(to, " {}.{}>{cell}", place / SIGNALS, place % SIGNALS)?;
        }
        Ok(())
    }
}
