//! The reader of table text: a fold over the lines, each of which gives a record or ends the reading with its number.

use crate::reply::{Outcome, Reply};
use crate::table::{has, Table, MOST_STATES, NO_STEP, SIGNALS};

pub const MOST_BYTES: usize = 65_536;
pub const MODULE: u32 = 1;
pub const PLAN: u32 = 2;

/// How names that differ only in the case of ASCII letters are taken (02, S-9).
#[derive(Clone, Copy, Debug, PartialEq, Eq)]
pub enum Rule {
    /// The later one is refused.
    Folded,
    /// They are two signals: document 01's rule, which the archive reading keeps.
    Exact,
}

/// A signal: its name, and the text and the line that first declare it.
pub struct Signal {
    pub name: Vec<u8>,
    pub text: u32,
    pub line: usize,
}

/// The signals by number, as first declared over all texts of one reading.
struct Numbering {
    rule: Rule,
    signals: Vec<Signal>,
}

impl Numbering {
    fn by(rule: Rule) -> Numbering {
        Numbering { rule, signals: Vec::new() }
    }

    fn number(&self, name: &[u8]) -> Option<usize> {
        self.signals.iter().position(|known| known.name == name)
    }

    fn refuses(&self, name: &[u8]) -> bool {
        self.rule == Rule::Folded && first_clash(&self.signals, name).is_some()
    }
}

/// The first of the signals whose name clashes with the given one: the two differ, but only in the case of ASCII letters.
pub fn first_clash<'s>(signals: &'s [Signal], name: &[u8]) -> Option<&'s Signal> {
    signals.iter().find(|known| known.name != name && known.name.eq_ignore_ascii_case(name))
}

/// A line that has been taken apart by kind; the fields are still the bytes that stand there.
enum Record<'t> {
    Table { name: &'t [u8], states: &'t [u8], initial: &'t [u8] },
    Declaration { name: &'t [u8], is_input: bool },
    Step { from: &'t [u8], signal: &'t [u8], to: &'t [u8] },
}

/// What the lines read so far have built.
struct Reader<'r> {
    numbering: &'r mut Numbering,
    /// Which text this is, and the line that is being read.
    text: u32,
    line: usize,
    /// How many cells are lent; a lookup has as many as any table needs.
    room: usize,
    table: Option<Table>,
    has_steps: bool,
}

/// A table of the text, or the refusal with its line; 1 and 2 too are of a line and have no place. The numbering goes on from the texts read before.
fn read(text: &[u8], which: u32, room: usize, numbering: &mut Numbering) -> Result<Table, Reply> {
    let refused = |number, line| Err(Reply { number, table: which, line, ..Reply::default() });
    if text.len() > MOST_BYTES {
        return refused(13, 0);
    }
    let mut reader = Reader { numbering, text: which, line: 0, room, table: None, has_steps: false };
    for line in text.split_inclusive(|&byte| byte == b'\n') {
        reader.line += 1;
        if let Err(number) = reader.take(line) {
            return refused(number, reader.line);
        }
    }
    reader.table.map_or(refused(22, 0), Ok)
}

impl Reader<'_> {
    fn take(&mut self, line: &[u8]) -> Result<(), u32> {
        let record = parse(line).ok_or(14u32)?;
        self.check_place(&record)?;
        check_names(&record)?;
        match record {
            Record::Table { states, initial, .. } => self.take_table(number(states)?, number(initial)?),
            Record::Declaration { name, is_input } => self.take_declaration(name, is_input),
            Record::Step { from, signal, to } => self.take_step(number(from)?, signal, number(to)?),
        }
    }

    fn check_place(&self, record: &Record) -> Result<(), u32> {
        let in_place = match record {
            Record::Table { .. } => self.table.is_none(),
            Record::Declaration { .. } => self.table.is_some() && !self.has_steps,
            Record::Step { .. } => self.table.is_some(),
        };
        if in_place { Ok(()) } else { Err(15) }
    }

    fn take_table(&mut self, states: usize, initial: usize) -> Result<(), u32> {
        if states == 0 || states > MOST_STATES {
            return Err(1);
        }
        if initial >= states {
            return Err(2);
        }
        if self.room < states * SIGNALS {
            return Err(10);
        }
        self.table = Some(Table::blank(states, initial, 0, 0));
        Ok(())
    }

    fn take_declaration(&mut self, name: &[u8], is_input: bool) -> Result<(), u32> {
        let table = self.table.as_mut().ok_or(15u32)?;
        let known = self.numbering.number(name);
        if known.is_some_and(|signal| has(table.signals(), signal)) {
            return Err(18);
        }
        if self.numbering.refuses(name) {
            return Err(28);
        }
        if known.is_none() && self.numbering.signals.len() == SIGNALS {
            return Err(21);
        }
        let signal = known.unwrap_or_else(|| {
            self.numbering.signals.push(Signal { name: name.to_vec(), text: self.text, line: self.line });
            self.numbering.signals.len() - 1
        });
        *(if is_input { &mut table.inputs } else { &mut table.outputs }) |= 1 << signal;
        Ok(())
    }

    fn take_step(&mut self, from: usize, name: &[u8], to: usize) -> Result<(), u32> {
        let table = self.table.as_mut().ok_or(15u32)?;
        let declared = self.numbering.number(name).filter(|&signal| has(table.signals(), signal));
        let signal = declared.ok_or(19u32)?;
        if from >= table.states || to >= table.states {
            return Err(19);
        }
        if table.step(from, signal).is_some() {
            return Err(20);
        }
        table.set_step(from, signal, to);
        self.has_steps = true;
        Ok(())
    }
}

/// The record of a line with its LF, by kind and number of fields.
fn parse(line: &[u8]) -> Option<Record<'_>> {
    let line = line.strip_suffix(b"\n")?;
    let fields: Vec<&[u8]> = line.split(|&byte| byte == b'\t').collect();
    match fields[..] {
        [b"table", name, states, initial] => Some(Record::Table { name, states, initial }),
        [b"in", name] => Some(Record::Declaration { name, is_input: true }),
        [b"out", name] => Some(Record::Declaration { name, is_input: false }),
        [b"step", from, signal, to] => Some(Record::Step { from, signal, to }),
        _ => None,
    }
}

fn check_names(record: &Record) -> Result<(), u32> {
    let (Record::Table { name, .. } | Record::Declaration { name, .. } | Record::Step { signal: name, .. }) = record;
    if is_name(name) { Ok(()) } else { Err(16) }
}

pub fn is_name(name: &[u8]) -> bool {
    (1..=16).contains(&name.len()) && name.iter().all(|&byte| byte.is_ascii_alphanumeric() || byte == b'_')
}

/// A decimal number of 1 to 5 digits, without a needless leading zero, at most 65,535.
fn number(field: &[u8]) -> Result<usize, u32> {
    let digits = (1..=5).contains(&field.len()) && field.iter().all(u8::is_ascii_digit);
    let needless_zero = field.len() > 1 && field[0] == b'0';
    if !digits || needless_zero {
        return Err(17);
    }
    let value = field.iter().fold(0, |value, digit| value * 10 + usize::from(digit - b'0'));
    if value > 65_535 { Err(17) } else { Ok(value) }
}

pub fn read_alone(rule: Rule, text: &[u8], cells: &mut [u16]) -> Outcome {
    let outcome = read(text, MODULE, cells.len(), &mut Numbering::by(rule));
    fill(cells, outcome.as_ref().ok());
    Ok(Reply::default().with_table(&outcome?))
}

/// The module's text to its end first. A refusal leaves both tables without steps, whichever text was at fault.
pub fn read_together(rule: Rule, module: &[u8], plan: &[u8], module_cells: &mut [u16], plan_cells: &mut [u16]) -> Outcome {
    let (module, plan, _) = read_into(rule, module, plan, module_cells, plan_cells)?;
    Ok(Reply::default().with_table(&module).with_plan(&plan))
}

/// A joint reading that leaves its tables in the lent cells.
pub fn read_into(rule: Rule, module: &[u8], plan: &[u8], module_cells: &mut [u16], plan_cells: &mut [u16]) -> Joint {
    let outcome = read_both(rule, module, plan, module_cells.len(), plan_cells.len());
    fill(module_cells, outcome.as_ref().ok().map(|both| &both.0));
    fill(plan_cells, outcome.as_ref().ok().map(|both| &both.1));
    outcome
}

/// The tables of a module's and a plan's text with their common signals, or the refusal.
type Joint = Result<(Table, Table, Vec<Signal>), Reply>;

pub fn read_both(rule: Rule, module: &[u8], plan: &[u8], module_room: usize, plan_room: usize) -> Joint {
    let mut numbering = Numbering::by(rule);
    let module = read(module, MODULE, module_room, &mut numbering)?;
    let plan = read(plan, PLAN, plan_room, &mut numbering)?;
    Ok((module, plan, numbering.signals))
}

/// Reads any number of texts in their order, with room for every table; gives their tables and common signals.
pub fn read_all(rule: Rule, texts: &[&[u8]]) -> Result<(Vec<Table>, Vec<Signal>), Reply> {
    let mut numbering = Numbering::by(rule);
    let tables: Result<Vec<Table>, Reply> =
        texts.iter().zip(MODULE..).map(|(text, which)| read(text, which, MOST_STATES * SIGNALS, &mut numbering)).collect();
    Ok((tables?, numbering.signals))
}

/// Lent cells beyond the table are 65,535.
pub fn fill(cells: &mut [u16], table: Option<&Table>) {
    cells.fill(NO_STEP);
    if let Some(table) = table {
        cells[..table.cells.len()].copy_from_slice(&table.cells);
    }
}

/// The name of a signal of two texts, or of one text alone; a refusal is a number and no name.
pub fn name(rule: Rule, module: &[u8], plan: Option<&[u8]>, signal: usize) -> Result<Vec<u8>, u32> {
    let texts: Vec<&[u8]> = [module].into_iter().chain(plan).collect();
    let (_, signals) = read_all(rule, &texts).map_err(|refusal| refusal.number)?;
    signals.get(signal).map(|signal| signal.name.clone()).ok_or(12)
}
