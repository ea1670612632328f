//! What the program `clashes` prints, from the bytes of its two files, and what its listing leaves in the cells that it is lent (02, S-9).

use crate::program::{refusal_line, texts, PROGRAM};
use crate::reply::Reply;
use crate::text::{first_clash, read_both, read_into, Rule, Signal};
use crate::writer::{digits, line};

/// A file that can't be read is `None`. As many cells are lent as by the program.
pub fn print(module: Option<&[u8]>, plan: Option<&[u8]>) -> Vec<u8> {
    let outcome = texts(module, plan).and_then(|(module, plan)| read_both(Rule::Exact, module, plan, PROGRAM.module_cells, PROGRAM.plan_cells));
    printed(outcome.map(|(_, _, signals)| signals))
}

/// What is printed for two texts. The cells are left as the archive reading leaves them.
pub fn list(module: &[u8], plan: &[u8], module_cells: &mut [u16], plan_cells: &mut [u16]) -> Vec<u8> {
    printed(read_into(Rule::Exact, module, plan, module_cells, plan_cells).map(|(_, _, signals)| signals))
}

/// A refusal stands alone, even where names clashed before it.
fn printed(signals: Result<Vec<Signal>, Reply>) -> Vec<u8> {
    signals.map_or_else(|refusal| refusal_line(&refusal), |signals| rows(&signals))
}

/// One line for each name that clashes with an earlier one: the place of the name, then that of the first it clashes with. A name that both texts
/// declare is one signal, and so has one place.
fn rows(signals: &[Signal]) -> Vec<u8> {
    let mut rows = Vec::new();
    for (number, later) in signals.iter().enumerate() {
        if let Some(first) = first_clash(&signals[..number], &later.name) {
            let fields = [later.text as usize, later.line, first.text as usize, first.line].map(digits);
            rows.extend(line(&fields.each_ref().map(Vec::as_slice)));
        }
    }
    rows
}
