//! The sequencer of a module and a plan, and what demand 3 says of sequencers.

use crate::fit::{compose, Fit};
use crate::refine::refines;
use crate::table::Table;

/// The mirror of the module composed with the mirror of the plan; there is none if the first pair is dropped.
pub fn sequencer(module: &Table, plan: &Table) -> (Table, Fit) {
    let (table, fit) = compose(module, &plan.mirror());
    (table.mirror(), fit)
}

/// Check 8: a module signal is not in the plan, or a module output is no plan output.
pub fn lists_refused(module: &Table, plan: &Table) -> bool {
    module.signals() & !plan.signals() != 0 || module.outputs & !plan.outputs != 0
}

/// The lists that demand 3 gives every sequencer: inputs, outputs.
pub fn sequencer_lists(module: &Table, plan: &Table) -> (u32, u32) {
    (plan.inputs | module.outputs, plan.outputs & !module.outputs)
}

/// To meet the plan is to fit the module and, composed with it, refine the plan.
pub fn meets(module: &Table, sequencer: &Table, plan: &Table) -> bool {
    let (composition, fit) = compose(module, sequencer);
    fit.fits && refines(&composition, plan)
}
