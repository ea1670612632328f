//! Properties of the sequencer that the archive returns.

use crate::answers::{composition, fit, meets, refines, sequencer, verdict, Answer, TOO_MANY_PAIRS};
use crate::properties::{confirm, hold, Held, Property};
use crate::properties_of_tables::Renumbered;
use crate::random::Random;
use crate::random_tables::{add_steps, drawn_until, module_and_plan, near, send_less, sizes};
use crate::reply::Reply;
use crate::table::Table;
use crate::tally::Tally;

const UNTOUCHED: Property = ("sequencer: a refused call leaves the buffers", 250);
const COMPOSED: Property = ("sequencer: it is the mirror of the module composed with the mirror of the plan", 8);
const RENUMBERED: Property = ("sequencer: other numbers of states and signals change these numbers alone", 8);
const FITS: Property = ("sequencer: it fits the module", 10);
const MEETS: Property = ("sequencer: it meets the plan", 30);
const MEETS_AFTER_DROPS: Property = ("sequencer: it meets the plan, with pairs dropped and a step from its first state", 15);
const ITSELF: Property = ("sequencer: it refines itself", 10);
const THINNER: Property = ("sequencer: one that sends less meets the plan too", 10);
const MEETS_AND_REFINES: Property = ("sequencer: any that meets the plan refines the one returned", 20);
const NEITHER: Property = ("sequencer: any that misses the plan does not refine the one returned", 20);
const NONE: Property = ("sequencer: where there is none, any misses the plan", 80);
const BY_HAND: Property = ("sequencer: for a plan composed with one by hand there is one, which that one refines", 10);

pub const ALL: &[Property] = &[
    UNTOUCHED, COMPOSED, RENUMBERED, FITS, MEETS, MEETS_AFTER_DROPS, ITSELF, THINNER, MEETS_AND_REFINES, NEITHER, NONE, BY_HAND,
];

/// Mostly so small that the module composed with the sequencer can be compared with the plan.
pub fn draw(r: &mut Random) -> [Table; 2] {
    let draw = |r: &mut Random| {
        let sizes = if r.percent(10) { sizes(r) } else { (r.between(1, 5), r.between(1, 5)) };
        module_and_plan(r, sizes).into()
    };
    drawn_until(r, draw, |[module, plan]: &[Table; 2]| sequencer(module, plan).drops_pairs_and_moves())
}

pub fn try_sequencer(r: &mut Random, tally: &mut Tally, [module, plan]: &[Table; 2]) -> Held {
    let made = sequencer(module, plan);
    if made.reply.number != 0 {
        return hold(tally, UNTOUCHED, matches!(made.reply.number, 8 | TOO_MANY_PAIRS) && made.is_untouched());
    }
    hold(tally, COMPOSED, made == mirrored(composition(module, &plan.mirror())))?;
    let new = Renumbered::random(r, module, plan);
    hold(tally, RENUMBERED, sequencer(&new.first, &new.second) == new.answer(&made))?;
    if made.reply.yes {
        try_returned(r, tally, module, plan, &made)?;
    }
    try_other(r, tally, module, plan, &made)?;
    try_by_hand(tally, module, &plan.mirror())
}

fn mirrored(answer: Answer) -> Answer {
    let Reply { inputs, outputs, .. } = answer.reply;
    Answer { reply: Reply { inputs: outputs, outputs: inputs, ..answer.reply }, ..answer }
}

fn try_returned(r: &mut Random, tally: &mut Tally, module: &Table, plan: &Table, made: &Answer) -> Held {
    let returned = made.table();
    confirm(tally, FITS, verdict(&fit(module, &returned).reply))?;
    let meeting = if made.drops_pairs_and_moves() { MEETS_AFTER_DROPS } else { MEETS };
    confirm(tally, meeting, meets(module, &returned, plan))?;
    confirm(tally, ITSELF, refines(&returned, &returned))?;
    let mut thinner = returned.clone();
    send_less(r, &mut thinner);
    confirm(tally, THINNER, meets(module, &thinner, plan))
}

/// Demand 3 of any other sequencer: near the one returned, or with steps at random.
fn try_other(r: &mut Random, tally: &mut Tally, module: &Table, plan: &Table, made: &Answer) -> Held {
    let (returned, states) = (made.table(), r.between(1, 6));
    let other = if made.reply.yes && r.percent(60) {
        near(r, &returned, states)
    } else {
        let mut other = Table::blank(states, r.below(states), returned.inputs, returned.outputs);
        add_steps(r, &mut other);
        other
    };
    match (meets(module, &other, plan), refines(&other, &returned)) {
        (Err(TOO_MANY_PAIRS), _) | (_, Err(TOO_MANY_PAIRS)) => Ok(()),
        (meets, _) if !made.reply.yes => hold(tally, NONE, meets == Ok(false)),
        (Ok(true), refines) => hold(tally, MEETS_AND_REFINES, refines == Ok(true)),
        (meets, refines) => hold(tally, NEITHER, meets == Ok(false) && refines == Ok(false)),
    }
}

/// Whoever has a sequencer that fits the module, and takes as plan what the two do together, gets one that this one refines.
fn try_by_hand(tally: &mut Tally, module: &Table, by_hand: &Table) -> Held {
    let plan = composition(module, by_hand);
    if verdict(&plan.reply) != Ok(true) {
        return Ok(());
    }
    let made = sequencer(module, &plan.table());
    confirm(tally, BY_HAND, verdict(&made.reply).and_then(|yes| Ok(yes && refines(by_hand, &made.table())?)))
}
