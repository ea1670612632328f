//! Properties that the answers of the archive have, whatever the tables are. The reference is not asked: answers are compared with each other and
//! with the tables that were given. The properties of refinement as an order, and of composing two tables in either order, are in `substitution`.

use crate::answers::{Verdict, TOO_MANY_PAIRS};
use crate::cases::Cases;
use crate::random::Random;
use crate::table::Table;
use crate::tally::Tally;
use crate::{properties_of_sequencers, properties_of_tables};

/// Nothing, or the property that does not hold.
pub type Held = Result<(), &'static str>;

/// A property: every use of it is counted, and it has to be used in one of so many cases at least.
pub type Property = (&'static str, u64);

/// Counts the use of a property, and gives it back where it does not hold.
pub fn hold(tally: &mut Tally, (property, _): Property, holds: bool) -> Held {
    tally.saw(property);
    if holds { Ok(()) } else { Err(property) }
}

/// Holds a property that calls confirm. Nothing is said where there are too many pairs for them.
pub fn confirm(tally: &mut Tally, property: Property, verdict: Verdict) -> Held {
    if verdict == Err(TOO_MANY_PAIRS) { Ok(()) } else { hold(tally, property, verdict == Ok(true)) }
}

pub fn run(cases: &Cases, tally: &mut Tally) {
    ask_for_use(cases, tally, properties_of_tables::ALL);
    ask_for_use(cases, tally, properties_of_sequencers::ALL);
    cases.run(tally, try_case);
}

/// Asks that each property is used often enough.
pub fn ask_for_use(cases: &Cases, tally: &mut Tally, properties: &[Property]) {
    if cases.are_at_least(1_000) {
        for (property, cases_each) in properties {
            tally.must_have_seen_at_least(property, cases.count / cases_each);
        }
    }
}

fn try_case(r: &mut Random, tally: &mut Tally) {
    use {properties_of_sequencers as sequencers, properties_of_tables as tables};
    match r.below(12) {
        0..=1 => try_on(r, tally, tables::one, tables::try_one),
        2..=4 => try_on(r, tally, tables::two, tables::try_two),
        5..=6 => try_on(r, tally, tables::refining, tables::try_refinement),
        7..=8 => try_on(r, tally, tables::three, tables::try_three),
        _ => try_on(r, tally, sequencers::draw, sequencers::try_sequencer),
    }
}

/// Draws some tables, and tries their properties up to the first that does not hold.
fn try_on<const N: usize>(
    r: &mut Random, tally: &mut Tally, draw: fn(&mut Random) -> [Table; N], properties: fn(&mut Random, &mut Tally, &[Table; N]) -> Held,
) {
    let tables = draw(r);
    let held = properties(r, tally, &tables);
    tally.check(held.is_ok(), || {
        let lines: Vec<String> = tables.iter().map(|table| format!("\n  {table:?}")).collect();
        format!("{}{}", held.err().unwrap_or_default(), lines.concat())
    });
}
