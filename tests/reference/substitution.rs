//! A better part in the same place: if X refines Y, both have the same lists and Y fits Z, then X fits Z, and X composed with Z refines Y
//! composed with Z. With it go that refinement is reflexive and passes along a chain, and that composing Z with Y gives the composition of Y with
//! Z, pairs swapped. The reference is not asked: answers of the archive are compared with each other.

use crate::answers::{composition, fit, refinement, refines, verdict, Answer, Verdict, TOO_MANY_PAIRS};
use crate::cases::Cases;
use crate::random::Random;
use crate::random_tables::{drawn_until, near_or_loosened, part_and_surroundings};
use crate::renumber::{self, Numbers};
use crate::table::Table;
use crate::tally::Tally;

const REFLEXIVE: &str = "X refines X";
const CHAIN: &str = "W refines X and X refines Y; W refines Y";
const NO_CHAIN: &str = "no chain from W over X to Y; W refines Y";
const SWAP: &str = "Z fits Y";

const HOLD: &str = "premises hold";
const NO_REFINEMENT: &str = "premise missing, X does not refine Y";
const OTHER_LISTS: &str = "premise missing, the lists differ";
const NO_FIT: &str = "premise missing, Y does not fit Z";
const FITS: &str = "X fits Z";
const REFINES: &str = "X with Z refines Y with Z";
const STRICT: &str = "premises hold, and Y with Z does not refine X with Z";
const DROP_AND_MOVE: &str = "premises hold, both compositions drop pairs, and their first pairs have a step";

/// Tables W, X, Y and Z: W often refines X, X often refines Y, and Y meets Z.
type Case = [Table; 4];

pub fn run(cases: &Cases, tally: &mut Tally) {
    if cases.are_at_least(1_000) {
        ask_for_outcomes(tally, cases.count);
    }
    cases.run(tally, |r, tally| {
        let case = random_case(r);
        let fault = try_order(tally, &case).or(try_substitution(tally, &case)).or(try_swap(tally, &case));
        tally.check(fault.is_none(), || format!("{}\n  {case:?}", fault.unwrap_or_default()));
    });
}

/// Few compositions of Y with Z drop pairs and move by chance.
fn random_case(r: &mut Random) -> Case {
    let (x, y, z) = drawn_until(r, part_and_surroundings, |(_, y, z)| composition(y, z).drops_pairs_and_moves());
    let states = r.between(1, 5);
    [near_or_loosened(r, &x, states, 20), x, y, z]
}

/// Refinement is reflexive and passes along a chain, and so are the marks. Returns what contradicts this, if anything does.
fn try_order(tally: &mut Tally, [w, x, y, _]: &Case) -> Option<String> {
    let is_chain = refines(w, x) == Ok(true) && refines(x, y) == Ok(true);
    let (itself, ends) = (refines(x, x), refines(w, y));
    let seen = [outcome(REFLEXIVE, itself), outcome(if is_chain { CHAIN } else { NO_CHAIN }, ends)];
    seen.iter().for_each(|seen| tally.saw(seen));
    if contradicts(itself) || is_chain && contradicts(ends) {
        return Some(seen.join(", "));
    }
    (!are_marks_in_order(w, x, y)).then(|| "the marks of W, X and Y are no order".to_string())
}

/// Whether each state of X is marked with itself, and marks from W to X and on to Y are joined by marks from W to Y. Nothing is said where there
/// are too many pairs.
fn are_marks_in_order(w: &Table, x: &Table, y: &Table) -> bool {
    let (itself, to_x, on, ends) = (refinement(x, x), refinement(w, x), refinement(x, y), refinement(w, y));
    if [&itself, &to_x, &on, &ends].iter().any(|answer| answer.reply.number != 0) {
        return true;
    }
    let mark = |answer: &Answer, p: usize, q: usize, of_q: &Table| answer.flags[p * of_q.states + q] == 1;
    let passes_on = |p: usize, q: usize| (0..y.states).all(|s| !mark(&on, q, s, y) || mark(&ends, p, s, y));
    (0..x.states).all(|q| mark(&itself, q, q, x) && (0..w.states).all(|p| !mark(&to_x, p, q, x) || passes_on(p, q)))
}

/// X in the place of Y. Where a premise is missing, the outcome is only counted.
fn try_substitution(tally: &mut Tally, case: &Case) -> Option<String> {
    let [_, x, y, z] = case;
    let (xz, yz) = (composition(x, z), composition(y, z));
    let premises = premises(x, y, &yz);
    let (asked, answer) = match (verdict(&xz.reply), verdict(&yz.reply)) {
        (Ok(true), Ok(_)) => (REFINES, refines(&xz.table(), &yz.table())),
        (fits, _) => (FITS, fits),
    };
    tally.saw(&conclusion(premises, asked, answer));
    if (premises, asked, answer) == (HOLD, REFINES, Ok(true)) {
        if xz.drops_pairs_and_moves() && yz.drops_pairs_and_moves() {
            tally.saw(DROP_AND_MOVE);
        }
        if refines(&yz.table(), &xz.table()) == Ok(false) {
            tally.saw(STRICT);
        }
    }
    (premises == HOLD && contradicts(answer)).then(|| conclusion(premises, asked, answer))
}

/// Which premises hold; one that a refused call leaves open is not counted as missing.
fn premises(x: &Table, y: &Table, yz: &Answer) -> &'static str {
    let same_lists = (x.inputs, x.outputs) == (y.inputs, y.outputs);
    match (refines(x, y), same_lists, verdict(&yz.reply)) {
        (Ok(true), true, Ok(true)) => HOLD,
        (Ok(false), true, Ok(true)) => NO_REFINEMENT,
        (Ok(true), false, Ok(true)) => OTHER_LISTS,
        (Ok(true), true, Ok(false)) => NO_FIT,
        (Ok(_), _, Ok(_)) => "several premises missing",
        _ => "a premise is left open by a refusal",
    }
}

/// Z composed with Y is Y composed with Z, pairs swapped; the call that only judges the fit gives the same verdict, rounds and flags.
fn try_swap(tally: &mut Tally, [_, _, y, z]: &Case) -> Option<String> {
    let (yz, zy, fit) = (composition(y, z), composition(z, y), fit(z, y));
    tally.saw(&outcome(SWAP, verdict(&zy.reply)));
    if zy != renumber::answer(&yz, &Numbers::swapping(y, z), &Numbers::unchanged()) {
        Some(format!("Z composed with Y, {:?}, is not Y composed with Z, {:?}, pairs swapped", zy.reply, yz.reply))
    } else if (verdict(&fit.reply), fit.reply.value, fit.flags) != (verdict(&zy.reply), zy.reply.value, zy.flags) {
        Some(format!("the fit of Z and Y, {:?}, is not that of their composition, {:?}", fit.reply, zy.reply))
    } else {
        None
    }
}

/// What should be yes may be refused for too many pairs, and nothing else.
fn contradicts(answer: Verdict) -> bool {
    !matches!(answer, Ok(true) | Err(TOO_MANY_PAIRS))
}

fn outcome(asked: &str, answer: Verdict) -> String {
    match answer {
        Ok(yes) => format!("{asked}: {}", if yes { "yes" } else { "no" }),
        Err(number) => format!("{asked}: refused {number}"),
    }
}

fn conclusion(premises: &str, asked: &str, answer: Verdict) -> String {
    outcome(&format!("{premises}; {asked}"), answer)
}

/// The conclusion has to be asked and confirmed in a tenth of the cases; in a twentieth with pairs dropped, and in a twentieth where the better part
/// makes a difference. The other outcomes listed have to occur.
fn ask_for_outcomes(tally: &mut Tally, count: u64) {
    tally.must_have_seen_at_least(&conclusion(HOLD, REFINES, Ok(true)), count.div_ceil(10));
    for outcome in [DROP_AND_MOVE, STRICT] {
        tally.must_have_seen_at_least(outcome, count.div_ceil(20));
    }
    tally.must_have_seen(&conclusion(HOLD, REFINES, Err(TOO_MANY_PAIRS)));
    tally.must_have_seen(&conclusion(HOLD, FITS, Err(TOO_MANY_PAIRS)));
    for missing in [NO_REFINEMENT, OTHER_LISTS, NO_FIT] {
        tally.must_have_seen(&conclusion(missing, FITS, Ok(false)));
        tally.must_have_seen(&conclusion(missing, REFINES, Ok(false)));
    }
    for answer in [Ok(true), Ok(false), Err(7), Err(TOO_MANY_PAIRS)] {
        tally.must_have_seen(&outcome(SWAP, answer));
    }
    for (asked, answer) in [(REFLEXIVE, true), (CHAIN, true), (NO_CHAIN, false)] {
        tally.must_have_seen(&outcome(asked, Ok(answer)));
    }
}
