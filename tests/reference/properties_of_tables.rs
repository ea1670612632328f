//! Properties of the calls on one table, of composing, and of refinement.

use crate::answers::{composition, fit, product, refinement, refines, sequencer, verdict, Answer, TOO_MANY_PAIRS};
use crate::archive;
use crate::bytes::to_bytes;
use crate::properties::{hold, Held, Property};
use crate::random::Random;
use crate::random_tables::{damage, drawn_until, meeting_tables, refining_tables, send_less, sizes, take_more, three_tables};
use crate::renumber::{self, Numbers};
use crate::reply::Reply;
use crate::table::{has, members, Table, NO_STEP, SIGNALS};
use crate::tally::Tally;

const JUDGED_ALIKE: Property = ("mirror: with its lists exchanged a table is judged alike", 15);
const MIRROR_REFUSED: Property = ("mirror: refused as the table is judged", 150);
const EXCHANGED: Property = ("mirror: exchanges the lists and nothing else", 15);
const TWICE: Property = ("mirror: twice is the table", 15);
const CELLS_FOLLOWED: Property = ("follow: from each state each signal goes where the cell says", 15);
const STATE_REFUSED: Property = ("follow: a state that does not exist is refused by 11", 15);
const RECORD_REFUSED: Property = ("follow: a record is kept where the call is refused", 30);
const NOT_NOW: Property = ("follow: a record is kept where there is no step", 80);
const RECORD_MOVED: Property = ("follow: a record is moved to a state of the table", 80);
const RECORD_WALKS: Property = ("follow: a record walks along the cells", 15);

const JUDGED_FIRST: Property = ("two tables: every call refuses what is refused alone", 60);
const REFUSED_ALIKE: Property = ("two tables: product, fit and composition are refused alike", 50);
const UNTOUCHED: Property = ("two tables: refused calls leave their buffers", 50);
const SAME_PAIRS: Property = ("composition: has the lists and the first pair of the product", 8);
const ACCEPTED: Property = ("composition: it and the product are accepted tables", 8);
const KEPT_STEPS: Property = ("composition: its steps are the product's between kept pairs", 8);
const NO_WAY_OUT: Property = ("composition: no output of the product leaves the kept pairs", 8);
const FIRST_PAIR: Property = ("composition: the tables fit exactly if the first pair is kept", 8);
const ROUNDS: Property = ("composition: no round drops nothing, and without rounds nothing is dropped", 8);
const PRODUCT_REFINES: Property = ("composition: the product refines it, if the tables fit and pairs are dropped", 20);
const PRODUCT_IS: Property = ("composition: it is the product, if no pair is dropped", 40);
const COMPOSED_RENUMBERED: Property = ("composition: other numbers of states and signals change these numbers alone", 8);

const FIRST_MARK: Property = ("refinement: X refines Y exactly if the first pair is marked", 10);
const MIRRORS: Property = ("refinement: the mirror of Y refines that of X alike, pairs swapped", 10);
const FITS_MIRROR: Property = ("refinement: with equal lists the marks are the flags of X and the mirror of Y", 20);
const STAYS: Property = ("refinement: marks stay where X sends less and takes more, and Y sends more and takes less", 10);
const REFINED_RENUMBERED: Property = ("refinement: other numbers of states and signals change these numbers alone", 10);

const THREE: Property = ("three tables: (A with B) with C fits exactly if A with (B with C) does", 25);
const THREE_STEPS: Property = ("three tables: composed either way they have the same steps, as far as steps lead", 30);
const NO_REMEDY: Property = ("three tables: A that does not fit B does not fit B with C", 120);

pub const ALL: &[Property] = &[
    JUDGED_ALIKE, MIRROR_REFUSED, EXCHANGED, TWICE, CELLS_FOLLOWED, STATE_REFUSED, RECORD_REFUSED, NOT_NOW, RECORD_MOVED, RECORD_WALKS,
    JUDGED_FIRST, REFUSED_ALIKE, UNTOUCHED, SAME_PAIRS, ACCEPTED, KEPT_STEPS, NO_WAY_OUT, FIRST_PAIR, ROUNDS, PRODUCT_REFINES, PRODUCT_IS,
    COMPOSED_RENUMBERED, FIRST_MARK, MIRRORS, FITS_MIRROR, STAYS, REFINED_RENUMBERED, THREE, THREE_STEPS, NO_REMEDY,
];

/// A table, at times a damaged one.
pub fn one(r: &mut Random) -> [Table; 1] {
    let [table, _] = two(r);
    [table]
}

pub fn try_one(r: &mut Random, tally: &mut Tally, [table]: &[Table; 1]) -> Held {
    let (judged, mirrored) = (archive::judge(table), archive::mirror(table));
    let exchanged = table.mirror();
    hold(tally, JUDGED_ALIKE, archive::judge(&exchanged) == judged)?;
    try_record(r, tally, table, &judged)?;
    if judged.number != 0 {
        return hold(tally, MIRROR_REFUSED, mirrored == judged);
    }
    hold(tally, EXCHANGED, mirrored == Reply::default().with_table(&exchanged))?;
    hold(tally, TWICE, archive::mirror(&exchanged) == Reply::default().with_table(table))?;
    hold(tally, CELLS_FOLLOWED, (0..table.states).all(|state| (0..=SIGNALS).all(|signal| follows_cell(table, state, signal))))?;
    let beyond = archive::follow(table, table.states, 0);
    hold(tally, STATE_REFUSED, (beyond.number, beyond.value) == (11, table.states))?;
    try_walk(r, tally, table)
}

/// Whether the follower goes from a state where the cell says; a signal that is not declared is refused.
fn follows_cell(table: &Table, state: usize, signal: usize) -> bool {
    let reply = archive::follow(table, state, signal);
    if !has(table.signals(), signal) {
        return (reply.number, reply.value) == (12, state);
    }
    let step = table.step(state, signal);
    reply == Reply { yes: step.is_some(), value: step.unwrap_or(state), ..Reply::default() }
}

/// The record is lent to the call, whatever table, state and signal it is given. A table that is refused by 1 to 4 is refused here by the same.
fn try_record(r: &mut Random, tally: &mut Tally, table: &Table, judged: &Reply) -> Held {
    let state = r.pick(&[0, table.initial, table.states.wrapping_sub(1), table.states]);
    let signal = r.pick(&members(table.signals()).chain([0, SIGNALS]).collect::<Vec<usize>>());
    let mut record = state;
    let reply = archive::c_follow_record(table, &to_bytes(&table.cells), &mut record, signal);
    let is_refused_alike = !(1..=4).contains(&judged.number) || reply.number == judged.number;
    if reply.yes {
        hold(tally, RECORD_MOVED, reply.number == 0 && record == reply.value && record < table.states && is_refused_alike)
    } else {
        hold(tally, if reply.number == 0 { NOT_NOW } else { RECORD_REFUSED }, record == state && is_refused_alike)
    }
}

fn try_walk(r: &mut Random, tally: &mut Tally, table: &Table) -> Held {
    let bytes = to_bytes(&table.cells);
    let (mut record, mut state, mut is_right) = (table.initial, table.initial, true);
    for _ in 0..20 {
        let signal = r.pick(&members(table.signals()).chain([SIGNALS]).collect::<Vec<usize>>());
        archive::c_follow_record(table, &bytes, &mut record, signal);
        state = if signal < SIGNALS { table.step(state, signal).unwrap_or(state) } else { state };
        is_right &= record == state;
    }
    hold(tally, RECORD_WALKS, is_right)
}

/// Two tables that meet; in a sixth of the cases one of them is damaged.
pub fn two(r: &mut Random) -> [Table; 2] {
    let draw = |r: &mut Random| {
        let sizes = sizes(r);
        meeting_tables(r, sizes)
    };
    let (mut a, mut b) = drawn_until(r, draw, |(a, b)| composition(a, b).drops_pairs_and_moves());
    match r.below(12) {
        10 => damage(r, &mut a),
        11 => damage(r, &mut b),
        _ => (),
    }
    [a, b]
}

pub fn try_two(r: &mut Random, tally: &mut Tally, [a, b]: &[Table; 2]) -> Held {
    let (product, fit, composition) = (product(a, b), fit(a, b), composition(a, b));
    if composition.reply.number == 0 {
        try_composition(tally, a, b, &product, &composition)?;
        return try_renumbered_composition(r, tally, a, b, &composition);
    }
    let (refinement, sequencer) = (refinement(a, b), sequencer(a, b));
    let first = Some(archive::judge(a)).filter(|judged| judged.number != 0);
    let second = Some(archive::judge(b)).filter(|judged| judged.number != 0);
    if let Some(refusal) = first.or(second.map(|refusal| Reply { table: 2, ..refusal })) {
        let all = [&product, &fit, &composition, &refinement, &sequencer];
        hold(tally, JUDGED_FIRST, all.iter().all(|answer| answer.reply == refusal))?;
    }
    hold(tally, REFUSED_ALIKE, product.reply == composition.reply && fit.reply == composition.reply)?;
    let refused = [product, fit, composition, refinement, sequencer].into_iter().filter(|answer| answer.reply.number != 0);
    hold(tally, UNTOUCHED, refused.into_iter().all(|answer| answer.is_untouched()))
}

fn try_composition(tally: &mut Tally, a: &Table, b: &Table, product: &Answer, composition: &Answer) -> Held {
    let (whole, kept, flags) = (product.table(), composition.table(), &composition.flags);
    let is_kept = |pair: usize| flags.get(pair) == Some(&1);
    let first = a.initial * b.states + b.initial;
    let dropped = flags.iter().filter(|&&flag| flag != 1).count();
    let Reply { yes, value: rounds, .. } = composition.reply;
    hold(tally, SAME_PAIRS, Reply::default().with_table(&kept) == product.reply && kept.initial == first)?;
    hold(tally, ACCEPTED, archive::judge(&whole).number == 0 && archive::judge(&kept).number == 0)?;
    let has_step = |pair: usize, to: u16| to == NO_STEP || is_kept(pair) && is_kept(usize::from(to));
    let between_kept = (0..).zip(&whole.cells).map(|(place, &to)| if has_step(place / SIGNALS, to) { to } else { NO_STEP });
    hold(tally, KEPT_STEPS, kept.cells.iter().copied().eq(between_kept))?;
    let stays = |pair: usize| members(whole.outputs).all(|signal| whole.step(pair, signal).is_none_or(is_kept));
    hold(tally, NO_WAY_OUT, (0..whole.states).all(|pair| !is_kept(pair) || stays(pair)))?;
    hold(tally, FIRST_PAIR, yes == is_kept(first))?;
    hold(tally, ROUNDS, rounds <= dropped && (rounds == 0) == (dropped == 0))?;
    if dropped == 0 {
        return hold(tally, PRODUCT_IS, kept == whole);
    }
    match refines(&whole, &kept) {
        Ok(refines) if yes => hold(tally, PRODUCT_REFINES, refines),
        _ => Ok(()),
    }
}

fn try_renumbered_composition(r: &mut Random, tally: &mut Tally, a: &Table, b: &Table, old: &Answer) -> Held {
    let new = Renumbered::random(r, a, b);
    hold(tally, COMPOSED_RENUMBERED, composition(&new.first, &new.second) == new.answer(old))
}

/// Two tables with other numbers, and these numbers.
pub struct Renumbered {
    pub first: Table,
    pub second: Table,
    pairs: Numbers,
    signals: Numbers,
}

impl Renumbered {
    pub fn random(r: &mut Random, a: &Table, b: &Table) -> Renumbered {
        let (p, q, signals) = (Numbers::random(r, a.states), Numbers::random(r, b.states), Numbers::random(r, SIGNALS));
        let (first, second) = (renumber::table(a, &p, &signals), renumber::table(b, &q, &signals));
        Renumbered { first, second, pairs: Numbers::of_pairs(&p, &q), signals }
    }

    /// The answer for the old tables with the new numbers.
    pub fn answer(&self, old: &Answer) -> Answer {
        renumber::answer(old, &self.pairs, &self.signals)
    }
}

pub fn refining(r: &mut Random) -> [Table; 2] {
    let sizes = sizes(r);
    refining_tables(r, sizes).into()
}

pub fn try_refinement(r: &mut Random, tally: &mut Tally, [x, y]: &[Table; 2]) -> Held {
    let answer = refinement(x, y);
    if answer.reply.number != 0 {
        return hold(tally, UNTOUCHED, answer.reply.number == TOO_MANY_PAIRS && answer.is_untouched());
    }
    hold(tally, FIRST_MARK, answer.reply.yes == (answer.flags[x.initial * y.states + y.initial] == 1))?;
    let swapped = renumber::answer(&answer, &Numbers::swapping(x, y), &Numbers::unchanged());
    hold(tally, MIRRORS, refinement(&y.mirror(), &x.mirror()) == swapped)?;
    if (x.inputs, x.outputs) == (y.inputs, y.outputs) {
        let fit = fit(x, &y.mirror());
        hold(tally, FITS_MIRROR, verdict(&fit.reply) == verdict(&answer.reply) && fit.flags == answer.flags)?;
    }
    let (better, worse) = (better(r, x), better(r, &y.mirror()).mirror());
    let marks = refinement(&better, &worse).flags;
    hold(tally, STAYS, answer.flags.iter().zip(marks).all(|(&before, after)| after == 1 || after == before))?;
    let new = Renumbered::random(r, x, y);
    hold(tally, REFINED_RENUMBERED, refinement(&new.first, &new.second) == new.answer(&answer))
}

/// A table that sends less and takes more.
fn better(r: &mut Random, table: &Table) -> Table {
    let mut better = table.clone();
    send_less(r, &mut better);
    take_more(r, &mut better);
    better
}

/// Three tables; often the first two drop pairs and move.
pub fn three(r: &mut Random) -> [Table; 3] {
    drawn_until(r, three_tables, |[a, b, _]| composition(a, b).drops_pairs_and_moves())
}

/// Three tables composed: the pairs of pairs have the same numbers either way. What is dropped before, without steps, may be kept in the end, so
/// only what is reached is compared.
pub fn try_three(_: &mut Random, tally: &mut Tally, [a, b, c]: &[Table; 3]) -> Held {
    let (ab, bc) = (composition(a, b), composition(b, c));
    let (left, right) = (composition(&ab.table(), c), composition(a, &bc.table()));
    match (ab.reply.yes, bc.reply.yes) {
        (true, true) => hold(tally, THREE, left.reply.number == 0 && verdict(&left.reply) == verdict(&right.reply))?,
        (false, true) => hold(tally, NO_REMEDY, verdict(&right.reply) == Ok(false))?,
        (true, false) => hold(tally, NO_REMEDY, verdict(&left.reply) == Ok(false))?,
        (false, false) => (),
    }
    if ab.reply.yes && bc.reply.yes && left.reply.yes {
        return hold(tally, THREE_STEPS, reached_part(&left.table()) == reached_part(&right.table()));
    }
    Ok(())
}

/// The table with the steps of its reached states alone, as the archive marks them.
fn reached_part(table: &Table) -> Table {
    let mut marks = vec![0; table.states];
    archive::mark_reached(&mut marks, table.initial, &vec![u32::MAX; table.states], &table.cells);
    let mut part = table.clone();
    for (state, row) in part.cells.chunks_mut(SIGNALS).enumerate() {
        if marks[state] != 1 {
            row.fill(NO_STEP);
        }
    }
    part
}
