//! Spellings that tell the right rule for names from wrong ones: a comparison that never meets them would take a wrong rule for the right one.

use crate::random_texts::declared;
use crate::reply::Reply;
use crate::tally::Tally;
use crate::text::{MODULE, PLAN};

const IN_PLACE_OF_21: &str = "28 where the archive reading has 21";
const IN_PLACE_OF_LATER: &str = "28 before a fault of a later line";
const FIRST_LETTER: &str = "28, only the first letters differ";
const LATER_LETTER: &str = "28, the first letters are the same";
const SIXTEENTH_LETTER: &str = "28, only the sixteenth letters differ";
const LETTER_A: &str = "28, by A and a alone";
const LETTER_Z: &str = "28, by Z and z alone";
const NOT_THE_LAST: &str = "28, not with the name just before";
const ACROSS: &str = "28, with a name of the module";
const WITHIN_PLAN: &str = "28, with a name of the plan";
const OTHER_STEP: &str = "19, a step has another spelling";
const OTHER_TABLE_NAME: &str = "accepted, the table's name has another spelling of a signal's";
const SAME_IN_BOTH: &str = "accepted, a name is in both texts";

const OF_READING: &[&str] = &[
    IN_PLACE_OF_21, IN_PLACE_OF_LATER, FIRST_LETTER, LATER_LETTER, LETTER_A, LETTER_Z, NOT_THE_LAST, OTHER_STEP, OTHER_TABLE_NAME,
];
const OF_JOINT_READING: &[&str] = &[SIXTEENTH_LETTER, ACROSS, WITHIN_PLAN, SAME_IN_BOTH];

/// Counts what can be said of a reading by S-9's rule and of the archive reading of the same texts; a text alone has no plan.
pub fn record_reading(tally: &mut Tally, call: &str, module: &[u8], plan: Option<&[u8]>, folded: &Reply, exact: &Reply) {
    let seen = match folded.number {
        28 => of_clash(module, plan, folded, exact),
        19 => vec![(OTHER_STEP, is_other_step(text_of(module, plan, folded), folded.line))],
        0 => {
            let in_both = |plan| names(plan).iter().any(|name| names(module).contains(name));
            vec![(OTHER_TABLE_NAME, is_other_table_name(module)), (SAME_IN_BOTH, plan.is_some_and(in_both))]
        }
        _ => Vec::new(),
    };
    for (what, _) in seen.iter().filter(|(_, is_met)| *is_met) {
        tally.saw(&format!("{call}: {what}"));
    }
}

/// What can be said of the later name of a clash and the first that it clashes with.
fn of_clash(module: &[u8], plan: Option<&[u8]>, folded: &Reply, exact: &Reply) -> Vec<(&'static str, bool)> {
    let text = text_of(module, plan, folded);
    let later = line_of(text, folded.line).and_then(declared).unwrap_or(b"");
    let mut known = if folded.table == PLAN { names(module) } else { Vec::new() };
    let of_module = known.len();
    known.extend(text.split_inclusive(|&byte| byte == b'\n').take(folded.line - 1).filter_map(declared));
    let first = known.iter().position(|name| name.eq_ignore_ascii_case(later)).unwrap_or(0);
    let differing: Vec<usize> = (0..later.len()).filter(|&place| known[first][place] != later[place]).collect();
    let differ_by = |letter: u8| differing.iter().all(|&place| later[place].eq_ignore_ascii_case(&letter));
    vec![
        (IN_PLACE_OF_21, exact.number == 21 && exact.table == folded.table && exact.line == folded.line),
        (IN_PLACE_OF_LATER, exact.number != 0 && (exact.table, exact.line) > (folded.table, folded.line)),
        (FIRST_LETTER, differing == [0]),
        (LATER_LETTER, !differing.contains(&0)),
        (SIXTEENTH_LETTER, differing == [15]),
        (LETTER_A, differ_by(b'a')),
        (LETTER_Z, differ_by(b'z')),
        (NOT_THE_LAST, first + 1 < known.len()),
        (ACROSS, folded.table == PLAN && first < of_module),
        (WITHIN_PLAN, folded.table == PLAN && first >= of_module),
    ]
}

/// The text that a reply names; a text alone is the first.
fn text_of<'t>(module: &'t [u8], plan: Option<&'t [u8]>, reply: &Reply) -> &'t [u8] {
    if reply.table == PLAN { plan.unwrap_or(b"") } else { module }
}

fn line_of(text: &[u8], line: usize) -> Option<&[u8]> {
    text.split_inclusive(|&byte| byte == b'\n').nth(line - 1)
}

/// The names that a text declares.
fn names(text: &[u8]) -> Vec<&[u8]> {
    text.split_inclusive(|&byte| byte == b'\n').filter_map(declared).collect()
}

fn is_respelled(text: &[u8], name: &[u8]) -> bool {
    names(text).iter().any(|known| *known != name && known.eq_ignore_ascii_case(name))
}

fn is_other_step(text: &[u8], line: usize) -> bool {
    let name = line_of(text, line).and_then(|line| line.split(|&byte| byte == b'\t').nth(2));
    name.is_some_and(|name| !names(text).contains(&name) && is_respelled(text, name))
}

fn is_other_table_name(text: &[u8]) -> bool {
    text.split(|&byte| byte == b'\t').nth(1).is_some_and(|name| is_respelled(text, name))
}

const NOTHING: &str = "nothing";
const ONE_LINE: &str = "1 line";
const LINES: &str = "several lines";
const NOT_THE_NEAREST: &str = "the first is not the nearest";
const NOT_BY_FIRST: &str = "lines not in the order of the first names";
const IN_MODULE: &str = "a line within the module";
const IN_PLAN: &str = "a line within the plan";
const IN_BOTH: &str = "a line across the two texts";
const DECLARED_AGAIN: &str = "a later name that the plan declares again";
const REFUSED_AFTER_CLASH: &str = "refused after a clash";

const OF_LISTING: &[&str] = &[
    NOTHING, ONE_LINE, LINES, NOT_THE_NEAREST, NOT_BY_FIRST, IN_MODULE, IN_PLAN, IN_BOTH, DECLARED_AGAIN, REFUSED_AFTER_CLASH,
];

/// A line of a listing: file and line of the later name, then of the first.
pub type Row = [usize; 4];

/// The lines of a listing, or nothing where it is a refusal or no listing at all.
pub fn rows(listing: &[u8]) -> Option<Vec<Row>> {
    let lines = listing.split_inclusive(|&byte| byte == b'\n');
    lines.map(|line| row(line.strip_suffix(b"\n")?)).collect()
}

fn row(line: &[u8]) -> Option<Row> {
    let numbers: Option<Vec<usize>> = line.split(|&byte| byte == b'\t').map(|field| std::str::from_utf8(field).ok()?.parse().ok()).collect();
    numbers?.try_into().ok()
}

/// Counts what can be said of a listing; `folded` is what the reading by S-9's rule gives for the same texts.
pub fn record_listing(tally: &mut Tally, module: &[u8], plan: &[u8], listing: &[u8], folded: &Reply) {
    let rows = rows(listing);
    let is_refused = rows.is_none();
    let rows = rows.unwrap_or_default();
    let neighbours = || rows.windows(2).map(|two| (two[0], two[1]));
    let is_in_plan = |line: usize| line_of(module, line).and_then(declared).is_some_and(|name| names(plan).contains(&name));
    let is_again = |row: &Row| row[0] == MODULE as usize && is_in_plan(row[1]);
    let has = |later: u32, first: u32| rows.iter().any(|row| (row[0], row[2]) == (later as usize, first as usize));
    let seen = [
        (NOTHING, listing.is_empty()),
        (ONE_LINE, rows.len() == 1),
        (LINES, rows.len() > 1),
        (NOT_THE_NEAREST, (1..rows.len()).any(|later| rows[..later].iter().any(|row| row[2..] == rows[later][2..]))),
        (NOT_BY_FIRST, neighbours().any(|(one, next)| one[2..] > next[2..])),
        (IN_MODULE, has(MODULE, MODULE)),
        (IN_PLAN, has(PLAN, PLAN)),
        (IN_BOTH, has(PLAN, MODULE)),
        (DECLARED_AGAIN, rows.iter().any(is_again)),
        (REFUSED_AFTER_CLASH, is_refused && folded.number == 28),
    ];
    for (what, _) in seen.iter().filter(|(_, is_met)| *is_met) {
        tally.saw(&format!("list: {what}"));
    }
}

/// What the readings and the listings have to meet.
pub fn ask(tally: &mut Tally) {
    for what in OF_READING {
        tally.must_have_seen(&format!("alone: {what}"));
    }
    for what in OF_READING.iter().chain(OF_JOINT_READING) {
        tally.must_have_seen(&format!("together: {what}"));
    }
    for what in OF_LISTING {
        tally.must_have_seen(&format!("list: {what}"));
    }
}
