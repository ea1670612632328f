//! Table text: reading, lookup, writing and the program's report, the archive against the reference.

use crate::cases::Cases;
use crate::compare_readings::{archived, compare_alone, compare_names, compare_together};
use crate::lent::Lent;
use crate::program::{self, Buffers, Room, PROGRAM};
use crate::random::Random;
use crate::random_tables::{damage, module_and_plan, sizes, table_of_text_length};
use crate::random_texts::{borrowed, busy_texts, good_names, respelled, text_pair};
use crate::reply::Reply;
use crate::table::{has, members, Table, SIGNALS};
use crate::tally::Tally;
use crate::{archive, orders, places, spellings, writer};

/// Room for the text of a sequencer with the six lines before it.
pub const REPORT_BYTES: usize = 65_536 + 256;

pub fn run(cases: &Cases, tally: &mut Tally) {
    if cases.are_at_least(1_000) {
        ask_for_all_outcomes(tally);
    }
    cases.run(tally, |r, tally| match r.below(24) {
        0..=5 => compare_alone(tally, r),
        6..=11 => compare_together(tally, r),
        12..=13 => compare_names(tally, r),
        14..=17 => compare_writing(tally, r),
        _ => compare_report(tally, r),
    });
}

/// The outcome of a second writing where the name of an undeclared signal is another, or missing.
const RENAMED: &str = "written again, undeclared signals renamed";

/// What the writer is given beside its buffer.
pub struct Writing {
    table: Table,
    name: Vec<u8>,
    names: Vec<Vec<u8>>,
}

impl Writing {
    pub fn parts(&self) -> (&Table, &[u8], Vec<&[u8]>) {
        (&self.table, &self.name, borrowed(&self.names))
    }

    pub fn shown(&self) -> String {
        let names: Vec<String> = self.names.iter().map(|name| shown(name)).collect();
        format!("{:?}\n  {} {names:?}", self.table, shown(&self.name))
    }
}

fn compare_writing(tally: &mut Tally, r: &mut Random) {
    let writing = random_writing(r);
    let (table, name, names) = writing.parts();
    let length = if table.fault().is_none() { writer::text_of(table, name, &names).len() } else { 100 };
    let room = r.pick(&[length, length, length - 1, length + 1, length + 100, length / 2, 0, 65_535, 65_536, 65_537, 70_000]);
    let mut expected = Lent::arbitrary(r, room);
    let mut actual = expected.clone();
    let reply = Reply::of(writer::write(table, name, &names, expected.part()));
    let answer = archive::write(table, name, &names, actual.part());
    let seen = outcome("write", &reply);
    tally.saw(&seen);
    if let Some(cell) = reply.bad_cell() {
        places::record(tally, &seen, cell, table);
    }
    if !reply.placed {
        record_names(tally, &writing, &seen, length > room);
    }
    orders::record(tally, "write", &expected.part()[..reply.value]);
    tally.check(reply == answer && expected == actual, || {
        let (writing, bytes) = (writing.shown(), expected.difference(&actual));
        format!("write, {room} bytes lent\n  {writing}\n  expected {reply:?}\n  is       {answer:?}\n  bytes {bytes:?}")
    });
    if answer.number == 0 {
        let text = &actual.part()[..answer.value.min(room)];
        write_again(tally, r, &writing, &answer, text);
    }
}

const ALIKE: &str = "declared signals' names alike";
const TOO_LONG: &str = "declared signals' names alike, and too little room";
const UNDECLARED: &str = "an undeclared signal's name alike to a declared one's";
const TABLE_NAME: &str = "the table's name alike to a signal's";

/// Counts names that the writer must not compare, or whose comparison has its place in the order: a wrong rule would show in them.
fn record_names(tally: &mut Tally, Writing { table, name, names }: &Writing, seen: &str, is_too_long: bool) {
    let alike = |one: &[u8], other: &[u8]| one != other && one.eq_ignore_ascii_case(other);
    let (declared, others): (Vec<usize>, Vec<usize>) = (0..names.len()).partition(|&signal| has(table.signals(), signal));
    let of = |signals: &[usize]| -> Vec<&[u8]> { signals.iter().map(|&signal| names[signal].as_slice()).collect() };
    let (declared, others) = (of(&declared), of(&others));
    let are_alike = writer::any_two(&declared, alike);
    let met = [
        (ALIKE, are_alike),
        (TOO_LONG, are_alike && is_too_long),
        (UNDECLARED, others.iter().any(|other| declared.iter().any(|one| alike(one, other)))),
        (TABLE_NAME, declared.iter().any(|one| alike(one, name))),
    ];
    for (what, _) in met.iter().filter(|(_, is_met)| *is_met) {
        tally.saw(&format!("{seen}, {what}"));
    }
}

/// Equal tables, names and numbering have equal texts: the archive is held to itself. In the second call the undeclared signals have other names, and
/// every byte that the text is to take is wrong beforehand.
fn write_again(tally: &mut Tally, r: &mut Random, first: &Writing, answer: &Reply, text: &[u8]) {
    let second = rename_undeclared(r, first);
    let room = text.len() + r.below(100);
    let mut expected = Lent::arbitrary(r, room);
    let mut actual = expected.clone();
    expected.part()[..text.len()].copy_from_slice(text);
    actual.part().iter_mut().zip(text).for_each(|(byte, right)| *byte = !right);
    let (table, name, names) = second.parts();
    let again = archive::write(table, name, &names, actual.part());
    if second.names != first.names {
        orders::record(tally, RENAMED, text);
    }
    tally.check(again == *answer && expected == actual, || {
        let (first, second, bytes) = (first.shown(), second.shown(), expected.difference(&actual));
        format!("written again, {room} bytes lent\n  {first}\n  {second}\n  expected {answer:?}\n  is       {again:?}\n  bytes {bytes:?}")
    });
}

/// Each undeclared signal gets a new name: a good one, often a declared signal's, in some spelling, or a bad one. The names may end after the last
/// declared signal, or have all 32.
fn rename_undeclared(r: &mut Random, Writing { table, name, names }: &Writing) -> Writing {
    let mut renamed = names.clone();
    for signal in (0..names.len()).filter(|&signal| !has(table.signals(), signal)) {
        let name = r.pick(names);
        match r.below(3) {
            0 => renamed[signal] = name,
            1 => renamed[signal] = respelled(r, &name),
            _ => damage_name(r, &mut renamed[signal]),
        }
    }
    let needed = members(table.signals()).last().map_or(0, |highest| highest + 1);
    renamed.resize(r.pick(&[needed, names.len(), SIGNALS]), b"more".to_vec());
    Writing { table: table.clone(), name: name.clone(), names: renamed }
}

pub fn random_writing(r: &mut Random) -> Writing {
    if r.percent(3) {
        let (table, spare) = table_of_text_length(r.pick(&[65_535, 65_536, 65_537, 66_000]));
        return Writing { table, name: vec![b'x'; spare + 1], names: (b'a'..=b'z').map(|letter| vec![letter]).collect() };
    }
    let sizes = sizes(r);
    let (mut table, other) = module_and_plan(r, sizes);
    if r.percent(50) {
        table = other;
    }
    if r.percent(20) {
        damage(r, &mut table);
    }
    let mut names = good_names(r);
    let mut name = r.pick(&names);
    match r.below(5) {
        0..=2 => (),
        3 => name = respelled(r, &name),
        _ => damage_name(r, &mut name),
    }
    for _ in 0..r.pick(&[0, 0, 1, 3]) {
        damage_names(r, &mut names, table.signals());
    }
    Writing { table, name, names }
}

fn damage_name(r: &mut Random, name: &mut Vec<u8>) {
    const NAMES: &[&str] =
        &["", "a", "abcdefghijklmnop", "abcdefghijklmnopq", "a-b", "a b", "a\n", "a\t", "\0", "\u{e9}", "@", "[", "`", "{", "/", ":"];
    *name = r.pick(NAMES).as_bytes().to_vec();
}

/// One name is bad, or equal or alike to a declared signal's, or the names end early; mostly it is the name of a declared signal.
fn damage_names(r: &mut Random, names: &mut Vec<Vec<u8>>, declared: u32) {
    let all: Vec<usize> = (0..names.len()).collect();
    let declared: Vec<usize> = members(declared).filter(|&signal| signal < names.len()).collect();
    let places = if declared.is_empty() { &all } else { &declared };
    if places.is_empty() {
        return;
    }
    let is_any = r.percent(20);
    let (one, other) = (r.pick(if is_any { &all } else { places }), r.pick(places));
    match r.below(10) {
        0..=1 => damage_name(r, &mut names[one]),
        2..=4 => names[one] = names[other].clone(),
        5..=8 => names[one] = respelled(r, &names[other]),
        _ => names.truncate(one),
    }
}

fn compare_report(tally: &mut Tally, r: &mut Random) {
    let (module, plan) = if r.percent(3) { busy_texts(r) } else { text_pair(r) };
    let room = match r.below(12) {
        0..=8 => PROGRAM,
        9 => MORE_ROOM,
        _ => less_room(r),
    };
    compare_report_of(tally, r, &module, &plan, &room);
}

/// Reports on two texts, with so many cells and flags lent.
pub fn compare_report_of(tally: &mut Tally, r: &mut Random, module: &[u8], plan: &[u8], room: &Room) {
    let mut expected = Buffers::arbitrary(r, room);
    let mut actual = expected.clone();
    let (mut expected_out, mut out) = (vec![0; REPORT_BYTES], vec![0; REPORT_BYTES]);
    let text = program::report(module, plan, &mut expected);
    expected_out[..text.len()].copy_from_slice(&text);
    let length = archive::report(module, plan, &mut actual, &mut out);
    tally.saw(&format!("report: {}", headline(&text)));
    orders::record(tally, "report", &text);
    tally.check(length == text.len() && out == expected_out && expected == actual, || {
        let (module, plan, text, printed) = (shown(module), shown(plan), shown(&text), shown(&out[..length.min(REPORT_BYTES)]));
        let buffers = expected.differences(&actual);
        format!("report\n  {module}\n  {plan}\n  expected {text}\n  is       {printed}\n  buffers {buffers:?}")
    });
}

/// Room for the largest tables: the program's limit of pairs holds all the same.
const MORE_ROOM: Room = Room { module_cells: 131_072, plan_cells: 131_072, cells: 131_072, flags: 4_096 };

/// Room for small tables, or hardly for them: where it is too little, 10 names the module, the plan or the result.
pub fn less_room(r: &mut Random) -> Room {
    let states = [1, 2, 3, 4, 5, 6].map(|states| states * SIGNALS);
    let (module_cells, plan_cells) = (r.pick(&states), r.pick(&states));
    let pairs = r.between(1, 36);
    Room { module_cells, plan_cells, cells: pairs * SIGNALS - r.below(2), flags: pairs + r.below(3) }
}

/// What a report says first: a verdict, or a refusal without its line.
pub fn headline(report: &[u8]) -> String {
    let first = report.split(|&byte| byte == b'\n').next().unwrap_or(b"");
    let fields: Vec<String> = first.split(|&byte| byte == b'\t').map(|field| String::from_utf8_lossy(field).into_owned()).collect();
    match &fields[..] {
        [_, file, number, _] => format!("refused {number:>2} of {file}"),
        _ => fields.join(" "),
    }
}

/// The bytes of a text, in the notation of a string; a long text is cut.
pub fn shown(text: &[u8]) -> String {
    const MOST_SHOWN: usize = 600;
    let cut = &text[..text.len().min(MOST_SHOWN)];
    format!("{} bytes \"{}\"", text.len(), cut.escape_ascii())
}

pub fn outcome(call: &str, reply: &Reply) -> String {
    match reply.number {
        0 => format!("{call}: accepted"),
        number => format!("{call}: refused {number:2} of {}", reply.table),
    }
}

fn ask_for_all_outcomes(tally: &mut Tally) {
    ask_for_refusals_of_readings(tally);
    for number in 1..=6 {
        let refusal = format!("write: refused {number:2} of 1");
        tally.must_have_seen(&refusal);
        places::ask(tally, &refusal, number, false);
    }
    for number in [16, 18, 28, 23] {
        tally.must_have_seen(&format!("write: refused {number:2} of 0"));
    }
    for number in [16, 18] {
        tally.must_have_seen(&format!("write: refused {number} of 0, {ALIKE}"));
    }
    tally.must_have_seen(&format!("write: refused 28 of 0, {TOO_LONG}"));
    for names in [UNDECLARED, TABLE_NAME] {
        tally.must_have_seen(&format!("write: accepted, {names}"));
    }
    for outcome in ["write: accepted", "report: verdict yes", "report: verdict none"] {
        tally.must_have_seen(outcome);
    }
    for number in [8, 9, 10, 23] {
        tally.must_have_seen(&format!("report: refused {number:2} of 0"));
    }
    for call in ["write", RENAMED, "report"] {
        orders::ask(tally, call);
    }
    spellings::ask(tally);
}

/// The calls of the archive reading keep document 01's rule, so they have no 28.
pub fn ask_for_refusals_of_readings(tally: &mut Tally) {
    let by_exact = [1, 2, 10, 13, 14, 15, 16, 17, 18, 19, 20, 21, 22];
    for number in by_exact {
        ask_for_refusal(tally, number, [&archived("alone"), &archived("together"), &archived("name"), "list"]);
    }
    for number in by_exact.into_iter().chain([28]) {
        ask_for_refusal(tally, number, ["alone", "together", "name", "report"]);
    }
    for call in ["alone", "together", "name"] {
        tally.must_have_seen(&format!("{call}: accepted"));
        tally.must_have_seen(&format!("{}: accepted", archived(call)));
    }
    for call in ["name", &archived("name")] {
        tally.must_have_seen(&format!("{call}: refused 12 of 0"));
    }
}

/// A refusal of a reading is met of a text alone, of either of two texts, in the lookup, which has no 10, and in what is printed for two texts.
fn ask_for_refusal(tally: &mut Tally, number: u32, [alone, together, name, printed]: [&str; 4]) {
    tally.must_have_seen(&format!("{alone}: refused {number:2} of 1"));
    for call in [together, printed] {
        tally.must_have_seen(&format!("{call}: refused {number:2} of 1"));
        tally.must_have_seen(&format!("{call}: refused {number:2} of 2"));
    }
    if number != 10 {
        tally.must_have_seen(&format!("{name}: refused {number:2} of 0"));
    }
}
