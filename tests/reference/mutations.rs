//! Texts of the cases that were written by hand, with some bytes, fields and lines changed: the library and the programs against the reference.

use crate::cases::Cases;
use crate::compare_readings::{compare_reading, compare_some_lookups, room_to_lend};
use crate::compare_texts::{ask_for_refusals_of_readings, compare_report_of, less_room};
use crate::program::PROGRAM;
use crate::random::Random;
use crate::random_texts::{damage_byte, damage_lines, edit_fields, lengthen, respell_line, return_carriages, split};
use crate::run_program::Content::Bytes;
use crate::run_program::Runs;
use crate::selftest::{files, folders};
use crate::tally::Tally;
use crate::text::{read_both, Rule};
use crate::writer::{digits, line};
use std::path::{Path, PathBuf};

/// A module's and a plan's text.
type Texts = [Vec<u8>; 2];

const BY_PROGRAMS: &str = "texts given to the programs";

/// `hand_written` are two folders of cases. The programs are run in the scratch folder of `runs`.
pub fn run(cases: &Cases, tally: &mut Tally, hand_written: [&Path; 2], runs: &Runs) {
    let folders: Vec<PathBuf> = hand_written.iter().flat_map(|cases| folders(tally, cases)).collect();
    let all: Vec<Texts> = folders.iter().filter_map(|folder| both(files(folder))).collect();
    let sound: Vec<Texts> = all.iter().filter(|texts| is_sound(texts)).cloned().collect();
    tally.check(!sound.is_empty(), || format!("mutations: no sound texts in {hand_written:?}"));
    if sound.is_empty() {
        return;
    }
    if cases.are_at_least(1_000) {
        ask_for_all_outcomes(tally, cases.count);
    }
    cases.run(tally, |r, tally| {
        // Where the module is at fault before it is mutated, the plan's faults do not show: half of the texts are sound ones.
        let originals = if r.percent(50) { &all } else { &sound };
        let mutated = mutated(r, originals);
        compare(r, tally, &mutated, runs);
    });
    runs.clear(tally);
}

fn both([module, plan]: [Option<Vec<u8>>; 2]) -> Option<Texts> {
    Some([module?, plan?])
}

fn is_sound([module, plan]: &Texts) -> bool {
    read_both(Rule::Folded, module, plan, PROGRAM.module_cells, PROGRAM.plan_cells).is_ok()
}

/// One to four mutations of the texts of a case, mostly of the same text.
fn mutated(r: &mut Random, originals: &[Texts]) -> Texts {
    let mut texts = r.pick(originals);
    let which = r.below(2);
    for _ in 0..r.pick(&[1, 1, 2, 3, 4]) {
        let which = if r.percent(20) { 1 - which } else { which };
        mutate(r, &mut texts, which);
    }
    texts
}

fn mutate(r: &mut Random, texts: &mut Texts, which: usize) {
    let other = &texts[1 - which].clone();
    let text = &mut texts[which];
    match r.below(50) {
        0..=6 => damage_byte(r, text),
        7..=10 => drop_byte(r, text),
        11..=13 => double_byte(r, text),
        14..=20 => damage_lines(r, text),
        21..=31 => replace_field(r, text, other),
        32..=34 => replace_tab(r, text),
        35..=36 => return_carriages(r, text),
        37..=39 => text.truncate(r.below(text.len() + 1)),
        40..=43 => respell_line(r, text),
        44..=45 => take_line(r, text, other),
        46..=48 => change_first_line(r, text),
        _ => lengthen(r, text),
    }
}

fn drop_byte(r: &mut Random, text: &mut Vec<u8>) {
    if !text.is_empty() {
        text.remove(r.below(text.len()));
    }
}

fn double_byte(r: &mut Random, text: &mut Vec<u8>) {
    if !text.is_empty() {
        let place = r.below(text.len());
        text.insert(place, text[place]);
    }
}

/// One field becomes another field of the two texts.
fn replace_field(r: &mut Random, text: &mut Vec<u8>, other: &[u8]) {
    let fields: Vec<Vec<u8>> = [text, other].concat().split(|&byte| byte == b'\t' || byte == b'\n').map(<[u8]>::to_vec).collect();
    let new = r.pick(&fields);
    edit_fields(r, text, |r, fields| {
        let place = r.below(fields.len());
        fields[place] = new.clone();
    });
}

/// The first line gets another number of states, or another first state.
fn change_first_line(r: &mut Random, text: &mut Vec<u8>) {
    let mut fields: Vec<Vec<u8>> = text.splitn(5, |&byte| byte == b'\t' || byte == b'\n').map(<[u8]>::to_vec).collect();
    let (is_count, number) = (r.percent(50), r.pick(&[0, 1, 2, 3, 5, 1_024, 1_025, 4_096, 4_097, 65_535]));
    if let [kind, name, states, initial, rest] = &mut fields[..] {
        *(if is_count { &mut *states } else { &mut *initial }) = digits(number);
        *text = [line(&[kind, name, states, initial]), rest.clone()].concat();
    }
}

/// A blank, or nothing, in the place of a tab.
fn replace_tab(r: &mut Random, text: &mut Vec<u8>) {
    let tabs: Vec<usize> = (0..text.len()).filter(|&place| text[place] == b'\t').collect();
    if !tabs.is_empty() {
        let place = r.pick(&tabs);
        text.splice(place..place + 1, r.pick(&[&b" "[..], b"", b"  "]).iter().copied());
    }
}

/// A line of the other text comes in, at any place.
fn take_line(r: &mut Random, text: &mut Vec<u8>, other: &[u8]) {
    let (mut lines, others) = (split(text), split(other));
    if !others.is_empty() {
        let place = r.below(lines.len() + 1);
        lines.insert(place, r.pick(&others));
        *text = lines.concat();
    }
}

/// Reads one text alone and the two together, looks up names, lists clashes and reports. Not every case does all of it: lookups in
/// sound texts take a while, and so do the programs.
fn compare(r: &mut Random, tally: &mut Tally, texts: &Texts, runs: &Runs) {
    let [module, plan] = texts;
    let rooms = [room_to_lend(r, module), room_to_lend(r, plan)];
    let (alone, room) = if r.percent(50) { (plan, rooms[1]) } else { (module, rooms[0]) };
    compare_reading(tally, r, (alone, room), None);
    compare_reading(tally, r, (module, rooms[0]), Some((plan, rooms[1])));
    let is_sound = is_sound(texts);
    if !is_sound || r.percent(5) {
        compare_some_lookups(tally, r, module, Some(plan));
    }
    if r.percent(10) {
        compare_some_lookups(tally, r, alone, None);
    }
    if !is_sound || r.percent(30) {
        let room = if r.percent(10) { less_room(r) } else { PROGRAM };
        compare_report_of(tally, r, module, plan, &room);
    }
    if r.percent(1) {
        tally.saw(BY_PROGRAMS);
        runs.compare(tally, &Bytes(module.clone()), &Bytes(plan.clone()));
    }
}

fn ask_for_all_outcomes(tally: &mut Tally, count: u64) {
    ask_for_refusals_of_readings(tally);
    tally.must_have_seen("report: verdict yes");
    tally.must_have_seen("report: verdict none");
    tally.must_have_seen_at_least(BY_PROGRAMS, count / 200);
}
