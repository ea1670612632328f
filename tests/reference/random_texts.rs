//! Random table texts: spelled from tables in any lawful order of lines, and then damaged.

use crate::random::Random;
use crate::random_tables::{busy_module_and_plan, module_and_plan, sizes, table_of_text_length};
use crate::table::{members, Table, SIGNALS};
use crate::writer::{declaration_line, digits, line, step_line, text_of};

/// Names for the 32 signals of a case. No two are the same, in any case of their letters, though some nearly are: in a byte at their end, in a
/// prefix, or, as `0` and `p`, in the low five bits of a byte.
pub fn good_names(r: &mut Random) -> Vec<Vec<u8>> {
    const ODD: &[&str] =
        &["a", "b", "p", "_", "__", "0", "00", "power", "power_", "poweri", "settled", "read", "start", "in", "out", "step", "table", "sp", "z"];
    const LONG: &[&str] = &["abcdefghijklmnop", "abcdefghijklmnoq", "ABCDEFGHIJKLMNO9", "reference_2_warm", "reference_2_Cold", "qrstuvwxyz"];
    let mut names: Vec<Vec<u8>> = [ODD, LONG].concat().iter().map(|name| name.as_bytes().to_vec()).collect();
    names.extend((0..17).map(|number| format!("s{number}").into_bytes()));
    let chance = r.pick(&[0, 20, 60]);
    for name in &mut names {
        if r.percent(chance) {
            *name = respelled(r, name);
        }
    }
    r.shuffle(&mut names);
    names.truncate(SIGNALS);
    names
}

/// Another spelling of a name: the case of one of its letters, or of several, is another. A name without letters has no other.
pub fn respelled(r: &mut Random, name: &[u8]) -> Vec<u8> {
    const CASE: u8 = b'a' ^ b'A';
    let letters: Vec<usize> = (0..name.len()).filter(|&place| name[place].is_ascii_alphabetic()).collect();
    let mut spelling = name.to_vec();
    let Some(&last) = letters.last() else { return spelling };
    let one = if r.percent(40) { last } else { r.pick(&letters) };
    let chance = r.pick(&[0, 0, 50, 100]);
    for place in letters {
        if place == one || r.percent(chance) {
            spelling[place] ^= CASE;
        }
    }
    spelling
}

/// Up to three of these signals get names that are other spellings of a further one's.
fn respell_together(r: &mut Random, names: &mut [Vec<u8>], signals: u32) {
    let signals: Vec<usize> = members(signals).collect();
    if signals.is_empty() {
        return;
    }
    let model = r.pick(&signals);
    for _ in 0..r.between(1, 3) {
        let (signal, spelling) = (r.pick(&signals), respelled(r, &names[model]));
        if signal != model && !names.contains(&spelling) {
            names[signal] = spelling;
        }
    }
}

pub fn borrowed(names: &[Vec<u8>]) -> Vec<&[u8]> {
    names.iter().map(Vec::as_slice).collect()
}

/// A module's and a plan's text, most of them related and sound.
pub fn text_pair(r: &mut Random) -> (Vec<u8>, Vec<u8>) {
    let (module, plan) = random_pair(r);
    let mut names = good_names(r);
    for _ in 0..r.pick(&[0, 0, 0, 0, 1, 2]) {
        respell_together(r, &mut names, module.signals() | plan.signals());
    }
    let mut texts = (spelled(r, &module, &names), Vec::new());
    if let Some(signal) = members(module.signals()).find(|_| r.percent(3)) {
        names[signal] = respelled(r, &names[signal]);
    }
    texts.1 = spelled(r, &plan, &names);
    if r.percent(2) {
        texts.0 = text_of_length(65_536);
    }
    if r.percent(3) {
        crowd(r, &mut texts.0, &mut texts.1);
    }
    let damages = r.pick(&[0, 0, 1, 1, 1, 2, 3]);
    for _ in 0..damages {
        let text = if r.percent(50) { &mut texts.0 } else { &mut texts.1 };
        damage(r, text);
    }
    texts
}

/// Sound texts of two tables: no names clash.
pub fn spelled_pair(r: &mut Random, (module, plan): &(Table, Table)) -> (Vec<u8>, Vec<u8>) {
    let names = good_names(r);
    (spelled(r, module, &names), spelled(r, plan, &names))
}

/// Sound texts for which the sequencer's text comes near its limit, or beyond it.
pub fn busy_texts(r: &mut Random) -> (Vec<u8>, Vec<u8>) {
    let tables = busy_module_and_plan(r);
    spelled_pair(r, &tables)
}

fn random_pair(r: &mut Random) -> (Table, Table) {
    if r.percent(2) {
        return busy_module_and_plan(r);
    }
    let sizes = sizes(r);
    module_and_plan(r, sizes)
}

/// A sound text of exactly so many bytes.
pub fn text_of_length(length: usize) -> Vec<u8> {
    let (table, spare) = table_of_text_length(length);
    let letters: Vec<Vec<u8>> = (b'a'..=b'z').map(|letter| vec![letter]).collect();
    text_of(&table, &vec![b'x'; spare + 1], &borrowed(&letters))
}

/// A text of the table: declarations in any order, then steps in any order.
fn spelled(r: &mut Random, table: &Table, names: &[Vec<u8>]) -> Vec<u8> {
    let names = borrowed(names);
    let mut declarations: Vec<Vec<u8>> = members(table.signals()).map(|signal| declaration_line(table, &names, signal)).collect();
    let mut steps = Vec::new();
    for state in 0..table.states {
        steps.extend(members(table.signals()).map(|signal| step_line(table, &names, state, signal)));
    }
    r.shuffle(&mut declarations);
    r.shuffle(&mut steps);
    let mut name = r.pick(&names).to_vec();
    if r.percent(50) {
        name = respelled(r, &name);
    }
    let first = line(&[b"table", &name, &digits(table.states), &digits(table.initial)]);
    [first, declarations.concat(), steps.concat()].concat()
}

/// Damages a text in one of the ways that a refusal names, or at random.
fn damage(r: &mut Random, text: &mut Vec<u8>) {
    match r.below(27) {
        0..=2 => damage_byte(r, text),
        3..=6 => damage_lines(r, text),
        7..=8 => damage_first_line(r, text),
        9..=13 => damage_field(r, text),
        14 => damage_field_count(r, text),
        15 => return_carriages(r, text),
        16 => drop(text.pop()),
        17..=19 => declare_more(r, text),
        20 => text.truncate(r.below(text.len() + 1) * r.below(2)),
        21 => lengthen(r, text),
        22..=23 => respell_line(r, text),
        24..=25 => declare_again(r, text),
        _ => *text = nonsense(r),
    }
}

pub fn damage_byte(r: &mut Random, text: &mut Vec<u8>) {
    if text.is_empty() {
        return;
    }
    let place = r.below(text.len());
    match r.below(3) {
        0 => text[place] ^= 1 << r.below(8),
        1 => text[place] = r.pick(b"\0\xff\t\n\r 09Az_-\x7f"),
        _ => text.insert(place, r.pick(b"\0\xff\t\n\r 09Az_-\xef")),
    }
}

pub fn split(text: &[u8]) -> Vec<Vec<u8>> {
    text.split_inclusive(|&byte| byte == b'\n').map(<[u8]>::to_vec).collect()
}

/// A line is dropped, doubled, exchanged with another, or comes again at the end with another last field: a step with another target.
pub fn damage_lines(r: &mut Random, text: &mut Vec<u8>) {
    let mut lines = split(text);
    if lines.is_empty() {
        return;
    }
    let (one, other) = (r.below(lines.len()), r.below(lines.len()));
    match r.below(5) {
        0 => drop(lines.remove(one)),
        1 => lines.insert(other, lines[one].clone()),
        2 => lines.swap(one, other),
        3 => lines.push(lines[one].clone()),
        _ => {
            let mut fields: Vec<&[u8]> = lines[one].split(|&byte| byte == b'\t').collect();
            fields.pop();
            fields.push(r.pick(&[&b"0\n"[..], b"1\n", b"4096\n", b"65535\n"]));
            lines.push(fields.join(&b'\t'));
        }
    }
    *text = lines.concat();
}

/// The first line gets another number of states or another first state.
fn damage_first_line(r: &mut Random, text: &mut Vec<u8>) {
    let mut lines = split(text);
    let Some(first) = lines.first_mut() else { return };
    let mut fields: Vec<Vec<u8>> = first.split(|&byte| byte == b'\t').map(<[u8]>::to_vec).collect();
    if let [_, _, states, initial] = &mut fields[..] {
        if r.percent(40) {
            *initial = [digits(r.pick(&[1, 6, 24, 4_095, 4_096, 65_535])), b"\n".to_vec()].concat();
        } else {
            *states = digits(r.pick(&[0, 1, 2, 1_024, 1_025, 4_096, 4_097, 65_535]));
        }
    }
    *first = fields.join(&b'\t');
    *text = lines.concat();
}

/// One field of one line, or two, so that the order of the numbers shows, becomes another name, number or nonsense.
fn damage_field(r: &mut Random, text: &mut Vec<u8>) {
    const FIELDS: &[&str] = &[
        "", "0", "1", "2", "5", "00", "01", "007", "4095", "4096", "4097", "1024", "1025", "65535", "65536", "99999", "100000", "4294967297",
        "-1", "+1", "1 ", " 1", "0x1", "a", "power", "Power", "s1", "in", "out", "step", "table", "Table", "hid", "abcdefghijklmnop",
        "abcdefghijklmnopq", "a-b", "a b", "\u{e9}",
    ];
    edit_fields(r, text, |r, fields| {
        for _ in 0..r.pick(&[1, 2]) {
            let place = r.below(fields.len());
            fields[place] = r.pick(FIELDS).as_bytes().to_vec();
        }
    });
}

/// A field is lost, doubled or moved.
fn damage_field_count(r: &mut Random, text: &mut Vec<u8>) {
    edit_fields(r, text, |r, fields| {
        let place = r.below(fields.len());
        match r.below(4) {
            0 => drop(fields.remove(place)),
            1 => fields.insert(place, fields[place].clone()),
            2 => fields.push(Vec::new()),
            _ => fields.reverse(),
        }
    });
}

/// Edits the fields of one line, often of the first; its LF stays.
pub fn edit_fields(r: &mut Random, text: &mut Vec<u8>, edit: impl Fn(&mut Random, &mut Vec<Vec<u8>>)) {
    let mut lines = split(text);
    if lines.is_empty() {
        return;
    }
    let place = if r.percent(25) { 0 } else { r.below(lines.len()) };
    let Some(bare) = lines[place].strip_suffix(b"\n") else { return };
    let mut fields: Vec<Vec<u8>> = bare.split(|&byte| byte == b'\t').map(<[u8]>::to_vec).collect();
    edit(r, &mut fields);
    lines[place] = [fields.join(&b'\t'), b"\n".to_vec()].concat();
    *text = lines.concat();
}

/// CR before LF, on one line or on all.
pub fn return_carriages(r: &mut Random, text: &mut Vec<u8>) {
    let mut lines = split(text);
    let all = r.percent(50);
    let one = r.below(lines.len().max(1));
    for (place, line) in lines.iter_mut().enumerate() {
        if (all || place == one) && line.ends_with(b"\n") {
            line.insert(line.len() - 1, b'\r');
        }
    }
    *text = lines.concat();
}

/// Further declarations behind the first line, up to the last that is taken or one more.
fn declare_more(r: &mut Random, text: &mut Vec<u8>) {
    let mut lines = split(text);
    let full = SIGNALS.saturating_sub(lines.iter().filter(|line| declared(line).is_some()).count());
    let more = r.pick(&[1, full, full, full + 1, full + 1]);
    let place = lines.len().min(1);
    for number in 0..more {
        lines.insert(place, declaration(r, format!("n{number}").as_bytes()));
    }
    if r.percent(30) {
        let name = respelled_name(r, &lines);
        let end = lines.iter().rposition(|line| declared(line).is_some()).map_or(0, |last| last + 1);
        lines.insert(end, declaration(r, &name));
    }
    *text = lines.concat();
}

fn declaration(r: &mut Random, name: &[u8]) -> Vec<u8> {
    line(&[r.pick(&[&b"in"[..], b"out"]), name])
}

/// The name that a line declares, if it does.
pub fn declared(line: &[u8]) -> Option<&[u8]> {
    line.strip_prefix(b"in\t").or(line.strip_prefix(b"out\t"))?.strip_suffix(b"\n")
}

/// Another spelling of a name that the lines declare, or of `a` where they declare none.
fn respelled_name(r: &mut Random, lines: &[Vec<u8>]) -> Vec<u8> {
    let names: Vec<&[u8]> = lines.iter().filter_map(|line| declared(line)).collect();
    let name: &[u8] = if names.is_empty() { b"a" } else { r.pick(&names) };
    respelled(r, name)
}

/// A name that is declared is declared once more, in another spelling, before or after its first declaration or even among the steps.
fn declare_again(r: &mut Random, text: &mut Vec<u8>) {
    let mut lines = split(text);
    let name = respelled_name(r, &lines);
    let declarations = lines.iter().filter(|line| declared(line).is_some()).count();
    let place = r.between(1, declarations + 2).min(lines.len());
    lines.insert(place, declaration(r, &name));
    *text = lines.concat();
}

/// The name in one line gets another spelling: a declaration's, so that its steps are left behind, or a step's, or the table's.
pub fn respell_line(r: &mut Random, text: &mut Vec<u8>) {
    edit_fields(r, text, |r, fields| {
        if let Some(name) = fields.iter_mut().skip(1).rfind(|field| field.iter().any(u8::is_ascii_alphabetic)) {
            *name = respelled(r, name);
        }
    });
}

/// The module gets as many declarations as there may be, and the plan begins with another spelling of one of these names: it would be a 33rd name.
fn crowd(r: &mut Random, module: &mut Vec<u8>, plan: &mut Vec<u8>) {
    let mut lines = split(module);
    let missing = SIGNALS.saturating_sub(lines.iter().filter(|line| declared(line).is_some()).count());
    for number in 0..missing {
        lines.insert(1, declaration(r, format!("n{number}").as_bytes()));
    }
    let name = respelled_name(r, &lines);
    *module = lines.concat();
    let mut lines = split(plan);
    lines.insert(1, declaration(r, &name));
    *plan = lines.concat();
}

/// The text grows to its limit, or one byte beyond it, by repeating its end.
pub fn lengthen(r: &mut Random, text: &mut Vec<u8>) {
    let length = r.pick(&[65_536, 65_537, 65_538, 70_000, 131_072]);
    let filler: &[u8] = r.pick(&[&b"step\t0\ta\t0\n"[..], b"\n", b"x", b"\0"]);
    while text.len() < length {
        text.extend(filler);
    }
    text.truncate(length);
}

/// Words of the format in any order.
fn nonsense(r: &mut Random) -> Vec<u8> {
    const WORDS: &[&str] =
        &["table", "in", "out", "step", "\t", "\t", "\n", "\n", "0", "1", "2", "a", "b", "in\ta\n", "table\ta\t2\t0\n", "step\t0\ta\t1\n"];
    (0..r.below(40)).flat_map(|_| r.pick(WORDS).bytes()).collect()
}
