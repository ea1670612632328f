//! The examples: each folder has module.tab and plan.tab, in `stdout` what the program prints there, in `paths`, by hand, what its sequencer can do,
//! and in `made` how tables of the folder are made from others. examples/README.md says what stands in the last two.

use crate::calls::{make_composition, make_product};
use crate::compare_texts::shown;
use crate::program::{print, refusal_line};
use crate::reply::Reply;
use crate::run_program::output_of;
use crate::selftest::{files, folders};
use crate::table::{members, Table, SIGNALS};
use crate::tally::Tally;
use crate::text::{read_all, Rule, MOST_BYTES};
use crate::writer::write;
use std::fs;
use std::path::Path;

/// Bytes that were found or worked out, or why they could not be.
type Bytes = Result<Vec<u8>, String>;

/// Lines of a report before the text of the sequencer.
const LINES_BEFORE_TEXT: usize = 6;

/// Holds each folder to the reference, and the program to the folder. It runs in a scratch folder, which is made if it is not there.
pub fn run(examples: &Path, scratch: &Path, sequencer: &Path) -> bool {
    let mut tally = Tally::default();
    for folder in folders(&mut tally, examples) {
        hold(&mut tally, &folder, "stdout", contents(&folder, "stdout"), Ok(printed(&folder)));
        hold(&mut tally, &folder, "the program", run_copy(&folder, scratch, sequencer), contents(&folder, "stdout"));
        hold(&mut tally, &folder, "paths", contents(&folder, "paths").map(sorted), paths_of(&folder).map(sorted));
        compare_made(&mut tally, &folder);
    }
    tally.finish()
}

/// Writes the tables that are made, and `stdout`, of each folder.
pub fn write_anew(examples: &Path) -> bool {
    let mut tally = Tally::default();
    for folder in folders(&mut tally, examples) {
        let written = write_folder(&folder);
        tally.check(written.is_ok(), || format!("{}: {}", folder.display(), written.unwrap_err()));
    }
    tally.finish()
}

fn write_folder(folder: &Path) -> Result<(), String> {
    for recipe in recipes(folder)? {
        place(folder, &recipe.file, &made(folder, &recipe)?)?;
    }
    place(folder, "stdout", &printed(folder))
}

/// Passes if the bytes were found and are those expected.
fn hold(tally: &mut Tally, folder: &Path, what: &str, found: Bytes, expected: Bytes) {
    tally.check(found.is_ok() && found == expected, || {
        let [found, expected] = [found, expected].map(|bytes| bytes.map_or_else(|error| error, |bytes| shown(&bytes)));
        format!("{}, {what}\n  expected {expected}\n  is       {found}", folder.display())
    });
}

fn contents(folder: &Path, name: &str) -> Bytes {
    fs::read(folder.join(name)).map_err(|error| format!("{name}: {error}"))
}

fn place(folder: &Path, name: &str, bytes: &[u8]) -> Result<(), String> {
    fs::write(folder.join(name), bytes).map_err(|error| format!("{name}: {error}"))
}

/// Works out what the program has to print in a folder.
fn printed(folder: &Path) -> Vec<u8> {
    let [module, plan] = files(folder);
    print(module.as_deref(), plan.as_deref())
}

/// Runs the program in a folder that has the two tables and nothing else.
fn run_copy(folder: &Path, scratch: &Path, sequencer: &Path) -> Bytes {
    let program = sequencer.canonicalize().map_err(|error| format!("{}: {error}", sequencer.display()))?;
    fs::create_dir_all(scratch).map_err(|error| format!("{}: {error}", scratch.display()))?;
    for name in ["module.tab", "plan.tab"] {
        place(scratch, name, &contents(folder, name)?)?;
    }
    output_of(&program, scratch)
}

/// Works out the paths of the sequencer that stands in `stdout`: none where there is no sequencer.
fn paths_of(folder: &Path) -> Bytes {
    let report = contents(folder, "stdout")?;
    let text: Vec<u8> = report.split_inclusive(|&byte| byte == b'\n').skip(LINES_BEFORE_TEXT).flatten().copied().collect();
    if text.is_empty() {
        return Ok(Vec::new());
    }
    let (tables, signals) = read_all(Rule::Folded, &[&text]).map_err(refused)?;
    let name = |signal: usize| signals[signal].name.as_slice();
    let line = |path: Vec<usize>| [path.into_iter().map(name).collect::<Vec<_>>().join(&b' '), b"\n".to_vec()].concat();
    Ok(paths(&tables[0], &[tables[0].initial]).into_iter().flat_map(line).collect())
}

/// Lists the paths on from the last of the states that a table has been in: the signals, until there is no step, or the state is one of those
/// before it.
fn paths(table: &Table, states: &[usize]) -> Vec<Vec<usize>> {
    let (state, before) = states.split_last().expect("a path begins in a state");
    let steps: Vec<(usize, usize)> = members(table.signals()).filter_map(|signal| Some((signal, table.step(*state, signal)?))).collect();
    if steps.is_empty() || before.contains(state) {
        return vec![Vec::new()];
    }
    let on = |(signal, to)| paths(table, &[states, &[to]].concat()).into_iter().map(move |rest| [vec![signal], rest].concat());
    steps.into_iter().flat_map(on).collect()
}

/// Sorts lines: paths have no order of their own.
fn sorted(text: Vec<u8>) -> Vec<u8> {
    let mut lines: Vec<&[u8]> = text.split_inclusive(|&byte| byte == b'\n').collect();
    lines.sort();
    lines.concat()
}

/// A line of `made`: how a table is made from others.
struct Recipe {
    file: String,
    name: String,
    rule: Combine,
    parts: Vec<String>,
}

type Combine = fn(&Table, &Table) -> Result<Table, Reply>;

/// Compares the tables that are made. Every other table of the folder has to be a part of one: so no recipe is lost unseen.
fn compare_made(tally: &mut Tally, folder: &Path) {
    let recipes = recipes(folder).unwrap_or_else(|error| {
        tally.check(false, || format!("{}: {error}", folder.display()));
        Vec::new()
    });
    for recipe in &recipes {
        hold(tally, folder, &recipe.file, contents(folder, &recipe.file), made(folder, recipe));
    }
    let names = fs::read_dir(folder).into_iter().flatten().flatten().filter_map(|entry| entry.file_name().into_string().ok());
    let is_used = |name: &String| ["module.tab", "plan.tab"].contains(&name.as_str()) || recipes.iter().any(|recipe| recipe.parts.contains(name));
    let unused: Vec<String> = names.filter(|name| name.ends_with(".tab") && !is_used(name)).collect();
    tally.check(unused.is_empty(), || format!("{}: nothing is made from {unused:?}", folder.display()));
}

/// Reads the recipes of a folder: without a file `made` there are none.
fn recipes(folder: &Path) -> Result<Vec<Recipe>, String> {
    if !folder.join("made").exists() {
        return Ok(Vec::new());
    }
    let text = String::from_utf8(contents(folder, "made")?).map_err(|error| error.to_string())?;
    text.lines().map(|line| recipe(line).ok_or(format!("made: '{line}' is no recipe"))).collect()
}

fn recipe(line: &str) -> Option<Recipe> {
    let words: Vec<String> = line.split(' ').map(str::to_string).collect();
    let [file, name, rule, parts @ ..] = &words[..] else { return None };
    let rule: Combine = match rule.as_str() {
        "product" => |a, b| combined(a, b, |cells, _| make_product(a, b, cells)),
        "compose" => |a, b| combined(a, b, |cells, flags| make_composition(a, b, cells, flags)),
        _ => return None,
    };
    (parts.len() >= 2).then(|| Recipe { file: file.clone(), name: name.clone(), rule, parts: parts.to_vec() })
}

/// Gives the table of a call on two tables.
fn combined(a: &Table, b: &Table, call: impl FnOnce(&mut [u16], &mut [u8]) -> Result<Reply, Reply>) -> Result<Table, Reply> {
    let pairs = a.states * b.states;
    let (mut cells, mut flags) = (vec![0; pairs * SIGNALS], vec![0; pairs]);
    let Reply { states, initial, inputs, outputs, .. } = call(&mut cells, &mut flags)?;
    Ok(Table { states, initial, inputs, outputs, cells })
}

/// Works out the text of a table that is made. Its parts are read together, and taken from the left.
fn made(folder: &Path, Recipe { name, rule, parts, .. }: &Recipe) -> Bytes {
    let texts: Vec<Vec<u8>> = parts.iter().map(|part| contents(folder, part)).collect::<Result<_, String>>()?;
    let texts: Vec<&[u8]> = texts.iter().map(Vec::as_slice).collect();
    let (tables, signals) = read_all(Rule::Folded, &texts).map_err(refused)?;
    let (first, others) = tables.split_first().expect("a recipe has parts");
    let table = others.iter().try_fold(first.clone(), |table, part| rule(&table, part)).map_err(refused)?;
    let names: Vec<&[u8]> = signals.iter().map(|signal| signal.name.as_slice()).collect();
    let mut text = vec![0; MOST_BYTES];
    let length = write(&table, name.as_bytes(), &names, &mut text).map_err(refused)?.value;
    text.truncate(length);
    Ok(text)
}

fn refused(refusal: Reply) -> String {
    String::from_utf8_lossy(&refusal_line(&refusal)).trim_end().to_string()
}
