//! What was worked out by hand: folders of cases, each with module.tab and plan.tab, or without one, and what is printed; and situations of tables.
//! The reference is held to all of it; the archive is held to the situations, and to the reference on the texts of every folder.

use crate::compare_readings::{compare_lookups, compare_reading};
use crate::compare_texts::{ask_for_refusals_of_readings, compare_report_of, shown};
use crate::program::PROGRAM;
use crate::random::Random;
use crate::tally::Tally;
use crate::{lister, program, situations};
use std::fs;
use std::path::{Path, PathBuf};

/// `cases` has what the program prints, in stdout; `clashes` what the lister of clashes prints, in stdout, and what the program prints, in main.
pub fn run(cases: &Path, clashes: &Path) -> bool {
    let mut tally = Tally::default();
    for folder in folders(&mut tally, cases) {
        compare(&mut tally, &folder, "stdout", program::print);
        compare_calls(&mut tally, &folder);
    }
    for folder in folders(&mut tally, clashes) {
        compare(&mut tally, &folder, "stdout", lister::print);
        compare(&mut tally, &folder, "main", program::print);
        compare_calls(&mut tally, &folder);
    }
    ask_for_all_outcomes(&mut tally);
    situations::compare(&mut tally);
    tally.finish()
}

/// Reads the two files of a folder: nothing for one that can't be read.
pub fn files(folder: &Path) -> [Option<Vec<u8>>; 2] {
    ["module.tab", "plan.tab"].map(|name| fs::read(folder.join(name)).ok())
}

fn compare(tally: &mut Tally, folder: &Path, expected: &str, print: fn(Option<&[u8]>, Option<&[u8]>) -> Vec<u8>) {
    let [module, plan] = files(folder);
    let printed = print(module.as_deref(), plan.as_deref());
    let expected = fs::read(folder.join(expected));
    tally.check(expected.as_ref().is_ok_and(|expected| *expected == printed), || {
        let expected = expected.map_or_else(|error| error.to_string(), |expected| shown(&expected));
        format!("selftest, {}\n  expected {expected}\n  is       {}", folder.display(), shown(&printed))
    });
}

/// Holds the archive to the reference on the texts of a folder. What stands in lent buffers is drawn, and so are the bytes lent for a list, which may
/// be too few: hence three times.
fn compare_calls(tally: &mut Tally, folder: &Path) {
    let [module, plan] = files(folder);
    for case in 0..3 {
        tally.begin_case();
        compare_texts(tally, &mut Random::of_case(0, case), module.as_deref(), plan.as_deref());
        if let Some(failure) = tally.end_case() {
            return println!("failed: selftest, {}: {}", folder.display(), failure.words);
        }
    }
}

/// Compares each text alone, and the two together, by all calls that read texts. As many cells are lent as by the program.
fn compare_texts(tally: &mut Tally, r: &mut Random, module: Option<&[u8]>, plan: Option<&[u8]>) {
    for text in [module, plan].into_iter().flatten() {
        compare_reading(tally, r, (text, PROGRAM.module_cells), None);
        compare_lookups(tally, r, text, None);
    }
    if let (Some(module), Some(plan)) = (module, plan) {
        compare_reading(tally, r, (module, PROGRAM.module_cells), Some((plan, PROGRAM.plan_cells)));
        compare_lookups(tally, r, module, Some(plan));
        compare_report_of(tally, r, module, plan, &PROGRAM);
    }
}

/// Asks the folders for a text with each refusal of a reading, of module and plan, and for every other outcome of a report.
fn ask_for_all_outcomes(tally: &mut Tally) {
    ask_for_refusals_of_readings(tally);
    for outcome in ["verdict yes", "verdict none", "refused  8 of 0", "refused  9 of 0", "refused 10 of 0", "refused 23 of 0"] {
        tally.must_have_seen(&format!("report: {outcome}"));
    }
}

/// Lists the folders in a folder: to have none is a failure.
pub fn folders(tally: &mut Tally, cases: &Path) -> Vec<PathBuf> {
    let entries = fs::read_dir(cases).into_iter().flatten().flatten();
    let mut folders: Vec<PathBuf> = entries.map(|entry| entry.path()).filter(|path| path.is_dir()).collect();
    folders.sort();
    tally.check(!folders.is_empty(), || format!("no folder in {}", cases.display()));
    folders
}
