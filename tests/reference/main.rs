//! An independent implementation of document 01 and of S-2 to S-5 and S-9 of document 02, written from their words and by the plainest means, and
//! comparisons of the archives and the programs with it. The rules are in `table` to `synth` and `reach`, the calls with their refusals in `calls`,
//! `text`, `writer`, `program` and `lister`; what is tried comes from `random_tables` and `random_texts`, and `places` says which bad cells have to
//! be among it, `orders` which steps of one state, `ways` which ends, `spellings` which names; the archives stand behind `archive`. `cases` runs the
//! cases of every comparison, `note` has the number of the one that runs, and `smaller` finds the smallest that fails. Some comparisons do not ask
//! the reference: `substitution`, `properties` and `readback` hold the archive to its own answers, which `answers` has.
//!
//! Where document 01 is silent the reference follows docs/DECISIONS.md or the library, and says nothing on its own: the table that a refusal of a
//! call on one table and of the writer names; a missing entry of the writer's names; what counts as a step in cells that no check has seen; what
//! `count_ends` and `mark_reached` do where the sizes do not agree; 10 where `report` is lent less than the program lends; that a report which is
//! refused after the reading leaves its tables as a refused reading does; what `list` returns where it is lent too few bytes.
//!
//!     reference print FOLDER                                         what the program has to print in a folder with module.tab and plan.tab
//!     reference list FOLDER                                          what the lister of clashes has to print there
//!     reference examples EXAMPLES --write                            writes what is worked out in each example: tables that are made, stdout
//!     reference examples EXAMPLES FOLDER SEQUENCER                   the examples, and the program, run in a scratch folder
//!     reference selftest CASES CLASHES                               what was worked out by hand: folders of texts, situations
//!     reference smaller SEED COUNT [CASE]                            the search for the smallest failing case, on properties that are false
//!     reference tables SEED COUNT [CASE]                             the calls on tables
//!     reference texts SEED COUNT [CASE]                              reading, lookup, listing of clashes, writing, report
//!     reference demand3 SEED COUNT [CASE]                            all small sequencers
//!     reference flags SEED COUNT [CASE]                              counts of kept flags
//!     reference ends SEED COUNT [CASE]                               what is reached, and counts of ends
//!     reference substitution SEED COUNT [CASE]                       a part in the place of the one that it refines: the archive alone
//!     reference properties SEED COUNT [CASE]                         what answers on tables have to do with each other: the archive alone
//!     reference readback SEED COUNT [CASE]                           what is written and printed, read again: the archive alone
//!     reference program SEED COUNT FOLDER SEQUENCER CLASHES [CASE]   the two programs, run in a scratch folder
//!     reference mutations SEED COUNT CASES CLASHES FOLDER SEQUENCER CLASHES [CASE]
//!                                                                    folders of texts with some bytes changed: reading and the two programs
//!
//! With CASE that one case is run alone: `bash tests/reference.sh tables SEED CASE` does so. Where the environment has REFERENCE_CASE, that file
//! has the number of the case that runs. But for `print` and `list`, the last line is
//! 'N passed, M failed', and the exit status says the same.

mod answers;
mod archive;
mod bytes;
mod calls;
mod cases;
mod compare_ends;
mod compare_flags;
mod compare_readings;
mod compare_tables;
mod compare_texts;
mod demand3;
mod examples;
mod fit;
mod lent;
mod lister;
mod mutations;
mod note;
mod orders;
mod places;
mod product;
mod program;
mod properties;
mod properties_of_sequencers;
mod properties_of_tables;
mod random;
mod random_tables;
mod random_texts;
mod reach;
mod readback;
mod refine;
mod renumber;
mod reply;
mod run_program;
mod selftest;
mod situations;
mod smaller;
mod smaller_test;
mod spellings;
mod substitution;
mod synth;
mod table;
mod tally;
mod text;
mod ways;
mod writer;

use crate::cases::Cases;
use crate::note::Note;
use crate::run_program::Runs;
use crate::tally::Tally;
use std::io::Write;
use std::path::Path;
use std::process::ExitCode;

fn main() -> ExitCode {
    let arguments: Vec<String> = std::env::args().skip(1).collect();
    let arguments: Vec<&str> = arguments.iter().map(String::as_str).collect();
    match run(&arguments) {
        Some(true) => ExitCode::SUCCESS,
        Some(false) => ExitCode::FAILURE,
        None => {
            eprintln!("usage: reference print|list FOLDER");
            eprintln!("       reference selftest CASES CLASHES");
            eprintln!("       reference examples EXAMPLES FOLDER SEQUENCER");
            eprintln!("       reference examples EXAMPLES --write");
            eprintln!("       reference smaller|tables|texts|demand3|flags|ends|substitution|properties|readback SEED COUNT [CASE]");
            eprintln!("       reference program SEED COUNT FOLDER SEQUENCER CLASHES [CASE]");
            eprintln!("       reference mutations SEED COUNT CASES CLASHES FOLDER SEQUENCER CLASHES [CASE]");
            ExitCode::from(2)
        }
    }
}

/// Whether all passed; nothing for arguments that make no sense.
fn run(arguments: &[&str]) -> Option<bool> {
    match arguments {
        ["selftest", cases, clashes] => Some(selftest::run(Path::new(cases), Path::new(clashes))),
        ["examples", examples, "--write"] => Some(examples::write_anew(Path::new(examples))),
        ["examples", examples, folder, sequencer] => Some(examples::run(Path::new(examples), Path::new(folder), Path::new(sequencer))),
        ["print", folder] => Some(print(program::print, Path::new(folder))),
        ["list", folder] => Some(print(lister::print, Path::new(folder))),
        [what, seed, count, rest @ ..] => run_cases(what, seed.parse().ok()?, count.parse().ok()?, rest),
        _ => None,
    }
}

/// Runs the cases of a comparison, or one of them; `rest` has the paths that it takes, and that one.
fn run_cases(what: &str, seed: u64, count: u64, rest: &[&str]) -> Option<bool> {
    let paths = match what {
        "program" => 3,
        "mutations" => 5,
        _ => 0,
    };
    let (paths, only) = rest.split_at_checked(paths)?;
    let cases = Cases { what, seed, count, only: one(only)?, note: Note::open() };
    let mut tally = Tally::default();
    println!("{what}, seed {seed}");
    match paths {
        [] => compare_calls(&cases, &mut tally)?,
        _ => compare_programs(&cases, &mut tally, paths)?,
    }
    Some(tally.finish())
}

/// Runs the programs, on texts of the cases or on hand-written ones that they change.
fn compare_programs(cases: &Cases, tally: &mut Tally, paths: &[&str]) -> Option<()> {
    let [hand_written @ .., folder, sequencer, clashes] = paths else { return None };
    if let Some(runs) = Runs::prepare(tally, Path::new(folder), [sequencer, clashes].map(Path::new)) {
        match hand_written {
            [texts, clash_texts] => mutations::run(cases, tally, [texts, clash_texts].map(Path::new), &runs),
            _ => run_program::run(cases, tally, &runs),
        }
    }
    Some(())
}

/// Compares calls of the archives; nothing if there is no such comparison.
fn compare_calls(cases: &Cases, tally: &mut Tally) -> Option<()> {
    let run = match cases.what {
        "smaller" => smaller_test::run,
        "tables" => compare_tables::run,
        "texts" => compare_texts::run,
        "demand3" => demand3::run,
        "flags" => compare_flags::run,
        "ends" => compare_ends::run,
        "substitution" => substitution::run,
        "properties" => properties::run,
        "readback" => readback::run,
        _ => return None,
    };
    run(cases, tally);
    Some(())
}

/// Prints what a program has to print in a folder.
fn print(print: fn(Option<&[u8]>, Option<&[u8]>) -> Vec<u8>, folder: &Path) -> bool {
    let [module, plan] = selftest::files(folder);
    std::io::stdout().write_all(&print(module.as_deref(), plan.as_deref())).is_ok()
}

/// The case that is asked for alone, if one is.
fn one(arguments: &[&str]) -> Option<Option<u64>> {
    match arguments {
        [] => Some(None),
        [case] => Some(Some(case.parse().ok()?)),
        _ => None,
    }
}
