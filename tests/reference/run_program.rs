//! The two programs themselves, run in a scratch folder on files, against what the reference prints.

use crate::cases::Cases;
use crate::compare_texts::{headline, shown};
use crate::random::Random;
use crate::random_texts::{text_of_length, text_pair};
use crate::tally::Tally;
use crate::{lister, orders, program, spellings};
use std::fs;
use std::path::{Path, PathBuf};
use std::process::{Command, Stdio};

/// What stands under a file's name.
pub enum Content {
    Missing,
    Folder,
    Bytes(Vec<u8>),
}
use Content::{Bytes, Folder, Missing};

impl Content {
    fn bytes(&self) -> Option<&[u8]> {
        match self {
            Bytes(bytes) => Some(bytes),
            Missing | Folder => None,
        }
    }

    fn shown(&self) -> String {
        self.bytes().map_or("no file".to_string(), shown)
    }

    fn place(self: &Content, path: &Path) -> std::io::Result<()> {
        clear(path)?;
        match self {
            Missing => Ok(()),
            Folder => fs::create_dir(path),
            Bytes(bytes) => fs::write(path, bytes),
        }
    }
}

fn clear(path: &Path) -> std::io::Result<()> {
    if path.is_dir() {
        fs::remove_dir(path)
    } else if path.exists() {
        fs::remove_file(path)
    } else {
        Ok(())
    }
}

/// What a program is to print for its two files.
type Print = fn(Option<&[u8]>, Option<&[u8]>) -> Vec<u8>;

/// A program, how its outcomes are named here, and what it is to print.
struct Program {
    path: PathBuf,
    name: &'static str,
    print: Print,
}

const MAIN: &str = "program";
const LISTER: &str = "clashes";

/// The two programs, and the scratch folder that they are run in.
pub struct Runs {
    folder: PathBuf,
    programs: [Program; 2],
}

impl Runs {
    /// Makes the folder if it is not there. Gives nothing where that fails or a program, `main` or the lister of clashes, is missing.
    pub fn prepare(tally: &mut Tally, folder: &Path, [main, lister]: [&Path; 2]) -> Option<Runs> {
        let program = |path: &Path, name, print| path.canonicalize().map(|path| Program { path, name, print });
        let programs = [program(main, MAIN, program::print as Print), program(lister, LISTER, lister::print)];
        let is_made = fs::create_dir_all(folder).is_ok();
        let runs = match programs {
            [Ok(main), Ok(lister)] if is_made => Some(Runs { folder: folder.to_path_buf(), programs: [main, lister] }),
            _ => None,
        };
        tally.check(runs.is_some(), || format!("no folder {}, or no program {} or {}", folder.display(), main.display(), lister.display()));
        runs
    }

    fn files(&self) -> [PathBuf; 2] {
        ["module.tab", "plan.tab"].map(|name| self.folder.join(name))
    }

    /// Places the two files, and runs each program on them.
    pub fn compare(&self, tally: &mut Tally, module: &Content, plan: &Content) {
        let [module_file, plan_file] = self.files();
        let placed = module.place(&module_file).and_then(|()| plan.place(&plan_file));
        tally.check(placed.is_ok(), || "the files cannot be written".to_string());
        for Program { path, name, print } in &self.programs {
            let expected = print(module.bytes(), plan.bytes());
            tally.saw(&format!("{name}: {}", said(&expected)));
            orders::record(tally, name, &expected);
            let output = output_of(path, &self.folder);
            tally.check(output.as_ref() == Ok(&expected), || {
                let said = output.map_or_else(|error| error, |output| shown(&output));
                format!("{name}\n  {}\n  {}\n  expected {}\n  is       {said}", module.shown(), plan.shown(), shown(&expected))
            });
        }
    }

    /// Removes the two files.
    pub fn clear(&self, tally: &mut Tally) {
        for file in self.files() {
            tally.check(clear(&file).is_ok(), || format!("{} cannot be removed", file.display()));
        }
    }
}

pub fn run(cases: &Cases, tally: &mut Tally, runs: &Runs) {
    if cases.are_at_least(30) {
        ask_for_all_outcomes(tally);
    }
    cases.run(tally, |r, tally| {
        let (module, plan) = random_files(r);
        runs.compare(tally, &module, &plan);
    });
    runs.clear(tally);
}

/// Runs a program in a folder; gives what it prints if it ends well and says nothing on standard error, else what became of it.
pub fn output_of(program: &Path, folder: &Path) -> Result<Vec<u8>, String> {
    let run = Command::new(program).current_dir(folder).stdin(Stdio::null()).output().map_err(|error| error.to_string())?;
    if run.status.code() == Some(0) && run.stderr.is_empty() {
        return Ok(run.stdout);
    }
    Err(format!("{}, {}, {}", run.status, shown(&run.stdout), shown(&run.stderr)))
}

/// What is printed, for the count of outcomes: of clashes how many lines there are, else a verdict or a refusal.
fn said(printed: &[u8]) -> String {
    match spellings::rows(printed).map(|rows| rows.len()) {
        Some(0) => "no clash".to_string(),
        Some(1) => "one clash".to_string(),
        Some(_) => "several clashes".to_string(),
        None => headline(printed),
    }
}

fn ask_for_all_outcomes(tally: &mut Tally) {
    for name in [MAIN, LISTER] {
        for number in [10, 13, 22, 24] {
            tally.must_have_seen(&format!("{name}: refused {number} of 1"));
            tally.must_have_seen(&format!("{name}: refused {number} of 2"));
        }
    }
    for outcome in ["verdict yes", "verdict none", "refused  8 of 0", "refused  9 of 0", "refused 10 of 0", "refused 28 of 1", "refused 28 of 2"] {
        tally.must_have_seen(&format!("{MAIN}: {outcome}"));
    }
    for outcome in ["no clash", "one clash", "several clashes"] {
        tally.must_have_seen(&format!("{LISTER}: {outcome}"));
    }
    orders::ask(tally, MAIN);
}

/// The first cases are files that can't be read and files at the limit, in both places; the rest are random.
fn random_files(r: &mut Random) -> (Content, Content) {
    let kind = r.kind_of_first_cases(17);
    let (module, plan) = text_pair(r);
    let (module, plan) = (Bytes(module), Bytes(plan));
    match kind {
        1 => (Missing, plan),
        2 => (module, Missing),
        3 => (Missing, Missing),
        4 => (Folder, plan),
        5 => (module, Folder),
        6 => (Folder, Missing),
        7 => (Bytes(b"no table".to_vec()), Missing),
        8 => (Bytes(text_of_length(65_536)), plan),
        9 => (Bytes(text_of_length(65_537)), plan),
        10 => (of_states(1), Bytes(text_of_length(65_536))),
        11 => (of_states(1), Bytes(text_of_length(65_537))),
        12 => (Bytes(Vec::new()), plan),
        13 => (of_states(1), Bytes(Vec::new())),
        14 => (of_states(1_025), plan),
        15 => (of_states(1_024), of_states(1_025)),
        16 => (of_states(1_024), of_states(1_024)),
        17 => (of_states(41), of_states(25)),
        _ => (module, plan),
    }
}

/// A text without signals, of so many states: 1,024 are read by either program, and 1,025 are more than there are cells for.
fn of_states(states: usize) -> Content {
    Bytes(format!("table\tt\t{states}\t0\n").into_bytes())
}
