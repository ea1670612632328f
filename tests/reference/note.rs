//! A note of the case that runs, for whoever started the process: a case that ends the process by a signal, or never ends, cannot name itself.

use std::fs::File;
use std::io::Result;
use std::os::unix::fs::FileExt;

const PATH: &str = "REFERENCE_CASE";

/// The file that the environment names, if it names one.
pub struct Note(Option<File>);

impl Note {
    pub fn open() -> Note {
        Note(std::env::var_os(PATH).map(|path| done(File::create(path))))
    }

    /// Writes the number over the one before, all in the same width: one write for each case.
    pub fn write(&self, number: u64) {
        if let Some(file) = &self.0 {
            done(file.write_all_at(format!("{number:20}\n").as_bytes(), 0));
        }
    }

    /// Leaves the file empty: no case runs any more.
    pub fn clear(&self) {
        if let Some(file) = &self.0 {
            done(file.set_len(0));
        }
    }
}

/// Ends the process where the file cannot be written. A panic would be taken for one of a case.
fn done<T>(result: Result<T>) -> T {
    result.unwrap_or_else(|error| {
        eprintln!("the file that {PATH} names cannot be written: {error}");
        std::process::exit(1)
    })
}
