//! The count of what passed and failed, how often each outcome occurred, and which ones have to.

use std::collections::BTreeMap;
use std::panic::Location;

#[derive(Default)]
pub struct Tally {
    passed: u64,
    failed: u64,
    seen: BTreeMap<String, u64>,
    /// Holds how often an outcome has to occur.
    asked: BTreeMap<String, u64>,
    in_case: bool,
    /// Holds the first failure of the case that runs.
    failure: Option<Failure>,
}

/// What is said of a failed check, and where the check stands: by that it is known again.
pub struct Failure {
    pub words: String,
    pub place: &'static Location<'static>,
}

const MOST_SHOWN: u64 = 20;

/// Shows a list: the first of it, and how many more there are.
pub fn first_of<T: std::fmt::Debug>(list: &[T]) -> String {
    const MOST: usize = 100;
    let more = list.len().saturating_sub(MOST);
    let first = format!("{:?}", &list[..list.len() - more]);
    if more == 0 { first } else { format!("{first} and {more} more") }
}

impl Tally {
    /// Counts one check. What it says of a failure is shown at once, for the first failures alone; within a case the driver shows it.
    #[track_caller]
    pub fn check(&mut self, holds: bool, say: impl FnOnce() -> String) {
        if holds {
            self.passed += 1;
            return;
        }
        self.failed += 1;
        let place = Location::caller();
        if self.in_case {
            self.failure.get_or_insert_with(|| Failure { words: say(), place });
        } else if self.failed <= MOST_SHOWN {
            println!("failed: {}", say());
        }
    }

    pub fn begin_case(&mut self) {
        self.in_case = true;
    }

    /// Ends the case; returns its first failure.
    pub fn end_case(&mut self) -> Option<Failure> {
        self.in_case = false;
        self.failure.take()
    }

    pub fn saw(&mut self, outcome: &str) {
        self.saw_many(outcome, 1);
    }

    pub fn saw_many(&mut self, outcome: &str, times: u64) {
        *self.seen.entry(outcome.to_string()).or_default() += times;
    }

    /// Asks, before the cases run, for an outcome that can occur: a comparison that never meets it would say nothing about it.
    pub fn must_have_seen(&mut self, outcome: &str) {
        self.must_have_seen_at_least(outcome, 1);
    }

    /// Asks that an outcome which a comparison is about is frequent.
    pub fn must_have_seen_at_least(&mut self, outcome: &str, times: u64) {
        self.asked.insert(outcome.to_string(), times);
    }

    /// Tells whether nothing failed so far, and yet an outcome that is asked for has not occurred.
    pub fn has_more_to_see(&self) -> bool {
        self.failed == 0 && self.asked.iter().any(|(outcome, times)| self.times_seen(outcome) < *times)
    }

    fn times_seen(&self, outcome: &str) -> u64 {
        self.seen.get(outcome).copied().unwrap_or_default()
    }

    /// Asks for nothing where a check failed: no more cases are run for an outcome then.
    fn check_outcomes(&mut self) {
        if self.failed > 0 {
            return;
        }
        for (outcome, times) in std::mem::take(&mut self.asked) {
            let seen = self.times_seen(&outcome);
            self.check(seen >= times, || format!("the outcome '{outcome}' occurred {seen} times, expected at least {times}"));
        }
    }

    /// Checks that the outcomes asked for occurred if nothing failed, and prints all outcomes and the last line; whether all passed.
    pub fn finish(mut self) -> bool {
        self.check_outcomes();
        for (outcome, times) in &self.seen {
            println!("{times:>9} {outcome}");
        }
        println!("{} passed, {} failed", self.passed, self.failed);
        self.failed == 0 && self.passed > 0
    }
}
