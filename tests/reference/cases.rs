//! The one driver of all random comparisons: it runs case after case, or one of them alone, names those that fail, and shows the smallest cases that
//! it finds from them.

use crate::note::Note;
use crate::random::Random;
use crate::smaller::{smallest, Failing};
use crate::tally::Tally;
use std::cell::RefCell;
use std::ops::Range;
use std::panic::{catch_unwind, set_hook, take_hook, AssertUnwindSafe};

/// How many failing cases of a run are named and made smaller, and of how many checks that fail a case is shown.
const MOST_NAMED: usize = 8;
const MOST_SHOWN: usize = 3;

/// How many times its count of cases a run may take until all outcomes that are asked for have occurred, and after how many more it looks again.
const MOST_TIMES: u64 = 40;
const MORE_CASES: u64 = 50;

/// How many cases a comparison takes, and by which seed. `only` asks for one case alone.
pub struct Cases<'a> {
    pub what: &'a str,
    pub seed: u64,
    pub count: u64,
    pub only: Option<u64>,
    /// Takes the number of each case before it runs.
    pub note: Note,
}

impl Cases<'_> {
    /// Runs the cases, and some more while outcomes that the tally is asked for are missing: so chance alone lets no run fail. A case draws
    /// everything from its `Random`, so that seed and number repeat it.
    pub fn run(&self, tally: &mut Tally, mut case: impl FnMut(&mut Random, &mut Tally)) {
        let hook = take_hook();
        set_hook(Box::new(|panic| PANIC.set(panic.to_string())));
        let mut failed = self.run_some(self.only.map_or(0..self.count, |number| number..number + 1), tally, &mut case);
        let mut next = self.count;
        while self.only.is_none() && next < self.count * MOST_TIMES && tally.has_more_to_see() {
            failed.extend(self.run_some(next..next + MORE_CASES, tally, &mut case));
            next += MORE_CASES;
        }
        self.show_smallest(failed, &mut case);
        self.note.clear();
        set_hook(hook);
    }

    /// Runs these cases; returns the first that fail.
    fn run_some(&self, numbers: Range<u64>, tally: &mut Tally, case: &mut impl FnMut(&mut Random, &mut Tally)) -> Vec<(u64, Failing)> {
        let mut failed = Vec::new();
        for number in numbers {
            self.note.write(number);
            let failing = failing(Random::of_case(self.seed, number), tally, case);
            if let Some(failing) = failing.filter(|_| failed.len() < MOST_NAMED) {
                self.name(number, &failing);
                failed.push((number, failing));
            }
        }
        failed
    }

    /// Tells whether all cases run, and at least so many: only then does a comparison ask that rare outcomes occur.
    pub fn are_at_least(&self, count: u64) -> bool {
        self.only.is_none() && self.count >= count
    }

    /// Says how to run a failed case again; one that runs alone is shown as it is.
    fn name(&self, number: u64, failing: &Failing) {
        let Cases { what, seed, .. } = self;
        println!("failed: {what}, seed {seed}, case {number}; run again: bash tests/reference.sh {what} {seed} {number}");
        if self.only.is_some() {
            println!("  {}", failing.words());
        }
    }

    /// Makes the failed cases smaller, and shows one for each check that fails: the one of fewest words.
    fn show_smallest(&self, failed: Vec<(u64, Failing)>, case: &mut impl FnMut(&mut Random, &mut Tally)) {
        let mut shown = Vec::new();
        for (number, failing) in failed {
            self.note.write(number);
            let draws = failing.draws.clone();
            let found = smallest(failing, |draws| self::failing(Random::of_draws(draws), &mut Tally::default(), case));
            let how = if found.draws == draws { "as it is" } else { "made smaller" };
            shown.push((format!("case {number}, {how}: {}", found.words()), found.failure.place));
        }
        shown.sort_by_key(|(words, _)| words.len());
        let mut places = Vec::new();
        shown.retain(|(_, place)| {
            let is_new = !places.contains(place);
            places.push(*place);
            is_new
        });
        shown.iter().take(MOST_SHOWN).for_each(|(words, _)| println!("{words}"));
    }
}

thread_local! {
    /// Holds what was said of the last panic.
    static PANIC: RefCell<String> = const { RefCell::new(String::new()) };
}

/// Runs a case; returns it if a check failed or it panicked.
pub fn failing(mut r: Random, tally: &mut Tally, case: &mut impl FnMut(&mut Random, &mut Tally)) -> Option<Failing> {
    tally.begin_case();
    let has_panicked = catch_unwind(AssertUnwindSafe(|| case(&mut r, tally))).is_err();
    if has_panicked {
        tally.check(false, || PANIC.take());
    }
    let failure = tally.end_case()?;
    Some(Failing { draws: r.into_draws(), failure, has_panicked })
}
