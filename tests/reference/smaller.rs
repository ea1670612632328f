//! Makes a failed case smaller. A case is what it draws, so the list of its draws is made shorter, and the draws in it smaller, as long as the same
//! check fails; where a shorter list is used up, the case draws 0.

use crate::tally::{first_of, Failure};
use std::ops::Range;
use std::time::{Duration, Instant};

/// Bounds the work on one case.
const MOST_TRIES: u32 = 20_000;
const MOST_TIME: Duration = Duration::from_secs(2);

/// Up to this length a block of draws may be what belongs to one thing, wherever it begins.
const SHORT: usize = 8;

/// A case that fails, and all that it drew.
pub struct Failing {
    pub draws: Vec<u64>,
    pub failure: Failure,
    pub has_panicked: bool,
}

impl Failing {
    /// Says what failed. A panic says nothing of the case, so the draws stand beside it.
    pub fn words(&self) -> String {
        let words = &self.failure.words;
        if self.has_panicked { format!("{words}\n  draws {}", first_of(&self.draws)) } else { words.clone() }
    }
}

/// The smallest case found so far. `again` runs the case with other draws, and returns it if it fails.
struct Search<A> {
    best: Failing,
    again: A,
    tries: u32,
    start: Instant,
}

/// Returns the smallest case that was found to fail in the same check: the given one where there is none smaller.
pub fn smallest(failing: Failing, again: impl FnMut(Vec<u64>) -> Option<Failing>) -> Failing {
    let mut search = Search { best: failing, again, tries: 0, start: Instant::now() };
    while search.pass() {}
    search.best
}

impl<A: FnMut(Vec<u64>) -> Option<Failing>> Search<A> {
    /// Tries all ways to make the list smaller; says whether one of them did and there is time for a further pass.
    fn pass(&mut self) -> bool {
        let before = self.best.draws.clone();
        self.replace_blocks(|_| Vec::new());
        self.replace_blocks(|length| vec![0; length]);
        (0..before.len()).for_each(|place| self.lower(place));
        if self.best.draws == before {
            (0..before.len()).for_each(|place| self.lower_and_drop(place));
        }
        self.best.draws != before && !self.is_over()
    }

    fn is_over(&self) -> bool {
        self.tries >= MOST_TRIES || self.start.elapsed() >= MOST_TIME
    }

    /// Replaces blocks of draws, long ones first.
    fn replace_blocks(&mut self, replacement: fn(usize) -> Vec<u64>) {
        let mut length = self.best.draws.len();
        while length > 0 {
            self.replace_blocks_of(length, replacement);
            length = if length > SHORT { (length / 2).max(SHORT) } else { length - 1 };
        }
    }

    /// Replaces blocks of one length, from the last to the first; long ones stand side by side, short ones anywhere.
    fn replace_blocks_of(&mut self, length: usize, replacement: fn(usize) -> Vec<u64>) {
        let mut end = self.best.draws.len();
        while end >= length && !self.is_over() {
            let is_kept = self.keep(|draws| drop(draws.splice(end - length..end, replacement(length))));
            end -= if is_kept || length > SHORT { length } else { 1 };
            end = end.min(self.best.draws.len());
        }
    }

    /// Makes one draw as small as it can be: 0, or else the least that halving finds.
    fn lower(&mut self, place: usize) {
        let mut too_small = None;
        while let Some(&draw) = self.best.draws.get(place) {
            let least = too_small.map_or(0, |small| small + 1);
            if draw <= least || self.is_over() {
                return;
            }
            let tried = if too_small.is_none() { 0 } else { least + (draw - least) / 2 };
            if !self.keep(|draws| draws[place] = tried) {
                too_small = Some(tried);
            }
        }
    }

    /// Makes one draw smaller and drops a block behind it: a draw may say how many others follow.
    fn lower_and_drop(&mut self, place: usize) {
        let count = self.best.draws.len();
        let blocks = (1..=SHORT).flat_map(|length| (place + 1..count).map(move |start| start..start + length));
        for block in blocks.filter(|block| block.end <= count) {
            let Some(&draw) = self.best.draws.get(place) else { return };
            let smaller = [0, draw / 2, draw.saturating_sub(1)];
            if draw == 0 || self.is_over() || smaller.iter().any(|&to| self.keep_without(place, to, block.clone())) {
                return;
            }
        }
    }

    fn keep_without(&mut self, place: usize, to: u64, block: Range<usize>) -> bool {
        self.keep(|draws| {
            draws[place] = to;
            draws.drain(block);
        })
    }

    /// Changes the list, runs the case with it, and keeps what it draws if the same check fails and that is smaller. Says whether it is kept.
    fn keep(&mut self, change: impl FnOnce(&mut Vec<u64>)) -> bool {
        let mut draws = self.best.draws.clone();
        change(&mut draws);
        if self.is_over() || !is_smaller(&draws, &self.best.draws) {
            return false;
        }
        self.tries += 1;
        let fails_alike = |found: &Failing| found.failure.place == self.best.failure.place && is_smaller(&found.draws, &self.best.draws);
        let Some(found) = (self.again)(draws).filter(fails_alike) else { return false };
        self.best = found;
        true
    }
}

/// A shorter list is smaller; of two equally long ones it is the one with the smaller first difference.
fn is_smaller(one: &[u64], other: &[u64]) -> bool {
    (one.len(), one) < (other.len(), other)
}
