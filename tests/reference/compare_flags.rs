//! The count of kept flags: eight at a time, one by one and from C, against the reference; and what holds of every count. Beside the flags stand
//! bytes of 1, which no count may take. Words are taken four at a time, then one by one, and what is left singly: each of the three has to meet
//! every byte at every place that it has.

use crate::cases::Cases;
use crate::random::Random;
use crate::table::MOST_PAIRS;
use crate::tally::{first_of, Tally};
use crate::{archive, calls};
use std::collections::BTreeSet;

/// Bytes in a word; fewer stand before the flags, and so many behind them.
const WORD: usize = 8;

/// How many bytes there are.
const BYTES: usize = 256;

/// Bytes in four words.
const BLOCK: usize = 32;

const EMPTY: &str = "no flags";
const SINGLY: &str = "up to seven flags";
const WHOLE: &str = "whole words";
const REST: &str = "whole words and a rest";

type Count = fn(&[u8]) -> usize;

const WAYS: [(&str, Count); 3] =
    [("by eights", archive::count_kept), ("one by one", archive::count_singly), ("from C", archive::c_count_kept)];

/// The flags, and how many bytes of 1 stand before them.
struct Case {
    flags: Vec<u8>,
    start: usize,
}

pub fn run(cases: &Cases, tally: &mut Tally) {
    let mut met = Met::default();
    if cases.are_at_least(BYTES as u64) {
        for kind in [EMPTY, SINGLY, WHOLE, REST] {
            tally.must_have_seen_at_least(kind, cases.count / 50);
        }
    }
    cases.run(tally, |r, tally| {
        let case = some_case(r);
        tally.saw(kind(&case));
        met.add(&case.flags);
        let fault = wrong_count(&case).or_else(|| broken_property(r, &case));
        tally.check(fault.is_none(), || format!("{}, start {}\n  {}", fault.unwrap_or_default(), case.start, shown(&case.flags)));
    });
    if cases.are_at_least(BYTES as u64) {
        met.ask_for_all(tally);
    }
}

/// Which bytes have stood at which places: of four words, of a word, of what is left.
#[derive(Default)]
struct Met {
    blocks: BTreeSet<(usize, u8)>,
    words: BTreeSet<(usize, u8)>,
    rests: BTreeSet<(usize, u8)>,
}

impl Met {
    fn add(&mut self, flags: &[u8]) {
        let blocks = flags.chunks_exact(BLOCK);
        let words = blocks.remainder().chunks_exact(WORD);
        self.rests.extend(placed(words.remainder()));
        self.words.extend(words.flat_map(placed));
        self.blocks.extend(blocks.flat_map(placed));
    }

    fn ask_for_all(&self, tally: &mut Tally) {
        for (part, met, places) in [("four words", &self.blocks, BLOCK), ("a word", &self.words, WORD), ("a rest", &self.rests, WORD - 1)] {
            tally.check(met.len() == places * BYTES, || format!("of all bytes at all places of {part} {} occurred", met.len()));
        }
    }
}

fn placed(flags: &[u8]) -> impl Iterator<Item = (usize, u8)> + '_ {
    flags.iter().copied().enumerate()
}

/// Shows flags: where they are many, only those that are not 1, each with its place.
fn shown(flags: &[u8]) -> String {
    if flags.len() <= BLOCK + WORD + WORD {
        return format!("{flags:?}");
    }
    let others: Vec<(usize, u8)> = placed(flags).filter(|(_, flag)| *flag != 1).collect();
    format!("{} flags, all 1 but for {} (place, flag): {}", flags.len(), others.len(), first_of(&others))
}

fn kind(case: &Case) -> &'static str {
    match case.flags.len() {
        0 => EMPTY,
        1..=7 => SINGLY,
        length if length % WORD == 0 => WHOLE,
        _ => REST,
    }
}

/// Each of the first cases has four words, a word and a rest, and every byte comes once to every place of theirs. The other cases are random.
fn some_case(r: &mut Random) -> Case {
    match r.kind_of_first_cases(BYTES) {
        0 => random_case(r),
        kind => {
            let length = r.given(BLOCK + WORD + WORD - 1, BLOCK + WORD + WORD - 1);
            Case { flags: (0..length).map(|place| ((place + kind) % BYTES) as u8).collect(), start: r.below(WORD) }
        }
    }
}

/// Flags of 1 and others, those that differ from 1 in a single bit as frequent as the rest. Of the greatest lengths some are those of a fit with
/// the most pairs.
fn random_case(r: &mut Random) -> Case {
    let longest = r.pick(&[0, 7, 7, 40, 40, 40, 40, 600, 600, 5_000]);
    let length = if longest == 5_000 && r.percent(20) { MOST_PAIRS as usize } else { r.between(0, longest) };
    let flag = |_| match r.below(3 * BYTES) {
        0..=255 => 1,
        draw @ 256..=511 => 1 ^ 1 << (draw % 8),
        draw => (draw % BYTES) as u8,
    };
    let flags = (0..length).map(flag).collect();
    Case { flags, start: r.below(WORD) }
}

/// Counts flags where they begin so many bytes later.
fn count_at(start: usize, flags: &[u8], count: Count) -> usize {
    let room = [&vec![1; start], flags, &[1; WORD]].concat();
    count(&room[start..start + flags.len()])
}

fn wrong_count(case: &Case) -> Option<String> {
    let expected = calls::count_kept(&case.flags);
    WAYS.iter().find_map(|(way, count)| {
        let counted = count_at(case.start, &case.flags, *count);
        (counted != expected).then(|| format!("{way}: expected {expected}, is {counted}"))
    })
}

/// The reference is not asked: two parts have together what the whole has, in any order, and one flag more is one more.
fn broken_property(r: &mut Random, case: &Case) -> Option<String> {
    let count = |flags: &[u8]| count_at(case.start, flags, archive::count_kept);
    let all = count(&case.flags);
    let (front, back) = case.flags.split_at(r.between(0, case.flags.len()));
    if count(front) + count(back) != all {
        return Some(format!("cut at {}: {} and {}, {all} in all", front.len(), count(front), count(back)));
    }
    let mut mixed = case.flags.clone();
    r.shuffle(&mut mixed);
    if count(&mixed) != all {
        return Some(format!("{all}, in another order {}", count(&mixed)));
    }
    mixed.insert(r.between(0, mixed.len()), 1);
    (count(&mixed) != all + 1).then(|| format!("{all}, with one flag more {}", count(&mixed)))
}
