//! The driver's own test. Properties that are known to be false are broken by some case of every seed; made smaller, that case has to be the least
//! one there is, whatever the seed; and its number, or the list of its draws, has to give the same case again.

use crate::cases::{failing, Cases};
use crate::random::Random;
use crate::smaller::{smallest, Failing};
use crate::table::SIGNALS;
use crate::tally::Tally;

type Case = fn(&mut Random, &mut Tally);

/// Pairs cases that try a false property with what is said last of the least one that breaks it.
const FALSE: &[(Case, &str)] = &[
    (no_number_above_100, "[101]"),
    (is_sorted, "[1, 0]"),
    (panics_at_four, "[0, 0, 0, 0]"),
    (no_list_of_three, "[[0, 0, 0]]"),
    (no_step_by_signal_31, "[(0, 31, 0)]"),
];

/// Draws a seed of its own for each case of the test.
pub fn run(cases: &Cases, tally: &mut Tally) {
    cases.run(tally, |r, tally| {
        let seed = r.below(1 << 32) as u64;
        FALSE.iter().for_each(|(case, least)| try_false(tally, seed, *case, least));
    });
}

fn try_false(tally: &mut Tally, seed: u64, mut case: Case, least: &str) {
    const MOST_CASES: u64 = 10_000;
    let mut fails = |r: Random| failing(r, &mut Tally::default(), &mut case);
    let first = (0..MOST_CASES).find_map(|number| Some((number, fails(Random::of_case(seed, number))?)));
    let Some((number, first)) = first else {
        return tally.check(false, || format!("seed {seed}: no case breaks the property that {least} breaks"));
    };
    let again = [fails(Random::of_case(seed, number)), fails(Random::of_draws(first.draws.clone()))];
    let is_same = |again: &Failing| again.failure.words == first.failure.words && again.draws == first.draws;
    let are_same = again.iter().flatten().filter(|again| is_same(again)).count() == again.len();
    tally.check(are_same, || format!("seed {seed}, case {number} is another when it runs again"));
    let found = smallest(first, |draws| fails(Random::of_draws(draws))).failure.words;
    tally.check(found.lines().last() == Some(least), || format!("seed {seed}, case {number}: expected {least}, is {found}"));
}

fn some_numbers(r: &mut Random) -> Vec<usize> {
    (0..r.below(20)).map(|_| r.below(1_000)).collect()
}

fn no_number_above_100(r: &mut Random, tally: &mut Tally) {
    let numbers = some_numbers(r);
    tally.check(numbers.iter().all(|&number| number <= 100), || format!("{numbers:?}"));
}

fn is_sorted(r: &mut Random, tally: &mut Tally) {
    let numbers = some_numbers(r);
    tally.check(numbers.is_sorted(), || format!("{numbers:?}"));
}

fn panics_at_four(r: &mut Random, _: &mut Tally) {
    let numbers = some_numbers(r);
    assert!(numbers.len() < 4, "{numbers:?}");
}

fn no_list_of_three(r: &mut Random, tally: &mut Tally) {
    let lists: Vec<Vec<usize>> = (0..r.below(6)).map(|_| (0..r.below(6)).map(|_| r.below(9)).collect()).collect();
    tally.check(lists.iter().all(|list| list.len() < 3), || format!("{lists:?}"));
}

fn no_step_by_signal_31(r: &mut Random, tally: &mut Tally) {
    let steps: Vec<(usize, usize, usize)> = (0..r.below(20)).map(|_| (r.below(6), r.below(SIGNALS), r.below(6))).collect();
    tally.check(steps.iter().all(|step| step.1 != SIGNALS - 1), || format!("{steps:?}"));
}
