//! A lent buffer: what stands in it before the call is arbitrary, and cells before and behind it must stay as they are.

use crate::random::Random;

const GUARD: usize = 24;

#[derive(Clone, PartialEq, Eq)]
pub struct Lent<T>(Vec<T>);

impl<T: Copy + PartialEq + TryFrom<usize> + std::fmt::Debug> Lent<T> {
    /// A buffer of arbitrary bytes or cells; small numbers, which look like results, among them.
    pub fn arbitrary(r: &mut Random, length: usize) -> Lent<T> {
        let bound = r.pick(&[2, 5, 256]);
        let (shift, spacing) = (r.below(bound), r.between(1, 7));
        // The contents begin anew after `bound` places: to copy what is there, twice as much each time, saves most of the time that a large
        // buffer takes.
        let mut contents: Vec<T> = (0..bound).filter_map(|place| T::try_from((place * spacing + shift) % bound).ok()).collect();
        while contents.len() < length + 2 * GUARD {
            contents.extend_from_within(..);
        }
        contents.truncate(length + 2 * GUARD);
        Lent(contents)
    }

    pub fn part(&mut self) -> &mut [T] {
        let end = self.0.len() - GUARD;
        &mut self.0[GUARD..end]
    }

    pub fn len(&self) -> usize {
        self.0.len() - 2 * GUARD
    }

    /// The first place where two buffers differ, counted from the start of the lent part, with both contents.
    pub fn difference(&self, other: &Lent<T>) -> Option<String> {
        let place = (0..self.0.len()).find(|&place| self.0[place] != other.0[place])?;
        Some(format!("at {}: expected {:?}, is {:?}", place as isize - GUARD as isize, self.0[place], other.0[place]))
    }
}
