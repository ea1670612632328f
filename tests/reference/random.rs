//! What a case draws: from a small seeded generator, so that seed and number alone repeat the case; or from a list of draws, so that a failed case
//! can be made smaller by changing the list.

pub struct Random {
    source: Source,
    draws: Vec<u64>,
}

enum Source {
    Case { number: u64, state: u64 },
    List(Vec<u64>),
}

impl Random {
    /// The stream of one case. The numbers are spread first: neighbouring cases must not look alike.
    pub fn of_case(seed: u64, case: u64) -> Random {
        let state = spread(seed ^ spread(case)) | 1;
        Random { source: Source::Case { number: case, state }, draws: Vec::new() }
    }

    /// Draws from the list, and 0 when it is used up.
    pub fn of_draws(draws: Vec<u64>) -> Random {
        Random { source: Source::List(draws), draws: Vec::new() }
    }

    /// All that was drawn, without zeros at the end: drawn again from this list, the case is the same.
    pub fn into_draws(mut self) -> Vec<u64> {
        let length = self.draws.iter().rposition(|&draw| draw != 0).map_or(0, |last| last + 1);
        self.draws.truncate(length);
        self.draws
    }

    /// Every draw passes here and is kept. Where a case can choose, 0 should be the plainest choice: a smaller case has smaller draws.
    pub fn below(&mut self, bound: usize) -> usize {
        let number = match &mut self.source {
            Source::Case { state, .. } => next(state),
            Source::List(draws) => draws.get(self.draws.len()).copied().unwrap_or(0),
        };
        self.keep(number % bound as u64)
    }

    /// Takes a number up to `most` that is not left to chance; it is kept as a draw, so that a smaller case may have a smaller one.
    pub fn given(&mut self, number: usize, most: usize) -> usize {
        match self.source {
            Source::Case { .. } => self.keep(number as u64),
            Source::List(_) => self.below(most + 1),
        }
    }

    /// Gives the first cases so many kinds, one each: 1 to the first case, 2 to the second; then 0, which is for any kind.
    pub fn kind_of_first_cases(&mut self, kinds: usize) -> usize {
        let kind = match self.source {
            Source::Case { number, .. } if number < kinds as u64 => number as usize + 1,
            _ => 0,
        };
        self.given(kind, kinds)
    }

    fn keep(&mut self, draw: u64) -> usize {
        self.draws.push(draw);
        draw as usize
    }

    pub fn between(&mut self, least: usize, most: usize) -> usize {
        least + self.below(most - least + 1)
    }

    /// True in so many of a hundred cases.
    pub fn percent(&mut self, chance: usize) -> bool {
        self.below(100) >= 100 - chance
    }

    pub fn pick<T: Clone>(&mut self, of: &[T]) -> T {
        of[self.below(of.len())].clone()
    }

    pub fn shuffle<T>(&mut self, of: &mut [T]) {
        for last in (1..of.len()).rev() {
            let other = last - self.below(last + 1);
            of.swap(last, other);
        }
    }
}

/// Xorshift, with a multiplication to even out the bits.
fn next(state: &mut u64) -> u64 {
    *state ^= *state >> 12;
    *state ^= *state << 25;
    *state ^= *state >> 27;
    state.wrapping_mul(0x2545_f491_4f6c_dd1d) >> 16
}

fn spread(number: u64) -> u64 {
    let once = number.wrapping_add(0x9e37_79b9_7f4a_7c15).wrapping_mul(0xbf58_476d_1ce4_e5b9);
    let twice = (once ^ once >> 27).wrapping_mul(0x94d0_49bb_1331_11eb);
    twice ^ twice >> 31
}
