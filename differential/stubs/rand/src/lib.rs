//! A `rand` of our own: what the original program uses of rand 0.8, with the draws of RULES 3.2.
//! Each draw takes one word w: unit floor(w / 2^11) / 2^53, coin w < 2^63, pick from 0 to i w mod (i + 1).

use std::ops::{Range, RangeInclusive};

/// Where the words come from.
pub trait RngCore {
    fn next_u64(&mut self) -> u64;
}

/// A value drawn by `Rng::gen`.
pub trait Drawn {
    fn of_word(w: u64) -> Self;
}

impl Drawn for f64 {
    fn of_word(w: u64) -> f64 {
        // Both steps are exact: a whole number below 2^53, and a division by a power of two.
        (w >> 11) as f64 / 9007199254740992.0
    }
}

impl Drawn for bool {
    fn of_word(w: u64) -> bool {
        w < 1 << 63
    }
}

impl Drawn for u64 {
    fn of_word(w: u64) -> u64 {
        w
    }
}

/// A range that `Rng::gen_range` picks from: its first value and how many there are, less one.
pub trait Picked {
    fn first_and_last(self) -> (usize, usize);
}

impl Picked for Range<usize> {
    fn first_and_last(self) -> (usize, usize) {
        assert!(self.start < self.end, "an empty range has no pick");
        (self.start, self.end - self.start - 1)
    }
}

impl Picked for RangeInclusive<usize> {
    fn first_and_last(self) -> (usize, usize) {
        assert!(self.start() <= self.end(), "an empty range has no pick");
        (*self.start(), self.end() - self.start())
    }
}

pub trait Rng: RngCore {
    fn gen<T: Drawn>(&mut self) -> T {
        T::of_word(self.next_u64())
    }

    /// RULES 3.2 knows one coin, the fair one.
    fn gen_bool(&mut self, p: f64) -> bool {
        assert!(p == 0.5, "RULES 3.2 has a fair coin and no other");
        self.gen::<bool>()
    }

    fn gen_range<R: Picked>(&mut self, range: R) -> usize {
        let (first, last) = range.first_and_last();
        let w = self.next_u64();
        let count = last as u64 + 1;
        first + (w % count) as usize
    }
}

impl<R: RngCore + ?Sized> Rng for R {}

pub trait SeedableRng: Sized {
    fn seed_from_u64(seed: u64) -> Self;
}

pub mod seq {
    use crate::Rng;

    pub trait SliceRandom {
        type Item;
        fn choose<R: Rng + ?Sized>(&self, rng: &mut R) -> Option<&Self::Item>;
        fn shuffle<R: Rng + ?Sized>(&mut self, rng: &mut R);
    }

    impl<T> SliceRandom for [T] {
        type Item = T;

        fn choose<R: Rng + ?Sized>(&self, rng: &mut R) -> Option<&T> {
            if self.is_empty() {
                return None;
            }
            Some(&self[rng.gen_range(0..self.len())])
        }

        /// Picks for i from count - 1 down to 1, swap.
        fn shuffle<R: Rng + ?Sized>(&mut self, rng: &mut R) {
            for i in (1..self.len()).rev() {
                let j = rng.gen_range(0..=i);
                self.swap(i, j);
            }
        }
    }
}
