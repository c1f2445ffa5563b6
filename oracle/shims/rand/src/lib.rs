//! Stand-in for `rand`: every random choice follows 01, "Random choices", and 02, S-6, over a lent draw list.

use std::{
    ops::Range,
    sync::{
        atomic::{AtomicU64, Ordering},
        Arc,
    },
};

/// The lent draw list together with the place reached in it.
#[derive(Clone, Debug)]
pub struct Draws {
    list: Arc<[u32]>,
    place: usize,
}

impl Draws {
    pub fn new(list: impl Into<Arc<[u32]>>) -> Self {
        Self {
            list: list.into(),
            place: 0,
        }
    }

    /// The number of draws used so far.
    pub fn place(&self) -> usize {
        self.place
    }
}

pub mod rngs {
    pub use crate::Draws as ThreadRng;
}

pub trait Rng {
    fn next_u32(&mut self) -> u32;
}

impl Rng for Draws {
    fn next_u32(&mut self) -> u32 {
        let Some(draw) = self.list.get(self.place) else {
            refusal::refuse(refusal::DRAWS)
        };
        self.place += 1;
        *draw
    }
}

/// The most items of a choice.
pub const MOST_ITEMS: usize = 32;

/// How often a choice among so many items passed over a draw, in this process.
pub struct Passed([AtomicU64; MOST_ITEMS + 1]);

/// Picks, and the places of shuffles.
pub static PICKS: Passed = Passed::none();
pub static SHUFFLES: Passed = Passed::none();

impl Passed {
    const fn none() -> Self {
        Self([const { AtomicU64::new(0) }; MOST_ITEMS + 1])
    }

    /// By the number of items.
    pub fn counts(&self) -> [u64; MOST_ITEMS + 1] {
        std::array::from_fn(|items| self.0[items].load(Ordering::Relaxed))
    }

    /// One of n places: the first draw below the largest multiple of n not above 2^32 decides, and those before it are passed over.
    fn place<R: Rng + ?Sized>(&self, count: usize, rng: &mut R) -> usize {
        let multiple = (1 << 32) / count as u64 * count as u64;
        loop {
            let draw = u64::from(rng.next_u32());
            if draw < multiple {
                return (draw % count as u64) as usize;
            }
            self.0[count].fetch_add(1, Ordering::Relaxed);
        }
    }
}

/// A range that draws pick a value of.
pub trait SampleRange<T> {
    fn sample<R: Rng + ?Sized>(self, rng: &mut R) -> T;
}

impl SampleRange<usize> for Range<usize> {
    fn sample<R: Rng + ?Sized>(self, rng: &mut R) -> usize {
        self.start + PICKS.place(self.end - self.start, rng)
    }
}

impl SampleRange<f64> for Range<f64> {
    /// Exact for 0.75..1.25: the value is (3 * 2^31 + draw) / 2^33. No draw is passed over.
    fn sample<R: Rng + ?Sized>(self, rng: &mut R) -> f64 {
        self.start + (self.end - self.start) * (f64::from(rng.next_u32()) / 2f64.powi(32))
    }
}

pub trait RngExt: Rng {
    fn random_range<T, S: SampleRange<T>>(&mut self, range: S) -> T {
        range.sample(self)
    }
}

impl<R: Rng + ?Sized> RngExt for R {}

pub mod seq {
    use crate::{Rng, RngExt, SHUFFLES};

    pub trait IteratorRandom: Iterator + Sized {
        /// One of n items: none if n = 0, else item d mod n, where d is the first draw kept.
        fn choose<R: Rng + ?Sized>(self, rng: &mut R) -> Option<Self::Item> {
            let mut items: Vec<_> = self.collect();
            if items.is_empty() {
                return None;
            }
            let index = rng.random_range(0..items.len());
            Some(items.swap_remove(index))
        }
    }

    impl<I: Iterator> IteratorRandom for I {}

    pub trait SliceRandom {
        fn shuffle<R: Rng + ?Sized>(&mut self, rng: &mut R);
    }

    impl<T> SliceRandom for [T] {
        /// For i from n - 1 down to 1, swap places i and (d mod (i + 1)), where d is the first draw kept for i + 1.
        fn shuffle<R: Rng + ?Sized>(&mut self, rng: &mut R) {
            for i in (1..self.len()).rev() {
                self.swap(i, SHUFFLES.place(i + 1, rng));
            }
        }
    }
}
