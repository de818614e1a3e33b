//! Random numbers that are the same for the same seed, on every machine.
use crate::evaluate::greatest;

/// What a stream of numbers is for, so that one seed gives each use a stream of its own.
#[derive(Clone, Copy)]
pub enum Use {
    Graph = 1,
    Damage,
    View,
    Question,
    Bench,
}

/// SplitMix64.
pub struct Random(u64);

impl Random {
    /// The stream of the so many-th thing of a use.
    pub fn new(seed: u64, of: Use, index: u64) -> Random {
        let mut random = Random(seed);
        for word in [of as u64, index] {
            random.0 = random.next() ^ word;
        }
        random
    }

    pub fn next(&mut self) -> u64 {
        self.0 = self.0.wrapping_add(0x9e3779b97f4a7c15);
        let mut z = self.0;
        z = (z ^ (z >> 30)).wrapping_mul(0xbf58476d1ce4e5b9);
        z = (z ^ (z >> 27)).wrapping_mul(0x94d049bb133111eb);
        z ^ (z >> 31)
    }

    /// A number below a bound; 0 if the bound is.
    pub fn below(&mut self, bound: usize) -> usize {
        (self.next() % bound.max(1) as u64) as usize
    }

    pub fn chance(&mut self, percent: usize) -> bool {
        self.below(100) < percent
    }

    pub fn pick<T: Copy>(&mut self, of: &[T]) -> T {
        of[self.below(of.len())]
    }

    /// The numbers below a count in some order.
    pub fn order(&mut self, count: usize) -> Vec<usize> {
        let mut order: Vec<usize> = (0..count).collect();
        for last in (1..count).rev() {
            order.swap(last, self.below(last + 1));
        }
        order
    }

    /// A number of a width, often at the ends of its ranges or near the width.
    pub fn number(&mut self, width: u16) -> u64 {
        let greatest = greatest(width);
        let half = 1 << (width - 1);
        let bits = u64::from(width);
        let number = match self.below(12) {
            0 => 0,
            1 => 1,
            2 => greatest,
            3 => half,
            4 => half - 1,
            5 => half + 1,
            6 => greatest - 1,
            7 => self.below(2 * usize::from(width) + 2) as u64,
            8 => bits,
            9 => bits - 1,
            _ => self.next(),
        };
        number & greatest
    }
}
