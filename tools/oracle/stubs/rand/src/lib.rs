//! Stands in for the random numbers that the Rust asks for: every choice is the first one, so
//! that the same command always gets the same answer.

pub struct FirstOnly;

pub fn rng() -> FirstOnly {
    FirstOnly
}

pub trait RngExt {
    fn random_range(&mut self, range: std::ops::Range<usize>) -> usize;
}

impl RngExt for FirstOnly {
    fn random_range(&mut self, range: std::ops::Range<usize>) -> usize {
        range.start
    }
}

pub mod seq {
    pub trait IndexedRandom {
        type Output;
        fn choose<R>(&self, rng: &mut R) -> Option<&Self::Output>;
    }

    impl<T> IndexedRandom for [T] {
        type Output = T;
        fn choose<R>(&self, _rng: &mut R) -> Option<&T> {
            self.first()
        }
    }
}
