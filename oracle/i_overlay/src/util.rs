//! Stands in for util/: only a guess of how many segments are open at once, for reserving.

pub(crate) mod log {
    pub(crate) trait Int {
        fn log2_sqrt(&self) -> usize;
    }

    impl Int for usize {
        fn log2_sqrt(&self) -> usize {
            self.isqrt()
        }
    }
}
