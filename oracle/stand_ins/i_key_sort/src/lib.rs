//! Stands in for the crate i_key_sort: a sort by two keys, stable and on one thread.

pub mod sort {
    pub mod key {
        pub trait SortKey: Copy + Ord {}

        impl SortKey for i32 {}
    }

    pub mod two_keys {
        use super::key::SortKey;

        pub trait TwoKeysSort<T> {
            fn sort_by_two_keys<K: SortKey>(
                &mut self,
                parallel: bool,
                first: impl Fn(&T) -> K,
                second: impl Fn(&T) -> K,
            );
        }

        impl<T> TwoKeysSort<T> for [T] {
            fn sort_by_two_keys<K: SortKey>(
                &mut self,
                _parallel: bool,
                first: impl Fn(&T) -> K,
                second: impl Fn(&T) -> K,
            ) {
                self.sort_by_key(|item| (first(item), second(item)));
            }
        }
    }
}
