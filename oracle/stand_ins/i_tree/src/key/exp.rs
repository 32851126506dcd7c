use core::cmp::Ordering;

pub trait KeyExpCollection<K, E, V> {
    fn insert(&mut self, key: K, value: V, time: E);

    /// The value of the greatest key that is `Less` by `order` and not expired at `time`, or `default`.
    /// `Equal` would be a segment through the point, which an accepted drawing never has.
    fn first_less_or_equal_by<F: Fn(K) -> Ordering>(&mut self, time: E, default: V, order: F) -> V;
}
