use super::exp::KeyExpCollection;
use super::keys::Keys;
use crate::{Expiration, ExpiredKey};
use core::cmp::Ordering;

pub enum Rising {}

/// Keys in rising order: the greatest is found by halving.
pub type KeyExpTree<K, E, V> = Keys<K, E, V, Rising>;

impl<K: ExpiredKey<E>, E: Expiration, V: Copy> KeyExpCollection<K, E, V> for KeyExpTree<K, E, V> {
    fn insert(&mut self, key: K, value: V, time: E) {
        // Only keys alive at one time can be compared.
        self.drop_expired(time);
        let place = self.entries.partition_point(|(other, _)| *other < key);
        self.entries.insert(place, (key, value));
    }

    fn first_less_or_equal_by<F: Fn(K) -> Ordering>(&mut self, time: E, default: V, order: F) -> V {
        self.drop_expired(time);
        let above = self.entries.partition_point(|(key, _)| order(*key) == Ordering::Less);
        above.checked_sub(1).map_or(default, |last| self.entries[last].1)
    }
}
