use super::exp::KeyExpCollection;
use super::keys::Keys;
use crate::{Expiration, ExpiredKey};
use core::cmp::Ordering;

pub enum AsTheyCame {}

/// Keys in no order: the greatest is sought among all.
pub type KeyExpList<K, E, V> = Keys<K, E, V, AsTheyCame>;

impl<K: ExpiredKey<E>, E: Expiration, V: Copy> KeyExpCollection<K, E, V> for KeyExpList<K, E, V> {
    fn insert(&mut self, key: K, value: V, _time: E) {
        self.entries.push((key, value));
    }

    fn first_less_or_equal_by<F: Fn(K) -> Ordering>(&mut self, time: E, default: V, order: F) -> V {
        self.drop_expired(time);
        let under = self.entries.iter().filter(|(key, _)| order(*key) == Ordering::Less);
        under.max_by(|(one, _), (other, _)| one.cmp(other)).map_or(default, |&(_, value)| value)
    }
}
