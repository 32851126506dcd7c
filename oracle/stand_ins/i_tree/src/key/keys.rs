use crate::{Expiration, ExpiredKey};
use core::marker::PhantomData;

/// Keys with their values, kept as `Order` says, which decides how they are searched.
pub struct Keys<K, E, V, Order> {
    pub(super) entries: Vec<(K, V)>,
    kept: PhantomData<(E, Order)>,
}

impl<K, E, V, Order> Keys<K, E, V, Order> {
    pub fn new(capacity: usize) -> Self {
        Self { entries: Vec::with_capacity(capacity), kept: PhantomData }
    }

    pub fn clear(&mut self) {
        self.entries.clear();
    }

    pub fn reserve_capacity(&mut self, capacity: usize) {
        self.entries.reserve(capacity);
    }

    pub(super) fn drop_expired(&mut self, time: E)
    where
        K: ExpiredKey<E>,
        E: Expiration,
    {
        self.entries.retain(|(key, _)| time < key.expiration());
    }
}
