//! Counts in rows and columns.

use std::collections::BTreeMap;
use std::fmt::Display;

pub struct Table<K, const N: usize> {
    rows: BTreeMap<K, [usize; N]>,
}

impl<K, const N: usize> Default for Table<K, N> {
    fn default() -> Self {
        Self { rows: BTreeMap::new() }
    }
}

impl<K: Ord + Display, const N: usize> Table<K, N> {
    pub fn add(&mut self, key: K, column: usize) {
        self.rows.entry(key).or_insert([0; N])[column] += 1;
    }

    pub fn merge(&mut self, other: Self) {
        for (key, counts) in other.rows {
            let sums = self.rows.entry(key).or_insert([0; N]);
            sums.iter_mut().zip(counts).for_each(|(sum, count)| *sum += count);
        }
    }

    pub fn sum_of(&self, key: &K) -> usize {
        self.rows.get(key).map_or(0, |counts| counts.iter().sum())
    }

    pub fn sum(&self, column: usize) -> usize {
        self.rows.values().map(|counts| counts[column]).sum()
    }

    /// Whether the row is there, with no column empty.
    pub fn is_full(&self, key: &K) -> bool {
        self.rows.get(key).is_some_and(|counts| !counts.contains(&0))
    }

    /// The keys without a full row.
    pub fn lacking<'a>(&self, keys: &'a [K]) -> impl Iterator<Item = &'a K> + use<'_, 'a, K, N> {
        keys.iter().filter(|key| !self.is_full(key))
    }

    /// Of the keys that are wanted in each column those that are missing there, with the column.
    pub fn lacking_by_column(&self, keys: &[Vec<K>; N]) -> Vec<(usize, K)>
    where
        K: Copy,
    {
        let is_missing = |key: &K, column: usize| self.rows.get(key).is_none_or(|counts| counts[column] == 0);
        let of_column = |(column, keys): (usize, &Vec<K>)| {
            let missing = keys.iter().filter(|&key| is_missing(key, column));
            missing.map(|&key| (column, key)).collect::<Vec<_>>()
        };
        keys.iter().enumerate().flat_map(of_column).collect()
    }

    pub fn print(&self, heading: &str, columns: [&str; N]) {
        let cells = |cells: [String; N]| cells.map(|cell| format!("{cell:>14}")).concat();
        println!("{heading:<42}{}", cells(columns.map(str::to_string)));
        for (key, counts) in &self.rows {
            println!("{:<42}{}", key.to_string(), cells(counts.map(|count| count.to_string())));
        }
        println!();
    }
}

impl<const N: usize> Table<&'static str, N> {
    /// Counts those of the names whose mark is set, in the first column.
    pub fn add_marks<const M: usize>(&mut self, names: [&'static str; M], marks: [bool; M]) {
        let set = names.into_iter().zip(marks).filter(|&(_, mark)| mark);
        set.for_each(|(name, _)| self.add(name, 0));
    }
}
