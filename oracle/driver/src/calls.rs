//! The calls of fills, clip and slice: what is due, which of two refusals comes first, and which lists are lent.

use crate::output::Room;
use crate::prose::Refusal;
use crate::table::Table;

/// An exported function, by its column.
#[derive(Clone, Copy)]
pub enum Function {
    Fills,
    Clip,
    Slice,
}

const FUNCTIONS: [&str; 3] = ["overlay_fills", "overlay_clip", "overlay_slice"];

/// What must occur with each function: refusals, and one that fits before another that does.
const REFUSALS: [u64; 11] = [2, 3, 4, 5, 6, 7, 8, 9, 10, 11, 13];
const ORDERS: [&str; 5] =
    ["2 before 10", "2 before 11", "10 before 11", "10 before 3 to 9 or 13", "11 before 3 to 9 or 13"];
/// Need not occur: no walk of an accepted drawing is known to find no move.
const NO_MOVE: u64 = 12;

/// The lists of each function: each must occur in the ways of the columns, exactly long enough where nothing is refused
/// and one entry short.
const LISTS: [&[&str]; 3] = [
    &["fills"],
    &["points of a clip", "lengths of a clip"],
    &["points of a slice", "lengths of a slice", "roles of a slice"],
];
const WAYS: [&str; 2] = ["exact", "one short"];

pub struct Call<'a> {
    pub function: Function,
    /// The number of the refusal due, 0 for none.
    pub due: u64,
    /// All that fit but 12, the one due first.
    pub refusals: &'a [Refusal],
    pub lent: Room,
    pub needed: Room,
}

impl Call<'_> {
    /// The lists that it shows something of, each with its column. A list too short shows that it is looked at only if
    /// the others are long enough.
    fn lists(&self) -> Vec<(&'static str, usize)> {
        let lists = LISTS[self.function as usize].iter().copied().zip(self.lent.into_iter().zip(self.needed));
        let exact = lists.clone().filter(|(_, (lent, needed))| lent == needed && *needed > 0);
        let short: Vec<_> = lists.filter(|(_, (lent, needed))| lent < needed).collect();
        match (self.due, &short[..]) {
            (0, _) => exact.map(|(name, _)| (name, 0)).collect(),
            (11, &[(name, (lent, needed))]) if lent + 1 == needed => vec![(name, 1)],
            _ => Vec::new(),
        }
    }
}

#[derive(Default)]
pub struct Calls {
    due: Table<u64, 3>,
    orders: Table<&'static str, 3>,
    lists: Table<&'static str, 2>,
}

impl Calls {
    pub fn add(&mut self, call: &Call) {
        let column = call.function as usize;
        self.due.add(call.due, column);
        let later = call.refusals.iter().skip(1);
        later.for_each(|later| self.orders.add(order(call.due, later.number), column));
        call.lists().into_iter().for_each(|(name, way)| self.lists.add(name, way));
    }

    pub fn merge(&mut self, other: Self) {
        self.due.merge(other.due);
        self.orders.merge(other.orders);
        self.lists.merge(other.lists);
    }

    /// What should have occurred and did not.
    pub fn missing(&self) -> Vec<String> {
        let refusals = self.due.lacking(&REFUSALS).map(|number| format!("refusal {number}"));
        let orders = self.orders.lacking(&ORDERS).map(|order| format!("refusal {order}"));
        let lists = LISTS.concat();
        let lists = self.lists.lacking(&lists).map(|name| format!("{name} exactly long enough, or one entry short"));
        refusals.chain(orders).chain(lists).collect()
    }

    pub fn print(&self) {
        self.due.print("calls by the refusal due", FUNCTIONS);
        println!("{} slices find no move: refusal {NO_MOVE}\n", self.due.sum_of(&NO_MOVE));
        self.orders.print("calls for which two refusals fit", FUNCTIONS);
        self.lists.print("calls by a list lent", WAYS);
    }
}

/// Which of the orders it is that one comes before another.
fn order(due: u64, later: u64) -> &'static str {
    let place = match (due, later) {
        (2, 10) => 0,
        (2, _) => 1,
        (10, 11) => 2,
        (10, _) => 3,
        _ => 4,
    };
    ORDERS[place]
}
