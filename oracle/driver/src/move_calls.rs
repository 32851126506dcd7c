//! The calls of the functions that write and move texts: what is due, which of two refusals comes first, and which
//! lists are lent.

use crate::lent::{length, LENGTHS};
use crate::mover::Due;
use crate::moves::FUNCTIONS;
use crate::prose::Refusal;
use crate::table::Table;
use std::fmt;

/// A refusal's number, 0 for none, and what else is to be said of it.
#[derive(Clone, Copy, PartialEq, Eq, PartialOrd, Ord)]
pub struct Outcome(u64, &'static str);

impl fmt::Display for Outcome {
    fn fmt(&self, formatter: &mut fmt::Formatter) -> fmt::Result {
        write!(formatter, "{}{}", self.0, self.1)
    }
}

/// What must occur with each function: what is due, and one refusal that fits before another that does.
const BY_ALL: [u64; 11] = [0, 2, 3, 4, 5, 6, 7, 8, 9, 10, 11];
const OF_TEXTS: [Outcome; 3] =
    [Outcome(1, " as too long"), Outcome(1, " at the first line"), Outcome(1, " at a later line")];
const OF_LOTS: [Outcome; 1] = [Outcome(13, "")];
const OF_LOST_LOTS: [Outcome; 2] = [Outcome(14, " at the first segment"), Outcome(14, " at a later segment")];

const ORDERS: [&str; 7] = [
    "2 before 10",
    "2 before 11",
    "10 before 3 to 8",
    "10 before 9",
    "10 before 11",
    "3 to 8 before 11",
    "9 before 11",
];
const ORDERS_OF_LOTS: [&str; 2] = ["10 before 13", "13 before 11"];
const ORDERS_OF_LOST_LOTS: [&str; 6] =
    ["2 before 14", "10 before 14", "3 to 8 before 14", "9 before 14", "13 before 14", "14 before 11"];

fn outcomes() -> [Vec<Outcome>; 3] {
    let by_all = BY_ALL.map(|number| Outcome(number, ""));
    [
        [&by_all[..], &OF_LOTS].concat(),
        [&by_all[..], &OF_TEXTS].concat(),
        [&by_all[..], &OF_TEXTS, &OF_LOTS, &OF_LOST_LOTS].concat(),
    ]
}

fn orders() -> [Vec<&'static str>; 3] {
    [
        [&ORDERS[..], &ORDERS_OF_LOTS].concat(),
        ORDERS.to_vec(),
        [&ORDERS[..], &ORDERS_OF_LOTS, &ORDERS_OF_LOST_LOTS].concat(),
    ]
}

fn outcome(answer: Result<&[u8], Refusal>) -> Outcome {
    match answer {
        Ok(_) => Outcome(0, ""),
        Err(Refusal { number: 1, place }) => OF_TEXTS[place.min(2) as usize],
        Err(Refusal { number: 14, place }) => OF_LOST_LOTS[place.min(1) as usize],
        Err(Refusal { number, .. }) => Outcome(number, ""),
    }
}

/// That one comes before another, where that must occur.
fn order(due: u64, later: u64) -> Option<&'static str> {
    let [due, later] = [due, later].map(|number| match number {
        3..=8 => "3 to 8".to_string(),
        _ => number.to_string(),
    });
    let order = format!("{due} before {later}");
    orders()[2].iter().copied().find(|name| *name == order)
}

/// By the column of the function.
#[derive(Default)]
pub struct Calls {
    due: Table<Outcome, 3>,
    orders: Table<&'static str, 3>,
    /// By a list, where nothing else is refused.
    lists: Table<&'static str, 3>,
}

impl Calls {
    pub fn add(&mut self, column: usize, due: &Due, lent: usize) {
        let refusals = due.refusals(lent);
        self.due.add(outcome(due.answer(lent)), column);
        if let [first, later @ ..] = &refusals[..] {
            let orders = later.iter().filter_map(|later| order(first.number, later.number));
            orders.for_each(|order| self.orders.add(order, column));
        }
        if matches!(refusals[..], [] | [Refusal { number: 11, .. }]) {
            self.lists.add(length(lent, due.needed()), column);
        }
    }

    pub fn merge(&mut self, other: Self) {
        self.due.merge(other.due);
        self.orders.merge(other.orders);
        self.lists.merge(other.lists);
    }

    pub fn print(&self) {
        let columns = FUNCTIONS.map(|name| name.trim_start_matches("overlay_"));
        self.due.print("calls by the refusal due", columns);
        self.orders.print("calls for which two refusals fit", columns);
        self.lists.print("calls with", columns);
    }

    /// What should have occurred and did not.
    pub fn missing(&self) -> Vec<String> {
        let lists = [(); 3].map(|()| LENGTHS.to_vec());
        let due = self.due.lacking_by_column(&outcomes());
        let others = self.orders.lacking_by_column(&orders()).into_iter().chain(self.lists.lacking_by_column(&lists));
        let names = due.into_iter().map(|(column, outcome)| (column, format!("refusal {outcome}")));
        let names = names.chain(others.map(|(column, name)| (column, name.to_string())));
        names.map(|(column, name)| format!("{name} of {}", FUNCTIONS[column])).collect()
    }
}
