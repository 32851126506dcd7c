//! Compares the exported functions with the unchanged Rust, and with a check, a ray, walks and loops written from prose;
//! and the programs and the functions for texts with these and a reader, a writer and a mover of texts, also from prose.

mod answer;
mod areas;
#[cfg(feature = "rust")]
mod bench;
#[cfg(feature = "rust")]
mod bench_texts;
mod blocks;
mod both;
mod calls;
mod case;
mod case_texts;
mod cases;
mod check;
mod check_moves;
mod check_pipes;
mod check_split;
mod check_texts;
mod choices;
mod claim;
mod clip;
mod commands;
mod compare;
mod contours;
mod counts;
mod damage;
mod damage_text;
mod drawing;
mod fills;
mod forms;
mod generate;
mod grow;
mod lent;
mod lines;
mod loops;
mod lots;
mod marks;
mod measure;
mod move_calls;
// Some are stored only.
#[cfg_attr(not(feature = "rust"), allow(dead_code))]
mod move_cases;
mod mover;
mod moves;
mod nodes;
mod output;
mod pipe_tasks;
mod placement;
mod places;
mod plane;
mod point_lists;
mod program;
mod prose;
mod random;
mod ray;
mod reader;
// Without the Rust only some are tried, and none stored.
#[cfg_attr(not(feature = "rust"), allow(dead_code))]
mod refusals;
mod round_trips;
mod shapes;
#[cfg(feature = "rust")]
mod sheets;
mod shrink;
mod slice;
mod slice_walk;
mod split;
#[cfg(feature = "rust")]
mod store;
mod stored;
mod stored_checks;
#[cfg_attr(not(feature = "rust"), allow(dead_code))]
mod stored_texts;
mod sweeps;
mod table;
mod tally;
mod text;
mod text_difference;
mod texts;
mod theirs;
#[cfg(feature = "rust")]
mod timing;
mod trials;
mod variants;
mod verdict;
mod walk;
mod windings;

pub use commands::{run, USAGE};

// For the peers.
#[cfg(feature = "rust")]
pub use bench::{sheet_table, NON_ZERO};
pub use counts::Counts;
pub use drawing::{flat, Point, MOST_SEGMENTS};
pub use output::CLIP_EACH;
#[cfg(feature = "rust")]
pub use sheets::Sheet;
