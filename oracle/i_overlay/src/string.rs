//! The unchanged files of string/, stand-ins for two small types, and a way to the walks that
//! the crate keeps to this module.

#[rustfmt::skip]
#[path = "../../../../shared/docs/src/src/string/clip.rs"]
pub(crate) mod clip;
#[rustfmt::skip]
#[path = "../../../../shared/docs/src/src/string/extract.rs"]
pub(crate) mod extract;
#[rustfmt::skip]
#[path = "../../../../shared/docs/src/src/string/filter.rs"]
pub(crate) mod filter;
#[rustfmt::skip]
#[path = "../../../../shared/docs/src/src/string/graph.rs"]
pub(crate) mod graph;
#[rustfmt::skip]
#[path = "../../../../shared/docs/src/src/string/overlay.rs"]
pub(crate) mod overlay;
#[rustfmt::skip]
#[path = "../../../../shared/docs/src/src/string/split.rs"]
pub(crate) mod split;

pub(crate) mod line {
    use i_float::int::point::IntPoint;

    pub type IntLine<I> = [IntPoint<I>; 2];
}

pub(crate) mod rule {
    #[derive(Debug, Clone, Copy)]
    pub enum StringRule {
        Slice,
    }
}

use self::graph::StringGraph;
use self::split::{BinStore, Split};
use i_shape::int::path::IntPath;

pub(crate) fn clip_lines(graph: StringGraph<'_, i32>) -> Vec<IntPath<i32>> {
    graph.into_clip_string_lines()
}

pub(crate) fn loops(path: IntPath<i32>, min_area: u64) -> Vec<IntPath<i32>> {
    path.split_loops(min_area, &mut Vec::new(), &mut BinStore::new())
}
