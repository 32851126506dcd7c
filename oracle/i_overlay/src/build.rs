//! The unchanged files of build/, and a way to the fills, which the crate keeps to this module.

#[rustfmt::skip]
#[path = "../../../../shared/docs/src/src/build/builder.rs"]
pub(crate) mod builder;
#[rustfmt::skip]
#[path = "../../../../shared/docs/src/src/build/graph.rs"]
pub(crate) mod graph;
#[rustfmt::skip]
#[path = "../../../../shared/docs/src/src/build/string.rs"]
pub(crate) mod string;
#[rustfmt::skip]
#[path = "../../../../shared/docs/src/src/build/sweep.rs"]
pub(crate) mod sweep;
#[rustfmt::skip]
#[path = "../../../../shared/docs/src/src/build/util.rs"]
pub(crate) mod util;

use self::builder::GraphBuilder;
use crate::segm::segment::SegmentFill;
use crate::segm::string::ShapeCountString;

pub(crate) type StringBuilder = GraphBuilder<ShapeCountString, Vec<usize>, i32>;

/// The fills of the builder's last run.
pub(crate) fn fills(builder: &StringBuilder) -> &[SegmentFill] {
    &builder.fills
}
