//! The runs of document 01 on a drawing, by the unchanged Rust.
//! Nothing is checked here: a drawing comes in accepted.

use crate::build::{self, StringBuilder};
use crate::core::fill_rule::FillRule;
use crate::core::overlay::{ContourDirection, IntOverlayOptions};
use crate::core::solver::Solver;
use crate::geom::x_segment::XSegment;
use crate::segm::segment::Segment;
use crate::segm::string::ShapeCountString;
use crate::string;
use crate::string::clip::ClipRule;
use crate::string::rule::StringRule;
use i_float::int::point::IntPoint;
use i_shape::int::path::{IntPath, take_made};
use std::panic::{AssertUnwindSafe, catch_unwind, resume_unwind};

/// How many numbers a segment has. The last is its lot, which the Rust is not fed.
pub(crate) const WIDTH: usize = 7;

pub type Points = Vec<(i32, i32)>;

/// A contour of a slice; role 1 is a hole.
#[derive(Debug, Clone, PartialEq, Eq)]
pub struct Contour {
    pub points: Points,
    pub role: u8,
}

/// Which collection the sweep keeps its open segments in. The crate chooses by the number of segments.
#[derive(Debug, Clone, Copy)]
pub enum Scan {
    Chosen,
    List,
    Tree,
}

/// A drawing's segments with the crate's builder, which keeps its lists from run to run.
pub struct Drawing {
    segments: Vec<Segment<ShapeCountString, i32>>,
    builder: StringBuilder,
    solver: Solver,
}

impl Drawing {
    pub fn new(numbers: &[i32], scan: Scan) -> Self {
        Self {
            segments: numbers.chunks_exact(WIDTH).map(segment).collect(),
            builder: StringBuilder::new(),
            solver: match scan {
                Scan::Chosen => Solver::default(),
                Scan::List => Solver::LIST,
                Scan::Tree => Solver::TREE,
            },
        }
    }

    /// The fills, by way of a clip run: with no line bits that is the sweep and little more.
    pub fn fills(&mut self, rule: i32) -> &[u8] {
        self.clip_graph(rule, false, true);
        build::fills(&self.builder)
    }

    pub fn clip(&mut self, rule: i32, invert: bool, boundary: bool) -> Vec<Points> {
        let paths = string::clip_lines(self.clip_graph(rule, invert, boundary));
        paths.into_iter().map(pairs).collect()
    }

    /// The contours in order of making; none where the Rust finds no move.
    pub fn slice(&mut self, rule: i32, clockwise: bool, min_area: u64) -> Option<Vec<Contour>> {
        let graph = self.builder.build_string_all(fill_rule(rule), &self.solver, &self.segments);
        let options = IntOverlayOptions {
            output_direction: match clockwise {
                true => ContourDirection::Clockwise,
                false => ContourDirection::CounterClockwise,
            },
            min_output_area: min_area,
        };
        take_made();
        let sliced = catch_unwind(AssertUnwindSafe(|| graph.extract_shapes_custom(StringRule::Slice, options)));
        match sliced {
            Ok(shapes) => Some(in_order_of_making(shapes)),
            Err(cause) if cause.downcast_ref() == Some(&"no move found") => None,
            Err(cause) => resume_unwind(cause),
        }
    }

    fn clip_graph(&mut self, rule: i32, invert: bool, boundary_included: bool) -> string::graph::StringGraph<'_, i32> {
        let clip_rule = ClipRule { invert, boundary_included };
        self.builder.build_string_clip(fill_rule(rule), clip_rule, &self.solver, &self.segments)
    }
}

/// The loops of a path.
pub fn split(points: &[(i32, i32)], min_area: u64) -> Vec<Points> {
    let path = points.iter().map(|&(x, y)| IntPoint::new(x, y)).collect();
    string::loops(path, min_area).into_iter().map(pairs).collect()
}

fn segment(of: &[i32]) -> Segment<ShapeCountString, i32> {
    Segment {
        x_segment: XSegment { a: IntPoint::new(of[0], of[1]), b: IntPoint::new(of[2], of[3]) },
        count: ShapeCountString { subj: of[4], clip: of[5] as u8 },
        data: (),
    }
}

fn fill_rule(rule: i32) -> FillRule {
    match rule {
        0 => FillRule::EvenOdd,
        1 => FillRule::NonZero,
        2 => FillRule::Positive,
        3 => FillRule::Negative,
        _ => panic!("rule {rule} is unknown"),
    }
}

fn pairs(path: IntPath<i32>) -> Points {
    path.iter().map(|point| (point.x, point.y)).collect()
}

/// Shapes of one contour each, and the holes as the last: see the stand-ins in `bind` and `i_shape`.
fn in_order_of_making(mut shapes: Vec<Vec<IntPath<i32>>>) -> Vec<Contour> {
    let made = take_made();
    let holes = shapes.pop().expect("the holes are the last shape");
    let outer = shapes.into_iter().flatten().map(|path| (path, 0));
    let inner = holes.into_iter().map(|path| (path, 1));
    let mut contours: Vec<_> = outer.chain(inner).collect();
    contours.sort_by_key(|(path, _)| made.iter().position(|&address| address == path.as_ptr() as usize));
    contours.into_iter().map(|(path, role)| Contour { points: pairs(path), role }).collect()
}
