//! The unchanged files of segm/ that the string overlay uses, and stand-ins for the rest.

#[rustfmt::skip]
#[path = "../../../../shared/docs/src/src/segm/segment.rs"]
pub(crate) mod segment;
#[rustfmt::skip]
#[path = "../../../../shared/docs/src/src/segm/string.rs"]
pub(crate) mod string;
#[rustfmt::skip]
#[path = "../../../../shared/docs/src/src/segm/winding.rs"]
pub(crate) mod winding;

pub(crate) mod boolean {
    use crate::core::overlay::ShapeType;

    /// The boolean overlay's count. Only its name and two makers are asked for.
    #[derive(Debug, Clone, Copy)]
    pub(crate) struct ShapeCountBoolean {
        pub(crate) subj: i32,
        pub(crate) clip: i32,
    }

    impl ShapeCountBoolean {
        fn of(shape_type: ShapeType, count: i32) -> Self {
            match shape_type {
                ShapeType::Subject => Self { subj: count, clip: 0 },
                ShapeType::Clip => Self { subj: 0, clip: count },
            }
        }

        pub(crate) fn direct_count(shape_type: ShapeType) -> Self {
            Self::of(shape_type, 1)
        }

        pub(crate) fn invert_count(shape_type: ShapeType) -> Self {
            Self::of(shape_type, -1)
        }
    }
}

pub(crate) mod build {
    use crate::core::overlay::ShapeType;
    use crate::geom::x_segment::XSegment;
    use crate::segm::segment::Segment;
    use crate::segm::winding::WindingCount;
    use i_float::int::number::int::IntNumber;
    use i_float::int::point::IntPoint;

    pub(crate) trait BuildSegments<I: IntNumber> {
        /// Adds the closed path's edges, each from its lesser end to its greater.
        fn append_path_iter<It>(&mut self, path: It, shape_type: ShapeType, keep_collinear: bool)
        where
            It: Iterator<Item = IntPoint<I>>;
    }

    impl<C: WindingCount, I: IntNumber> BuildSegments<I> for Vec<Segment<C, I>> {
        fn append_path_iter<It>(&mut self, path: It, shape_type: ShapeType, _keep_collinear: bool)
        where
            It: Iterator<Item = IntPoint<I>>,
        {
            let points: Vec<_> = path.collect();
            let (direct, invert) = C::with_shape_type(shape_type);
            for (i, &to) in points.iter().enumerate() {
                let from = points[(i + points.len() - 1) % points.len()];
                if from == to {
                    continue;
                }
                let (a, b, count) = if from < to { (from, to, direct) } else { (to, from, invert) };
                self.push(Segment { x_segment: XSegment { a, b }, count, data: () });
            }
        }
    }
}
