//! The unchanged files of geom/ that the string overlay uses, and a stand-in for `LineRange`.

#[rustfmt::skip]
#[path = "../../../../shared/docs/src/src/geom/end.rs"]
pub(crate) mod end;
#[rustfmt::skip]
#[path = "../../../../shared/docs/src/src/geom/id_point.rs"]
pub(crate) mod id_point;
#[rustfmt::skip]
#[path = "../../../../shared/docs/src/src/geom/v_segment.rs"]
pub(crate) mod v_segment;
#[rustfmt::skip]
#[path = "../../../../shared/docs/src/src/geom/x_segment.rs"]
pub(crate) mod x_segment;

pub(crate) mod line_range {
    use i_float::int::number::int::IntNumber;

    pub(crate) struct LineRange<I: IntNumber> {
        pub(crate) min: I,
        pub(crate) max: I,
    }
}
