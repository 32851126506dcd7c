//! The unchanged files of core/ that the string overlay uses, and stand-ins for the rest.

#[rustfmt::skip]
#[path = "../../../../shared/docs/src/src/core/fill_rule.rs"]
pub(crate) mod fill_rule;
#[rustfmt::skip]
#[path = "../../../../shared/docs/src/src/core/link.rs"]
pub(crate) mod link;
#[rustfmt::skip]
#[path = "../../../../shared/docs/src/src/core/nearest_vector.rs"]
pub(crate) mod nearest_vector;
#[rustfmt::skip]
#[path = "../../../../shared/docs/src/src/core/solver.rs"]
pub(crate) mod solver;

pub(crate) mod edge_data {
    /// What a segment carries besides its count; the string overlay's carries nothing.
    pub(crate) trait OverlayEdgeData<C>: Copy + Send {
        type Store;
        fn reversed(self, store: &mut Self::Store) -> Self;
    }

    impl<C> OverlayEdgeData<C> for () {
        type Store = ();
        fn reversed(self, _store: &mut ()) {}
    }
}

pub(crate) mod extract {
    /// Named by a trait of the boolean overlay, which is not here.
    pub(crate) enum VisitState {}
}

pub(crate) mod overlay_rule {
    /// Named by a trait of the boolean overlay, which is not here.
    pub(crate) enum OverlayRule {}
}

pub(crate) mod integer {
    use i_float::int::number::int::IntNumber;
    use i_key_sort::sort::key::SortKey;
    use i_tree::Expiration;

    pub trait OverlayInt: IntNumber + Expiration + SortKey {}

    impl OverlayInt for i32 {}
}

pub(crate) mod overlay {
    use i_float::int::number::uint::UIntNumber;

    #[derive(Debug, Clone, Copy)]
    pub struct IntOverlayOptions<U: UIntNumber> {
        pub output_direction: ContourDirection,
        pub min_output_area: U,
    }

    impl<U: UIntNumber> Default for IntOverlayOptions<U> {
        fn default() -> Self {
            Self { output_direction: ContourDirection::CounterClockwise, min_output_area: U::ZERO }
        }
    }

    #[derive(Debug, Clone, Copy, PartialEq)]
    pub enum ShapeType {
        Subject,
        Clip,
    }

    #[derive(Debug, Clone, Copy, PartialEq)]
    pub enum ContourDirection {
        CounterClockwise,
        Clockwise,
    }
}
