/// x and y.
pub type Point = (i32, i32);

/// How much was written of contours or loops.
#[derive(Debug, Clone, Copy, PartialEq, Eq, Hash)]
pub struct ContourTotals {
    /// How many contours or loops there are.
    pub contours: usize,
    /// How many points they have together.
    pub points: usize,
}

/// The points of each path, by how many it has.
pub(crate) fn paths(points: &[i32], lengths: &[u32]) -> Vec<Vec<Point>> {
    let mut rest = points.chunks_exact(2).map(|pair| (pair[0], pair[1]));
    let path = |&length: &u32| rest.by_ref().take(length as usize).collect();
    lengths.iter().map(path).collect()
}
