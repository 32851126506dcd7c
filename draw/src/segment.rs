use jumperclay::{Point, WIDTH};

const MOST_COORDINATE: u32 = 16_777_216;

/// What the numbers of a segment say, right or wrong.
#[derive(Clone, Copy)]
pub struct Segment {
    pub a: Point,
    pub b: Point,
    pub winding: i32,
    pub line_bits: i32,
    pub lot: i32,
}

pub fn segments(numbers: &[i32]) -> Vec<Segment> {
    numbers.chunks_exact(WIDTH).map(Segment::new).collect()
}

impl Segment {
    fn new(numbers: &[i32]) -> Self {
        let point = |at: usize| (numbers[at], numbers[at + 1]);
        Self { a: point(0), b: point(2), winding: numbers[4], line_bits: numbers[5], lot: numbers[6] }
    }

    /// As a drawing has them.
    pub fn numbers(self) -> [i32; WIDTH] {
        [self.a.0, self.a.1, self.b.0, self.b.1, self.winding, self.line_bits, self.lot]
    }

    pub fn ends(self) -> [Point; 2] {
        [self.a, self.b]
    }

    pub fn is_outline(self) -> bool {
        self.winding != 0
    }

    /// The lot of a line, where it has one.
    pub fn line_lot(self) -> Option<i32> {
        (self.line_bits != 0 && self.lot != 0).then_some(self.lot)
    }

    /// The coordinates by name that are out of range.
    pub fn out_of_range(self) -> Vec<(&'static str, i32)> {
        let named = [("ax", self.a.0), ("ay", self.a.1), ("bx", self.b.0), ("by", self.b.1)];
        named.into_iter().filter(|&(_, z)| !is_in_range(z)).collect()
    }
}

fn is_in_range(coordinate: i32) -> bool {
    coordinate.unsigned_abs() <= MOST_COORDINATE
}

/// The ends of segments that are in range; all where none is.
pub fn seen_ends(segments: &[Segment]) -> Vec<Point> {
    let all: Vec<Point> = segments.iter().flat_map(|segment| segment.ends()).collect();
    let in_range: Vec<Point> = all.iter().copied().filter(|&(x, y)| is_in_range(x) && is_in_range(y)).collect();
    if in_range.is_empty() {
        all
    } else {
        in_range
    }
}
