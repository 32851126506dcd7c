//! How a part of the plane is put into a frame. In the plane y goes up, in the picture down.

use jumperclay::Point;

/// A place in the picture, within its frame.
pub type Spot = (f64, f64);

/// A place in the plane, between whole numbers too.
pub type Place = (f64, f64);

pub fn place((x, y): Point) -> Place {
    (x.into(), y.into())
}

/// How wide a frame is, and how high it is at most and at least.
pub const WIDTH: f64 = 960.0;
pub const HIGHEST: f64 = 860.0;
const LOWEST: f64 = 260.0;

/// What stays free around the drawing, for labels.
const MARGIN: f64 = 45.0;

/// One side of a drawing this many times as long as the other would leave a mere line of it.
const TOO_THIN: f64 = 12.0;

/// What a side is then stretched to.
const STRETCHED: f64 = 240.0;

/// The part of the plane between two places.
#[derive(Clone, Copy)]
pub struct Bounds {
    pub low: Place,
    pub high: Place,
}

impl Bounds {
    /// The least that hold all; none where there is no place.
    pub fn around(places: impl IntoIterator<Item = Place>) -> Option<Self> {
        let of_one = |at| Self { low: at, high: at };
        places.into_iter().map(of_one).reduce(|one, other| Self {
            low: (one.low.0.min(other.low.0), one.low.1.min(other.low.1)),
            high: (one.high.0.max(other.high.0), one.high.1.max(other.high.1)),
        })
    }

    /// Its width and its height.
    pub fn size(self) -> (f64, f64) {
        (self.high.0 - self.low.0, self.high.1 - self.low.1)
    }

    fn middle(self) -> Place {
        (self.low.0 / 2.0 + self.high.0 / 2.0, self.low.1 / 2.0 + self.high.1 / 2.0)
    }

    /// With so many times its greater side around it.
    pub fn widened(self, times: f64) -> Self {
        let (width, height) = self.size();
        let more = width.max(height) * times;
        Self { low: (self.low.0 - more, self.low.1 - more), high: (self.high.0 + more, self.high.1 + more) }
    }
}

pub struct View {
    pub bounds: Bounds,
    pub height: f64,
    scale: (f64, f64),
}

impl View {
    pub fn new(bounds: Bounds, highest: f64) -> Self {
        let (width, height) = bounds.size();
        let (room_across, room_up) = (WIDTH - 2.0 * MARGIN, highest - 2.0 * MARGIN);
        let mut scale = (room_across / width).min(room_up / height);
        if !scale.is_finite() {
            scale = 1.0;
        }
        let mut scale = (scale, scale);
        if width > TOO_THIN * height && height > 0.0 {
            scale.1 = STRETCHED / height;
        }
        if height > TOO_THIN * width && width > 0.0 {
            scale.0 = STRETCHED / width;
        }
        Self { bounds, height: (height * scale.1 + 2.0 * MARGIN).max(LOWEST), scale }
    }

    pub fn spot(&self, (x, y): Place) -> Spot {
        let middle = self.bounds.middle();
        (WIDTH / 2.0 + (x - middle.0) * self.scale.0, self.height / 2.0 - (y - middle.1) * self.scale.1)
    }

    /// How large bounds are in the picture.
    pub fn size_of(&self, bounds: Bounds) -> (f64, f64) {
        let (width, height) = bounds.size();
        (width * self.scale.0, height * self.scale.1)
    }

    /// How many times as large one axis is drawn as the other.
    pub fn stretch(&self) -> f64 {
        self.scale.1 / self.scale.0
    }

    /// The part from a to b that is in the frame.
    pub fn seen(&self, a: Place, b: Place) -> Option<[Spot; 2]> {
        let (a, b) = (self.spot(a), self.spot(b));
        let along = (b.0 - a.0, b.1 - a.1);
        let across = part_within(a.0, along.0, WIDTH)?;
        let up = part_within(a.1, along.1, self.height)?;
        let (from, to) = (across.0.max(up.0), across.1.min(up.1));
        let at = |part: f64| (a.0 + along.0 * part, a.1 + along.1 * part);
        (from <= to).then(|| [at(from), at(to)])
    }
}

/// From which part to which of its way from `start` a coordinate is from 0 to `end`.
fn part_within(start: f64, way: f64, end: f64) -> Option<(f64, f64)> {
    if way == 0.0 {
        return (0.0..=end).contains(&start).then_some((0.0, 1.0));
    }
    let (one, other) = (-start / way, (end - start) / way);
    let (from, to) = (one.min(other).max(0.0), one.max(other).min(1.0));
    (from <= to).then_some((from, to))
}

#[cfg(test)]
mod tests {
    use super::*;

    fn view(low: Place, high: Place) -> View {
        View::new(Bounds { low, high }, HIGHEST)
    }

    #[test]
    fn the_greatest_drawing_keeps_its_shape_and_has_y_up() {
        let view = view((-16_777_216.0, -16_777_216.0), (16_777_216.0, 16_777_216.0));
        assert_eq!(view.stretch(), 1.0);
        assert!(view.spot((0.0, 16_777_216.0)).1 < view.spot((0.0, -16_777_216.0)).1);
        assert!(view.height <= HIGHEST);
    }

    #[test]
    fn a_thin_drawing_is_stretched_and_a_flat_one_is_not() {
        assert!(view((0.0, 0.0), (16_777_216.0, 10.0)).stretch() > 1e5);
        assert!(view((0.0, 0.0), (10.0, 16_777_216.0)).stretch() < 1e-5);
        assert_eq!(view((0.0, 0.0), (10.0, 0.0)).stretch(), 1.0);
        assert_eq!(view((0.0, 0.0), (0.0, 10.0)).stretch(), 1.0);
        assert_eq!(view((3.0, 3.0), (3.0, 3.0)).spot((3.0, 3.0)), (WIDTH / 2.0, LOWEST / 2.0));
    }

    #[test]
    fn what_runs_far_out_is_cut_at_the_frame() {
        let view = view((0.0, 0.0), (10.0, 10.0));
        let [from, to] = view.seen((5.0, 5.0), (2_147_483_647.0, 5.0)).unwrap();
        assert_eq!(from, view.spot((5.0, 5.0)));
        assert!((to.0 - WIDTH).abs() < 1e-3 && (to.1 - from.1).abs() < 1e-9);
        assert_eq!(view.seen((100.0, 0.0), (100.0, 10.0)), None);
    }
}
