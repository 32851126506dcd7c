//! Flour lots for the segments of a drawing.

use crate::drawing::{Segment, MOST_LOT};
use crate::random::Random;

/// A lot for each segment by itself: none, one of a few, the greatest, or any.
pub fn scatter(segments: &mut [Segment], random: &mut Random) {
    for segment in segments {
        let [few, any] = [9, MOST_LOT].map(|most| random.within(1, most));
        segment.lot = random.pick(&[0, 0, few, few, MOST_LOT, any]);
    }
}
