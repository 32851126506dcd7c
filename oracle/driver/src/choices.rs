//! What a run is asked for beside its drawing.

use crate::random::Random;

/// The greatest known rule, invert and boundary; the least is 0.
pub const MOST: [i32; 3] = [3, 1, 1];
/// The greatest known rule and output direction of a slice; the least is 0.
pub const SLICE_MOST: [i32; 2] = [3, 1];
pub const RULES: [i32; 4] = [0, 1, 2, 3];

/// A clip run's choices. A fills run takes the rule alone.
#[derive(Debug, Clone, Copy, PartialEq, Eq, Hash)]
pub struct Choices {
    pub rule: i32,
    pub invert: i32,
    pub boundary: i32,
}

impl Choices {
    pub fn known(random: &mut Random) -> Self {
        known(MOST, random).into()
    }

    /// Known but for the one of this place.
    pub fn unknown(place: usize, random: &mut Random) -> Self {
        known_but(place, MOST, random).into()
    }

    pub fn list(self) -> [i32; 3] {
        [self.rule, self.invert, self.boundary]
    }

    /// Each with the greatest known one.
    pub fn with_most(self) -> [(i32, i32); 3] {
        [0, 1, 2].map(|place| (self.list()[place], MOST[place]))
    }
}

impl From<[i32; 3]> for Choices {
    fn from([rule, invert, boundary]: [i32; 3]) -> Self {
        Self { rule, invert, boundary }
    }
}

/// A slice run's choices, and the least area of its contours: any is known.
#[derive(Debug, Clone, Copy)]
pub struct SliceChoices {
    pub rule: i32,
    pub direction: i32,
    pub min_area: u64,
}

impl SliceChoices {
    pub fn new([rule, direction]: [i32; 2], min_area: u64) -> Self {
        Self { rule, direction, min_area }
    }

    pub fn list(self) -> [i32; 2] {
        [self.rule, self.direction]
    }
}

pub fn known<const N: usize>(most: [i32; N], random: &mut Random) -> [i32; N] {
    most.map(|most| random.within(0, most))
}

/// Known but for the one of this place.
pub fn known_but<const N: usize>(place: usize, most: [i32; N], random: &mut Random) -> [i32; N] {
    let mut choices = known(most, random);
    choices[place] = random.pick(&unknown(most[place]));
    choices
}

/// Some that are not from 0 to the greatest.
pub fn unknown(most: i32) -> [i32; 4] {
    [-1, most + 1, i32::MIN, i32::MAX]
}
