//! The fills by document 01's "Sides by a ray".

use crate::drawing::{cross, read, Segment};

/// The counts below and above a segment.
struct Sides {
    bottom: i64,
    top: i64,
}

/// A drawing's counts, the same for every rule.
pub struct Ray {
    sides: Vec<(Segment, Sides)>,
}

impl Ray {
    pub fn new(numbers: &[i32]) -> Self {
        let segments = read(numbers);
        let sides = |i: &Segment| {
            let counted = segments.iter().filter(|j| is_counted(i, j));
            let bottom = counted.map(|j| i64::from(j.winding)).sum();
            let top = bottom + i64::from(i.winding);
            (*i, Sides { bottom, top })
        };
        Self { sides: segments.iter().map(sides).collect() }
    }

    pub fn fills(&self, rule: i32) -> Vec<u8> {
        let fill = |(segment, sides): &(Segment, Sides)| {
            u8::from(holds(rule, sides.top)) + 2 * u8::from(holds(rule, sides.bottom)) + 4 * segment.bits as u8
        };
        self.sides.iter().map(fill).collect()
    }
}

fn is_counted(i: &Segment, j: &Segment) -> bool {
    let vertical = j.a.0 == j.b.0;
    let over = j.a.0 <= i.a.0 && i.a.0 < j.b.0;
    let above = cross(j.a, j.b, i.a) > 0;
    let clockwise = j.a == i.a && cross(j.a, j.b, i.b) > 0;
    !vertical && over && (above || clockwise)
}

fn holds(rule: i32, count: i64) -> bool {
    match rule {
        0 => count % 2 != 0,
        1 => count != 0,
        2 => count > 0,
        3 => count < 0,
        _ => unreachable!("only known rules are asked for"),
    }
}
