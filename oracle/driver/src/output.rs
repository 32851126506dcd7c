//! What a run returns, and its lists when it returns.

use crate::contours::Contour;
use crate::counts::Counts;
use crate::drawing::{commas, flat, pairs, Point};
use crate::lent::Lent;
use crate::prose::Refusal;
use crate::random::Random;
use jumperclay::raw::Sliced;

/// Numbers of points, lengths and roles that are lent. Only a slice has roles.
pub type Room = [usize; 3];

/// Entries needed for a segment.
pub const CLIP_EACH: Room = [8, 2, 0];
pub const SLICE_EACH: Room = [4, 2, 2];

#[derive(Debug)]
pub struct Output<C> {
    pub counts: C,
    /// At least the answer's.
    pub points: Vec<i32>,
    pub lengths: Vec<u32>,
    pub roles: Vec<u8>,
}

impl<C: Counts> Output<C> {
    pub fn refused(refusal: Refusal) -> Self {
        Self { counts: C::refused(refusal), points: Vec::new(), lengths: Vec::new(), roles: Vec::new() }
    }

    pub fn of_paths(paths: &[Vec<Point>]) -> Self {
        let lengths = paths.iter().map(|path| path.len() as u32).collect();
        Self { counts: C::of_paths(paths), points: flat(&paths.concat()), lengths, roles: Vec::new() }
    }

    /// Of a call on lists of zeros.
    pub fn of_call(room: Room, call: impl FnOnce(&mut [i32], &mut [u32], &mut [u8]) -> C) -> Self {
        let (mut points, mut lengths, mut roles) = (vec![0; room[0]], vec![0; room[1]], vec![0; room[2]]);
        let counts = call(&mut points, &mut lengths, &mut roles);
        Self { counts, points, lengths, roles }
    }

    /// Of a call on lists of noise: every returned number and every entry, written or not, must be as due. Err, where
    /// something is not, with what is due and what came.
    pub fn of_noise(
        due: &Self,
        room: Room,
        random: &mut Random,
        call: impl FnOnce(&mut [i32], &mut [u32], &mut [u8]) -> C,
    ) -> Result<Self, [String; 2]> {
        let mut points = Lent::new(room[0], random, |noise| noise as i32);
        let mut lengths = Lent::new(room[1], random, |noise| noise as u32);
        let mut roles = Lent::new(room[2], random, |noise| noise as u8);
        let counts = call(points.list(), lengths.list(), roles.list());
        if counts == due.counts && points.holds(&due.points) && lengths.holds(&due.lengths) && roles.holds(&due.roles) {
            let (points, lengths) = (points.list().to_vec(), lengths.list().to_vec());
            return Ok(Self { counts, points, lengths, roles: roles.list().to_vec() });
        }
        let lists = [points.show(&due.points), lengths.show(&due.lengths), roles.show(&due.roles)];
        let shown = |counts: C, side: usize| {
            let [points, lengths, roles] = [0, 1, 2].map(|list| &lists[list][side]);
            format!("{counts:?}, points {points}, lengths {lengths}, roles {roles}")
        };
        Err([shown(due.counts, 0), shown(counts, 1)])
    }

    /// As many paths as the counts say, each with as many points as its length says; none where the lists end before.
    pub fn paths(&self) -> Option<Vec<Vec<Point>>> {
        let mut rest = &self.points[..];
        let lengths = self.lengths.get(..self.counts.list()[2] as usize)?;
        let path = |&length: &u32| {
            let (path, after) = rest.split_at_checked(2 * length as usize)?;
            rest = after;
            Some(pairs(path))
        };
        lengths.iter().map(path).collect()
    }

    /// The counts, then the lengths, roles and points that they say; none where the lists end before.
    pub fn line(&self) -> Option<String> {
        let counts = self.counts.list();
        let [paths, points] = [counts[2], counts[3]].map(|count| count as usize);
        let roles = if self.roles.is_empty() { &[][..] } else { self.roles.get(..paths)? };
        let lists = [commas(self.lengths.get(..paths)?), commas(roles), commas(self.points.get(..2 * points)?)];
        let written = lists.into_iter().filter(|list| !list.is_empty());
        Some([commas(&counts)].into_iter().chain(written).collect::<Vec<_>>().join(","))
    }
}

impl Output<Sliced> {
    pub fn of_contours(contours: &[Contour]) -> Self {
        let paths: Vec<_> = contours.iter().map(|contour| contour.points.clone()).collect();
        Self { roles: contours.iter().map(|contour| contour.role).collect(), ..Self::of_paths(&paths) }
    }
}
