//! Clipper and GEOS, by way of `peers.cpp`.

use crate::runs::{Run, Totals};
use driver::{flat, Point, Sheet};

/// A sheet made ready for one of the two.
#[repr(C)]
struct Peer([u8; 0]);

/// Paths of so many points each.
#[repr(C)]
struct Flat {
    points: *const i32,
    each: usize,
    count: usize,
}

// What makes a peer reads the paths and keeps none of them. The others take what it made, until it is freed.
extern "C" {
    fn peers_clipper(areas: Flat, lines: Flat) -> *mut Peer;
    fn peers_geos(areas: Flat, lines: Flat) -> *mut Peer;
    fn peers_clip(peer: *mut Peer, outside: bool);
    fn peers_totals(peer: *const Peer) -> Totals;
    fn peers_free(peer: *mut Peer);
}

pub struct Foreign(*mut Peer);

impl Foreign {
    pub fn clipper(sheet: &Sheet) -> Self {
        Self::new(sheet, peers_clipper)
    }

    pub fn geos(sheet: &Sheet) -> Self {
        Self::new(sheet, peers_geos)
    }

    fn new(sheet: &Sheet, make: unsafe extern "C" fn(Flat, Flat) -> *mut Peer) -> Self {
        let [areas, lines] = [flat(sheet.areas.as_flattened()), flat(sheet.lines.as_flattened())];
        // SAFETY: both lists have as many points as is said, and live until the call returns.
        Self(unsafe { make(paths(&areas, &sheet.areas), paths(&lines, &sheet.lines)) })
    }
}

fn paths<const N: usize>(points: &[i32], paths: &[[Point; N]]) -> Flat {
    Flat { points: points.as_ptr(), each: N, count: paths.len() }
}

impl Run for Foreign {
    fn clip(&mut self, outside: bool) {
        // SAFETY: it was made, and is not freed yet.
        unsafe { peers_clip(self.0, outside) }
    }

    fn totals(&self) -> Totals {
        // SAFETY: it was made, and is not freed yet.
        unsafe { peers_totals(self.0) }
    }
}

impl Drop for Foreign {
    fn drop(&mut self) {
        // SAFETY: it was made, and is freed only here.
        unsafe { peers_free(self.0) }
    }
}
