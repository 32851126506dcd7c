//! What the library exports for the driver alone: the checks by themselves, what cleared a drawing of wrong meetings, and both
//! clip runs by one check.

use crate::prose::Refusal;
use jumperclay::raw::Clipped;

/// A refusal's number and place, or 0 and 0.
#[repr(C)]
#[derive(Debug, Clone, Copy, PartialEq, Eq)]
pub struct Verdict {
    pub number: u64,
    pub place: u64,
}

impl From<Option<Refusal>> for Verdict {
    fn from(refused: Option<Refusal>) -> Self {
        let Refusal { number, place } = refused.unwrap_or(Refusal { number: 0, place: 0 });
        Self { number, place }
    }
}

/// What cleared an accepted drawing. A refused one has another number.
pub const BY_SEARCH: u64 = 0;
pub const BY_SWEEP: u64 = 1;

/// What both clip runs return, inside and outside.
#[repr(C)]
struct ClippedBoth {
    runs: [Clipped; 2],
}

// Each reads and writes at most as many entries as the lengths say. Lists of one call must not overlap, and no pointer may
// be null, also where the length is 0.
extern "C" {
    fn measure_check(segments: *const i32, segments_len: usize) -> Verdict;
    fn measure_check_fills(
        segments: *const i32,
        segments_len: usize,
        rule: i32,
        fills: *const u8,
        fills_len: usize,
    ) -> Verdict;
    fn measure_check_slice(
        segments: *const i32,
        segments_len: usize,
        rule: i32,
        direction: i32,
        points: *const i32,
        points_len: usize,
        lengths: *const u32,
        lengths_len: usize,
        roles: *const u8,
        roles_len: usize,
    ) -> Verdict;
    fn measure_sweep(segments: *const i32, segments_len: usize) -> u64;
    fn measure_clip_both(
        segments: *const i32,
        segments_len: usize,
        rule: i32,
        boundary: i32,
        inside_points: *mut i32,
        inside_points_len: usize,
        inside_lengths: *mut u32,
        inside_lengths_len: usize,
        outside_points: *mut i32,
        outside_points_len: usize,
        outside_lengths: *mut u32,
        outside_lengths_len: usize,
    ) -> ClippedBoth;
}

/// The verdict on a clip run with known choices and lists long enough.
pub fn check(segments: &[i32]) -> Verdict {
    // SAFETY: the pointer is valid for the length.
    unsafe { measure_check(segments.as_ptr(), segments.len()) }
}

/// The verdict on a fills run with this list.
pub fn check_fills(segments: &[i32], rule: i32, fills: &[u8]) -> Verdict {
    // SAFETY: both pointers are valid for their lengths.
    unsafe { measure_check_fills(segments.as_ptr(), segments.len(), rule, fills.as_ptr(), fills.len()) }
}

/// The verdict on a slice run with these lists.
pub fn check_slice(
    segments: &[i32],
    rule: i32,
    direction: i32,
    points: &[i32],
    lengths: &[u32],
    roles: &[u8],
) -> Verdict {
    // SAFETY: all pointers are valid for their lengths.
    unsafe {
        measure_check_slice(
            segments.as_ptr(),
            segments.len(),
            rule,
            direction,
            points.as_ptr(),
            points.len(),
            lengths.as_ptr(),
            lengths.len(),
            roles.as_ptr(),
            roles.len(),
        )
    }
}

/// Whether the sweep alone cleared a drawing, or only the search over pairs.
pub fn sweep(segments: &[i32]) -> u64 {
    // SAFETY: the pointer is valid for the length.
    unsafe { measure_sweep(segments.as_ptr(), segments.len()) }
}

/// Both clip runs, each on its points and lengths, the inside one first.
pub fn clip_both(segments: &[i32], rule: i32, boundary: i32, lists: [(&mut [i32], &mut [u32]); 2]) -> [Clipped; 2] {
    let [inside, outside] = lists;
    // SAFETY: all pointers are valid for their lengths, and the borrows keep the lists apart.
    let both = unsafe {
        measure_clip_both(
            segments.as_ptr(),
            segments.len(),
            rule,
            boundary,
            inside.0.as_mut_ptr(),
            inside.0.len(),
            inside.1.as_mut_ptr(),
            inside.1.len(),
            outside.0.as_mut_ptr(),
            outside.0.len(),
            outside.1.as_mut_ptr(),
            outside.1.len(),
        )
    };
    both.runs
}
