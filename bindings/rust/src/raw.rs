//! The C functions as they are, with any number for a choice.

/// What [`overlay_fills`] returns. Number and place are 0 on success, the count is 0 on a refusal.
#[repr(C)]
#[derive(Debug, Clone, Copy, PartialEq, Eq)]
pub struct Filled {
    /// The refusal's number, 0 on success.
    pub number: u64,
    /// Where a refusal is, 0 on success.
    pub place: u64,
    /// How many fills were written.
    pub count: u64,
}

/// What [`overlay_clip`] returns. Number and place are 0 on success, all others are 0 on a refusal.
#[repr(C)]
#[derive(Debug, Clone, Copy, PartialEq, Eq)]
pub struct Clipped {
    /// The refusal's number, 0 on success.
    pub number: u64,
    /// Where a refusal is, 0 on success.
    pub place: u64,
    /// How many paths there are.
    pub paths: u64,
    /// How many points they have together.
    pub points: u64,
    /// How many steps: two neighbouring points of one path.
    pub steps: u64,
    /// The sum of |dx| + |dy| over the steps.
    pub travel: u64,
}

/// What [`overlay_slice`] returns. Number and place are 0 on success, all others are 0 on a refusal.
#[repr(C)]
#[derive(Debug, Clone, Copy, PartialEq, Eq)]
pub struct Sliced {
    /// The refusal's number, 0 on success.
    pub number: u64,
    /// Where a refusal is, 0 on success.
    pub place: u64,
    /// How many contours there are.
    pub contours: u64,
    /// How many points they have together.
    pub points: u64,
}

/// What [`overlay_split`] returns. Number and place are 0 on success, all others are 0 on a refusal.
#[repr(C)]
#[derive(Debug, Clone, Copy, PartialEq, Eq)]
pub struct Looped {
    /// The refusal's number, 0 on success.
    pub number: u64,
    /// Where a refusal is, 0 on success.
    pub place: u64,
    /// How many loops there are.
    pub loops: u64,
    /// How many points they have together.
    pub points: u64,
}

/// What [`overlay_read`] returns. Number and place are 0 on success, all others are 0 on a refusal.
#[repr(C)]
#[derive(Debug, Clone, Copy, PartialEq, Eq)]
pub struct Read {
    /// The refusal's number: 1 for a malformed text, 11 for a list too short, 0 on success.
    pub number: u64,
    /// The first bad line, from 1; 0 if none is meant, and on success.
    pub place: u64,
    /// How many numbers were written: those that the text has after its first line.
    pub count: u64,
    /// The first number of the first line.
    pub rule: i32,
    /// The second.
    pub invert: i32,
    /// The third.
    pub boundary: i32,
}

/// What [`overlay_write`], [`overlay_old_to_new`] and [`overlay_new_to_old`] return. Number and place are 0 on success,
/// the count is 0 on a refusal.
#[repr(C)]
#[derive(Debug, Clone, Copy, PartialEq, Eq)]
pub struct Written {
    /// The refusal's number, 0 on success.
    pub number: u64,
    /// Where a refusal is: of 1 the first bad line, from 1, of all others a segment. 0 on success.
    pub place: u64,
    /// How many bytes were written.
    pub count: u64,
}

// Each reads and writes at most as many entries as the lengths say. Lists of one call must not overlap,
// and no pointer may be null, also where the length is 0.
extern "C" {
    /// The fill of each segment.
    pub fn overlay_fills(
        segments: *const i32,
        segments_len: usize,
        rule: i32,
        fills: *mut u8,
        fills_len: usize,
    ) -> Filled;

    /// The lines kept, as paths.
    pub fn overlay_clip(
        segments: *const i32,
        segments_len: usize,
        rule: i32,
        invert: i32,
        boundary: i32,
        points: *mut i32,
        points_len: usize,
        lengths: *mut u32,
        lengths_len: usize,
    ) -> Clipped;

    /// The pieces, as contours.
    pub fn overlay_slice(
        segments: *const i32,
        segments_len: usize,
        rule: i32,
        direction: i32,
        min_area: u64,
        points: *mut i32,
        points_len: usize,
        lengths: *mut u32,
        lengths_len: usize,
        roles: *mut u8,
        roles_len: usize,
    ) -> Sliced;

    /// The loops of a list of points.
    pub fn overlay_split(
        points: *const i32,
        points_len: usize,
        min_area: u64,
        out: *mut i32,
        out_len: usize,
        lengths: *mut u32,
        lengths_len: usize,
    ) -> Looped;

    /// The numbers of a comma text.
    pub fn overlay_read(text: *const u8, text_len: usize, numbers: *mut i32, numbers_len: usize) -> Read;

    /// The comma text of a drawing and its choices.
    pub fn overlay_write(
        segments: *const i32,
        segments_len: usize,
        rule: i32,
        invert: i32,
        boundary: i32,
        text: *mut u8,
        text_len: usize,
    ) -> Written;

    /// A text of six fields a segment in the form of seven.
    pub fn overlay_old_to_new(text: *const u8, text_len: usize, moved: *mut u8, moved_len: usize) -> Written;

    /// A text of seven fields a segment in the form of six.
    pub fn overlay_new_to_old(text: *const u8, text_len: usize, moved: *mut u8, moved_len: usize) -> Written;
}

/// [`overlay_fills`] on slices.
pub fn fills(segments: &[i32], rule: i32, fills: &mut [u8]) -> Filled {
    // SAFETY: both pointers are valid for their lengths, and the borrows keep the lists apart.
    unsafe { overlay_fills(segments.as_ptr(), segments.len(), rule, fills.as_mut_ptr(), fills.len()) }
}

/// [`overlay_clip`] on slices.
pub fn clip(
    segments: &[i32],
    rule: i32,
    invert: i32,
    boundary: i32,
    points: &mut [i32],
    lengths: &mut [u32],
) -> Clipped {
    // SAFETY: all pointers are valid for their lengths, and the borrows keep the lists apart.
    unsafe {
        overlay_clip(
            segments.as_ptr(),
            segments.len(),
            rule,
            invert,
            boundary,
            points.as_mut_ptr(),
            points.len(),
            lengths.as_mut_ptr(),
            lengths.len(),
        )
    }
}

/// [`overlay_slice`] on slices.
pub fn slice(
    segments: &[i32],
    rule: i32,
    direction: i32,
    min_area: u64,
    points: &mut [i32],
    lengths: &mut [u32],
    roles: &mut [u8],
) -> Sliced {
    // SAFETY: all pointers are valid for their lengths, and the borrows keep the lists apart.
    unsafe {
        overlay_slice(
            segments.as_ptr(),
            segments.len(),
            rule,
            direction,
            min_area,
            points.as_mut_ptr(),
            points.len(),
            lengths.as_mut_ptr(),
            lengths.len(),
            roles.as_mut_ptr(),
            roles.len(),
        )
    }
}

/// [`overlay_split`] on slices.
pub fn split(points: &[i32], min_area: u64, out: &mut [i32], lengths: &mut [u32]) -> Looped {
    // SAFETY: all pointers are valid for their lengths, and the borrows keep the lists apart.
    unsafe {
        overlay_split(
            points.as_ptr(),
            points.len(),
            min_area,
            out.as_mut_ptr(),
            out.len(),
            lengths.as_mut_ptr(),
            lengths.len(),
        )
    }
}

/// [`overlay_read`] on slices.
pub fn read(text: &[u8], numbers: &mut [i32]) -> Read {
    // SAFETY: both pointers are valid for their lengths, and the borrows keep the lists apart.
    unsafe { overlay_read(text.as_ptr(), text.len(), numbers.as_mut_ptr(), numbers.len()) }
}

/// [`overlay_write`] on slices.
pub fn write(segments: &[i32], rule: i32, invert: i32, boundary: i32, text: &mut [u8]) -> Written {
    // SAFETY: both pointers are valid for their lengths, and the borrows keep the lists apart.
    unsafe { overlay_write(segments.as_ptr(), segments.len(), rule, invert, boundary, text.as_mut_ptr(), text.len()) }
}

/// [`overlay_old_to_new`] on slices.
pub fn old_to_new(text: &[u8], moved: &mut [u8]) -> Written {
    // SAFETY: both pointers are valid for their lengths, and the borrows keep the lists apart.
    unsafe { overlay_old_to_new(text.as_ptr(), text.len(), moved.as_mut_ptr(), moved.len()) }
}

/// [`overlay_new_to_old`] on slices.
pub fn new_to_old(text: &[u8], moved: &mut [u8]) -> Written {
    // SAFETY: both pointers are valid for their lengths, and the borrows keep the lists apart.
    unsafe { overlay_new_to_old(text.as_ptr(), text.len(), moved.as_mut_ptr(), moved.len()) }
}
