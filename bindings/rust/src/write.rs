use crate::{raw, room, Choices, Refusal, MOST_BYTES};

/// No line of an accepted drawing's text has more bytes than this.
const LONGEST_LINE: usize = 53;

/// Writes a drawing and its choices as a comma text, the only one that they have: [`read`](crate::read) yields them
/// again. They are refused as by a clip.
///
/// ```
/// use jumperclay::{read, write, Choices};
///
/// let choices = Choices { rule: 1, invert: 1, boundary: 1 };
/// let text = write(&[0, 0, 1, 0, 0, 2, 12], choices)?;
/// assert_eq!(text, b"1,1,1\n0,0,1,0,0,2,12\n");
/// assert_eq!(read(&text)?.segments, [0, 0, 1, 0, 0, 2, 12]);
///
/// let refusal = write(&[0, 0, 1, 0, 0, 4, 12], choices).unwrap_err();
/// assert_eq!(refusal.to_string(), "segment 0: the line bits are out of range");
/// # Ok::<(), jumperclay::Refusal>(())
/// ```
pub fn write(segments: &[i32], choices: Choices) -> Result<Vec<u8>, Refusal> {
    owned(LONGEST_LINE * (1 + room(segments)), |text| write_into(segments, choices, text))
}

/// As [`write()`], into a lent list; returns how many bytes the text has. A list shorter than that is refused last; 53
/// entries for each line, or [`MOST_BYTES`], are always enough. Entries past the text keep their values, and after a
/// refusal all do.
///
/// ```
/// use jumperclay::{write_into, Choices, Reason};
///
/// let choices = Choices { rule: 0, invert: 0, boundary: 0 };
/// let mut list = [b'.'; 8];
/// assert_eq!(write_into(&[], choices, &mut list)?, 6);
/// assert_eq!(&list, b"0,0,0\n..");
///
/// let mut list = [b'.'; 5];
/// assert_eq!(write_into(&[], choices, &mut list).unwrap_err().reason, Reason::ShortList);
/// assert_eq!(&list, b".....");
/// # Ok::<(), jumperclay::Refusal>(())
/// ```
pub fn write_into(
    segments: &[i32],
    Choices { rule, invert, boundary }: Choices,
    text: &mut [u8],
) -> Result<usize, Refusal> {
    count(raw::write(segments, rule, invert, boundary, text))
}

/// Moves a text from the old form, in which a segment has six numbers and no lot, to the new one, that of
/// [`read`](crate::read): the same drawing and choices, with lot 0 for every segment. A malformed text is refused as by
/// `read`, then its drawing as by a clip.
///
/// ```
/// use jumperclay::old_to_new;
///
/// assert_eq!(old_to_new(b"1,1,1\n0,0,1,0,0,2\n")?, b"1,1,1\n0,0,1,0,0,2,0\n");
/// assert_eq!(old_to_new(b"1,1,1\n0,0,1,0,0,2,0\n").unwrap_err().to_string(), "line 2: it is malformed");
/// # Ok::<(), jumperclay::Refusal>(())
/// ```
pub fn old_to_new(text: &[u8]) -> Result<Vec<u8>, Refusal> {
    // A segment takes twelve bytes or more, and gets two.
    owned(text.len().min(MOST_BYTES) * 7 / 6, |moved| old_to_new_into(text, moved))
}

/// As [`old_to_new`], into a lent list; returns how many bytes the moved text has, two more for each segment. A list
/// shorter than that is refused last; [`MOST_BYTES`] are always enough. Entries past the text keep their values, and
/// after a refusal all do.
///
/// ```
/// use jumperclay::old_to_new_into;
///
/// let mut list = [b'.'; 22];
/// assert_eq!(old_to_new_into(b"1,1,1\n0,0,1,0,0,2\n", &mut list)?, 20);
/// assert_eq!(&list, b"1,1,1\n0,0,1,0,0,2,0\n..");
/// # Ok::<(), jumperclay::Refusal>(())
/// ```
pub fn old_to_new_into(text: &[u8], moved: &mut [u8]) -> Result<usize, Refusal> {
    count(raw::old_to_new(text, moved))
}

/// The way back from [`old_to_new`], refused likewise, and then if a lot is not 0, as the old form has no lots. A text
/// that is moved there and back, whichever way first, has the bytes that it had.
///
/// ```
/// use jumperclay::{new_to_old, Reason, Refusal};
///
/// assert_eq!(new_to_old(b"1,1,1\n0,0,1,0,0,2,0\n")?, b"1,1,1\n0,0,1,0,0,2\n");
///
/// let refusal = new_to_old(b"1,1,1\n0,0,1,0,0,2,0\n1,0,2,0,0,2,12\n").unwrap_err();
/// assert_eq!(refusal, Refusal { reason: Reason::LotLost, place: 1 });
/// # Ok::<(), jumperclay::Refusal>(())
/// ```
pub fn new_to_old(text: &[u8]) -> Result<Vec<u8>, Refusal> {
    owned(text.len().min(MOST_BYTES), |moved| new_to_old_into(text, moved))
}

/// As [`new_to_old`], into a lent list; returns how many bytes the moved text has, two fewer for each segment. A list
/// shorter than that is refused last; as many entries as `text` has bytes are always enough. Entries past the moved
/// text keep their values, and after a refusal all do.
///
/// ```
/// use jumperclay::new_to_old_into;
///
/// let mut list = [b'.'; 20];
/// assert_eq!(new_to_old_into(b"1,1,1\n0,0,1,0,0,2,0\n", &mut list)?, 18);
/// assert_eq!(&list, b"1,1,1\n0,0,1,0,0,2\n..");
/// # Ok::<(), jumperclay::Refusal>(())
/// ```
pub fn new_to_old_into(text: &[u8], moved: &mut [u8]) -> Result<usize, Refusal> {
    count(raw::new_to_old(text, moved))
}

fn count(raw::Written { number, place, count }: raw::Written) -> Result<usize, Refusal> {
    Refusal::of_text(number, place)?;
    Ok(count as usize)
}

/// The text that is written into a list of so many bytes.
fn owned(room: usize, into: impl FnOnce(&mut [u8]) -> Result<usize, Refusal>) -> Result<Vec<u8>, Refusal> {
    let mut text = vec![0; room];
    let count = into(&mut text)?;
    text.truncate(count);
    Ok(text)
}
