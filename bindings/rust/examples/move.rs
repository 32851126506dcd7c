//! A stored text of the old form, six numbers a segment, moved to the new form and back; then a segment gets a lot,
//! which has no way back.

use jumperclay::{new_to_old, old_to_new, read, write, Refusal};

/// A triangle of dough with a line along its bottom.
const STORED: &str = "1,0,1\n0,0,4,0,1,1\n0,0,4,4,-1,0\n4,0,4,4,1,0\n";

fn print(form: &str, text: &[u8]) {
    print!("{form}:\n{}", String::from_utf8_lossy(text));
}

fn main() -> Result<(), Refusal> {
    let moved = old_to_new(STORED.as_bytes())?;
    print("new form", &moved);
    print("old form", &new_to_old(&moved)?);

    let mut text = read(&moved)?;
    text.segments[6] = 12;
    let with_lot = write(&text.segments, text.choices)?;
    print("with a lot", &with_lot);
    if let Err(refusal) = new_to_old(&with_lot) {
        println!("refused,{},{}: {refusal}", refusal.number(), refusal.place);
    }
    Ok(())
}
