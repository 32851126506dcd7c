//! Texts read and run, and every refusal handled.

use jumperclay::{read, Clip, Reason, Refusal};

const TEXTS: [&str; 13] = [
    "1,0,1\n0,0,4,0,1,1,12\n0,0,4,4,-1,2,9999\n4,0,4,4,1,0,0\n",
    "1,0,1\n0,0,4,0,1,1\n",
    "1,0,2\n0,0,4,0,0,1,0\n",
    "1,0,1\n0,0,16777217,0,0,1,0\n",
    "1,0,1\n4,0,0,0,0,1,0\n",
    "1,0,1\n0,0,4,0,1001,1,0\n",
    "1,0,1\n0,0,4,0,0,4,0\n",
    "1,0,1\n0,0,4,0,0,1,10000\n",
    "1,0,1\n4,0,5,0,0,1,0\n0,0,1,0,0,1,0\n",
    "1,0,1\n0,0,2,0,0,1,0\n1,0,1,1,0,1,0\n",
    "1,0,1\n0,0,4,0,1,0,0\n",
    "1,0,1\n",
    "",
];

fn run(text: &[u8]) -> Result<Clip, Refusal> {
    read(text)?.clip()
}

/// What the person at the desk can do.
fn advice(reason: Reason) -> &'static str {
    match reason {
        Reason::Line => "look at this line for a blank, a missing number or a missing end",
        Reason::TextLength | Reason::Length => "split the drawing in two",
        Reason::Choice => "look at the first line",
        Reason::Coordinate | Reason::Winding | Reason::LineBits | Reason::Lot => {
            "look at this segment for a slip of the keyboard"
        }
        Reason::Ends => "exchange a and b, with the winding's sign and the line bits; or leave the segment out",
        Reason::Order => "sort the segments by a",
        Reason::Meeting => "split the segments where they meet",
        Reason::Balance => "close the outline",
        // Lists that are owned are long enough, a walk is of slices only, points of splits, and lots are lost by moves.
        Reason::ShortList | Reason::NoMove | Reason::PointsLength | Reason::PointCoordinate | Reason::LotLost => {
            "tell the makers"
        }
        // Reasons may be added.
        _ => "look at the sentence",
    }
}

fn main() {
    for text in TEXTS {
        match run(text.as_bytes()) {
            Ok(found) => println!("{:?}, travel {}", found.paths, found.totals.travel),
            Err(refusal) => {
                println!("refused,{},{}: {refusal}", refusal.number(), refusal.place);
                println!("  {}", advice(refusal.reason));
            }
        }
    }
}
