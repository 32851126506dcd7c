//! A text to which two answers differ that should be one.

use crate::shrink::{shorter, smallest};

/// Of longer ones the two ends are shown.
const MOST_SHOWN: usize = 2000;

pub struct Difference {
    text: Vec<u8>,
    expected: String,
    got: String,
}

impl Difference {
    pub fn new(text: &[u8], answers: [String; 2]) -> Self {
        let [expected, got] = answers.map(|answer| shown(answer.as_bytes()));
        Self { text: text.to_vec(), expected, got }
    }

    /// Of what a program should have printed, and what it did or why it did not.
    pub fn of_printed(text: &[u8], expected: &[u8], got: Result<Vec<u8>, String>) -> Self {
        Self { text: text.to_vec(), expected: shown(expected), got: got.map_or_else(|error| error, |got| shown(&got)) }
    }

    pub fn report(&self) -> String {
        format!("{}expected {}got {}", shown(&self.text), self.expected, self.got)
    }

    /// Leaves out lines, then bytes, as long as some difference remains.
    pub fn shrunk(self, differs: impl Fn(Vec<u8>) -> Option<Self>) -> Self {
        let few_lines = smallest(self, |found| Box::new(shorter(&found.text, lines(&found.text))), &differs);
        smallest(few_lines, |found| Box::new(shorter(&found.text, (0..=found.text.len()).collect())), &differs)
    }
}

/// Where lines start, and the end.
fn lines(text: &[u8]) -> Vec<usize> {
    let starts = (1..text.len()).filter(|&place| text[place - 1] == b'\n');
    [0].into_iter().chain(starts).chain([text.len()]).collect()
}

/// Bytes that do not print are escaped; a line is shown in a line.
fn shown(bytes: &[u8]) -> String {
    let show = |part: &[u8]| part.escape_ascii().to_string().replace("\\n", "\\n\n");
    let half = MOST_SHOWN / 2;
    let all = match bytes.len() {
        0..=MOST_SHOWN => show(bytes),
        length => format!("{}\n...\n{}", show(&bytes[..half]), show(&bytes[length - half..])),
    };
    format!("{} bytes:\n{}\n", bytes.len(), all.trim_end())
}
