//! A call of a proved program, and what the Rust answers to it. The comparing runs hold the program's line against the answer; the sample writes
//! both down.
use crate::ours::Records;

pub struct Call {
    pub kind: u64,
    /// What the record has behind its kind.
    pub words: Vec<u64>,
    /// What the line has behind the kind, from the front. What is beyond it is not looked at, and such a call is not for the sample.
    pub answer: Vec<Part>,
}

impl Call {
    /// A call whose line is not held against anything.
    pub fn unanswered(kind: u64, words: Vec<u64>) -> Self {
        Self { kind, words, answer: vec![] }
    }
}

/// Words that follow one another in a line, with the name that they are counted by.
pub enum Part {
    /// What has to be the same and is not counted: what goes in and comes back, what the Rust cannot answer otherwise, what is blank by contract.
    Kept(Vec<u64>),
    /// Bit for bit.
    Same(&'static str, Vec<u64>),
    /// Within the tolerance, of a size.
    Near(&'static str, Vec<f64>, f64),
    /// A heading within the tolerance, of a size, modulo a turn.
    Heading(f64, f64),
}

pub fn records<'a>(calls: impl IntoIterator<Item = &'a Call>) -> Records {
    let mut records = Records::default();
    for call in calls {
        records.put(call.kind, &call.words);
    }
    records
}
