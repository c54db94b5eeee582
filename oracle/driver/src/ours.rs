//! The proved side: a program of the repository, its records in and its lines out.
use std::io::{Read, Write};
use std::path::PathBuf;
use std::process::{Command, Stdio};

/// The script that runs a program of the repository by its name.
pub struct Ours {
    pub runner: PathBuf,
}

impl Ours {
    /// Whether the repository has the program.
    pub fn has(&self, program: &str) -> bool {
        let tools = self.runner.parent().expect("a folder");
        tools.join("../crates").join(program).is_dir()
    }

    /// The text that the program writes when it is given the records. A thread of its own writes these, so that no pipe blocks.
    pub fn text(&self, program: &str, records: &Records) -> String {
        let mut child =
            Command::new("bash").arg(&self.runner).arg(program).stdin(Stdio::piped()).stdout(Stdio::piped()).spawn().expect("bash runs");
        let mut into = child.stdin.take().expect("a pipe");
        let bytes = records.bytes.clone();
        let writer = std::thread::spawn(move || into.write_all(&bytes));
        let mut text = String::new();
        let mut from = child.stdout.take().expect("a pipe");
        from.read_to_string(&mut text).expect("text");
        writer.join().expect("no panic").expect("all is read");
        assert!(child.wait().expect("it ends").success(), "{program} failed");
        text
    }

    /// A line for each record, in their order.
    pub fn lines(&self, program: &str, records: &Records) -> std::vec::IntoIter<Line> {
        let text = self.text(program, records);
        let (kinds, lines): (Vec<_>, Vec<_>) = text.lines().map(Line::read).unzip();
        assert_eq!(kinds, records.kinds, "the lines of {program} are those of the records");
        lines.into_iter()
    }
}

/// Each a kind and what it has behind it, in little-endian words of 64 bits.
#[derive(Default)]
pub struct Records {
    pub bytes: Vec<u8>,
    kinds: Vec<u64>,
}

impl Records {
    pub fn put(&mut self, kind: u64, words: &[u64]) {
        self.kinds.push(kind);
        for w in [kind].iter().chain(words) {
            self.bytes.extend(w.to_le_bytes());
        }
    }
}

/// The words of a line behind its kind, which are taken from the front.
pub struct Line(std::vec::IntoIter<u64>);

impl Line {
    fn read(text: &str) -> (u64, Self) {
        let mut words = text.split_whitespace().map(|w| u64::from_str_radix(w, 16).expect("a word"));
        let kind = words.next().expect("a kind");
        (kind, Self(words.collect::<Vec<_>>().into_iter()))
    }

    /// The next n words, or as many as are left.
    pub fn take(&mut self, n: usize) -> Vec<u64> {
        self.0.by_ref().take(n).collect()
    }

    /// The next n numbers. One that is missing is NaN, which is near nothing.
    pub fn floats(&mut self, n: usize) -> Vec<f64> {
        let mut xs: Vec<_> = self.take(n).into_iter().map(f64::from_bits).collect();
        xs.resize(n, f64::NAN);
        xs
    }

    /// The line behind its next n words.
    pub fn behind(&mut self, n: usize) -> &mut Self {
        self.take(n);
        self
    }

    pub fn left(&self) -> usize {
        self.0.len()
    }
}

/// A line as the programs write it.
pub fn line(kind: u64, words: &[u64]) -> String {
    let words: String = [kind].iter().chain(words).map(|w| format!(" {w:016x}")).collect();
    words + "\n"
}

/// The bits of a number; of any NaN, those of one.
pub fn bits(x: f64) -> u64 {
    if x.is_nan() { f64::NAN.to_bits() } else { x.to_bits() }
}

pub fn words(xs: &[f64]) -> Vec<u64> {
    xs.iter().map(|x| bits(*x)).collect()
}
