//! What a group of cases came to.
use crate::call::{Call, Part, records};
use crate::ours::{Line, Ours};
use std::collections::BTreeMap;
use std::f64::consts::TAU;

/// Document 01's tolerance, as a part of the largest size that the group of numbers reached.
pub const TOLERANCE: f64 = 1e-6;

#[derive(Default)]
pub struct Group {
    pub name: &'static str,
    pub cases: u64,
    /// What a case is made of, and how many of it.
    pub parts: (&'static str, u64),
    pub note: String,
    answers: BTreeMap<String, u64>,
    left_out: BTreeMap<&'static str, u64>,
    same: BTreeMap<&'static str, u64>,
    near: BTreeMap<&'static str, Worst>,
    apart: Vec<String>,
    aparts: u64,
    /// The same by document 01's own yardstick, of a group that is judged by the widened one.
    pub by_own: Option<Box<Group>>,
}

#[derive(Default, Clone, Copy)]
struct Worst {
    numbers: u64,
    /// How many of them are apart, and the largest of these, on either side.
    apart: u64,
    reach: f64,
    part: f64,
    case: u64,
}

impl Group {
    pub fn new(name: &'static str, part: &'static str) -> Self {
        Self { name, parts: (part, 0), ..Self::default() }
    }

    pub fn leave_out(&mut self, why: &'static str) {
        *self.left_out.entry(why).or_default() += 1;
    }

    /// Counts an answer, by its refusal and by what was asked, unless that was a reading.
    pub fn tally(&mut self, what: &str, refusal: u64) {
        let answer = match (what, refusal) {
            ("", 0) => "accepted".into(),
            ("", n) => format!("refused {n}"),
            (what, 0) => what.into(),
            (what, n) => format!("{what} refused {n}"),
        };
        *self.answers.entry(answer).or_default() += 1;
    }

    /// Asks ours the calls of some cases, and holds what it says against what the Rust does.
    pub fn ask(&mut self, ours: &Ours, program: &str, cases: &[impl AsRef<[Call]>]) {
        let mut lines = ours.lines(program, &records(cases.iter().flat_map(AsRef::as_ref)));
        for case in cases {
            for (call, mut line) in case.as_ref().iter().zip(lines.by_ref()) {
                self.hold(&mut line, &call.answer);
            }
            self.cases += 1;
        }
    }

    /// Holds a line against what the Rust answers.
    pub fn hold(&mut self, line: &mut Line, answer: &[Part]) {
        for part in answer {
            match part {
                Part::Kept(words) => {
                    let ours = line.take(words.len());
                    if ours != *words {
                        self.tell(1, format!("what is kept: ours {ours:x?}, and not {words:x?}"));
                    }
                }
                Part::Same(what, words) => self.same(what, line.take(words.len()), words.clone()),
                Part::Near(what, xs, size) => self.near(what, &line.floats(xs.len()), xs, *size),
                Part::Heading(x, size) => self.near_heading(line.floats(1)[0], *x, *size),
            }
        }
    }

    /// Bit for bit.
    pub fn same<T: PartialEq + std::fmt::Debug>(&mut self, what: &'static str, ours: T, rust: T) {
        *self.same.entry(what).or_default() += 1;
        if ours != rust {
            self.tell(1, format!("{what}: ours {ours:x?}, the Rust {rust:x?}"));
        }
    }

    /// Within the tolerance, of a size.
    pub fn near(&mut self, what: &'static str, ours: &[f64], rust: &[f64], size: f64) {
        let errors: Vec<_> = ours.iter().zip(rust).map(|(a, b)| (a - b).abs()).collect();
        self.judge(what, ours, rust, &errors, size);
    }

    /// The same, modulo a turn.
    fn near_heading(&mut self, ours: f64, rust: f64, size: f64) {
        let error = (ours - rust).abs();
        self.judge("heading", &[ours], &[rust], &[error.min((error - TAU).abs())], size);
    }

    fn judge(&mut self, what: &'static str, ours: &[f64], rust: &[f64], errors: &[f64], size: f64) {
        let worst = self.near.entry(what).or_default();
        let (mut apart, mut part) = (0, 0.0);
        for ((a, b), error) in ours.iter().zip(rust).zip(errors) {
            let here = if *error == 0.0 { 0.0 } else { error / size };
            part = larger(part, here);
            let is_near = here <= TOLERANCE;
            if !is_near {
                apart += 1;
                worst.reach = larger(worst.reach, largest(&[*a, *b]));
            }
        }
        worst.numbers += errors.len() as u64;
        worst.apart += apart;
        if part > worst.part || (part.is_nan() && !worst.part.is_nan()) {
            worst.part = part;
            worst.case = self.cases;
        }
        if apart > 0 {
            self.tell(apart, format!("{what}: ours {ours:?}, the Rust {rust:?}, {part:e} of the size {size:e}"));
        }
    }

    /// So many are apart.
    fn tell(&mut self, apart: u64, text: String) {
        self.aparts += apart;
        if self.apart.len() < 8 {
            let case = self.cases;
            self.apart.push(format!("case {case} {text}"));
        }
    }

    /// Whether all of it agrees, by the yardstick that it is judged by.
    pub fn agrees(&self) -> bool {
        self.aparts == 0
    }

    /// Whether it agrees, and not by document 01's own yardstick.
    fn agrees_widened_only(&self) -> bool {
        self.agrees() && self.by_own.as_ref().is_some_and(|own| !own.agrees())
    }

    pub fn print(&self) {
        println!("{}", self.name);
        let (part, n) = self.parts;
        let parts = if n == 0 { String::new() } else { format!(", {n} {part}") };
        println!("  {} cases{parts}", self.cases);
        if !self.note.is_empty() {
            println!("  {}", self.note);
        }
        if !self.answers.is_empty() {
            let answers: Vec<_> = self.answers.iter().map(|(a, n)| format!("{a}: {n}")).collect();
            println!("  {}", answers.join(", "));
        }
        for (why, n) in &self.left_out {
            println!("  left out: {n}, {why}");
        }
        for (what, n) in &self.same {
            println!("  bit for bit: {what}, {n} times");
        }
        match &self.by_own {
            None => self.print_near("within 1e-6"),
            Some(own) => {
                self.print_near("held to 1e-6 by the widened yardstick");
                own.print_near("held to 1e-6 by document 01's own yardstick");
            }
        }
        for text in &self.apart {
            println!("  APART: {text}");
        }
        let own = self.by_own.as_ref().map(|own| format!(" by the widened yardstick; by document 01's own {}", own.verdict()));
        println!("  {}{}", self.verdict(), own.unwrap_or_default());
    }

    fn print_near(&self, how: &str) {
        for (what, w) in &self.near {
            let apart = match w.apart {
                0 => String::new(),
                n => format!(", {n} of them APART, none of these above {:.1e} in size on either side", w.reach),
            };
            println!("  {how}: {what}, {} numbers{apart}, the largest error {:.1e} (case {})", w.numbers, w.part, w.case);
        }
    }

    fn verdict(&self) -> String {
        if self.agrees() { "all agree".into() } else { format!("{} APART", self.aparts) }
    }
}

/// How many groups agree, and which of them by the widened yardstick only.
pub fn conclude(groups: &[Group]) {
    let agreed = groups.iter().filter(|g| g.agrees()).count();
    let widened: Vec<_> = groups.iter().filter(|g| g.agrees_widened_only()).map(|g| g.name).collect();
    let only = if widened.is_empty() {
        "all by document 01's own yardstick".into()
    } else {
        format!("{} of them by the widened yardstick only: {}", widened.len(), widened.join(", "))
    };
    println!("{agreed} of {} groups agree, {only}", groups.len());
}

/// The larger of two; NaN, if one is.
pub fn larger(a: f64, b: f64) -> f64 {
    if a.is_nan() || a > b { a } else { b }
}

pub fn largest(xs: &[f64]) -> f64 {
    xs.iter().fold(0.0, |a, x| larger(a, x.abs()))
}
