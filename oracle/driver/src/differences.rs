//! Where the two answer differently on purpose, and some places beside these where they might: the smallest input of each, with both answers, as
//! rows of a table.
mod factors;
mod inertial;
mod numbers;
mod wheel;

use crate::call::{Call, records};
use crate::ours::{Line, Ours, words};

/// Where, the input and the Rust's answer; ours is read from the line of the last call.
struct Row {
    place: &'static str,
    input: String,
    rust: String,
    calls: Vec<Call>,
    read: fn(&mut Line) -> String,
}

pub fn print(ours: &Ours) {
    println!("differences on purpose, and where they might be looked for");
    println!("| Where | The Rust | Ours | Input |\n|---|---|---|---|");
    table(ours, "number_cases", numbers::rows());
    table(ours, "wheel_cases", wheel::rows());
    table(ours, "factor_cases", factors::rows());
    if ours.has("imu_cases") {
        table(ours, "imu_cases", inertial::rows());
    }
    wheel::print_reach_of_log2();
}

fn table(ours: &Ours, program: &str, rows: Vec<Row>) {
    let mut lines = ours.lines(program, &records(rows.iter().flat_map(|r| &r.calls)));
    for row in rows {
        let mut line = lines.nth(row.calls.len() - 1).expect("a line for each");
        let answer = (row.read)(&mut line);
        let answer = if row.rust == answer || row.rust.starts_with(&format!("{answer}, ")) { "the same".into() } else { answer };
        println!("| {} | {} | {answer} | {} |", row.place, row.rust, row.input);
    }
}

/// The refusal that comes next in a line, or what stands behind a 0.
fn unless_refused(line: &mut Line, read: fn(&mut Line) -> String) -> String {
    match line.take(1)[..] {
        [0] => read(line),
        [number] => format!("refused {number}"),
        _ => panic!("a line that ends too early"),
    }
}

fn numbers(bits: &[u64]) -> String {
    let texts: Vec<_> = bits.iter().map(|b| number(f64::from_bits(*b))).collect();
    texts.join(", ")
}

/// The shortest decimal that is the number.
fn number(x: f64) -> String {
    let size = x.abs();
    if x == 0.0 || (1e-4..1e7).contains(&size) || !x.is_finite() { format!("{x}") } else { format!("{x:e}") }
}

fn listed(xs: &[f64]) -> String {
    numbers(&words(xs))
}
