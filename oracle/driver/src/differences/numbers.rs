//! The number leaves.
use super::{Row, listed, number, numbers, unless_refused};
use crate::call::Call;
use crate::ours::words;

pub fn rows() -> Vec<Row> {
    vec![turn("sine and cosine of −0", -0.0)]
}

fn turn(place: &'static str, angle: f64) -> Row {
    let (sine, cosine) = angle.sin_cos();
    let calls = vec![Call::unanswered(4, words(&[angle]))];
    let read = |line: &mut _| unless_refused(line, |line| numbers(&line.take(2)));
    Row { place, input: format!("angle {}", number(angle)), rust: listed(&[sine, cosine]), calls, read }
}
