//! The number leaves, against Rust itself.
use crate::ours::{Ours, Records, bits};
use crate::random::Random;
use crate::report::{Group, larger};
use crate::wheel::WIDTH;

const CASES: u64 = 20_000;

/// A whole number of any length, with either sign.
fn whole(random: &mut Random) -> i64 {
    (random.word() as i64) >> random.below(64)
}

/// An angle of at most 4 in size, over many orders of magnitude.
fn angle(random: &mut Random) -> f64 {
    if random.once_in(2) { random.between(-4.0, 4.0) } else { random.signed(1e-9, 4.0) }
}

/// What goes in, and what Rust makes of it, for each of the kinds 1 to 4.
fn drawn(random: &mut Random) -> [(Vec<u64>, Vec<u64>); 4] {
    let n = whole(random);
    let (from, to) = (whole(random), whole(random));
    let x = random.size(f64::from_bits(1), f64::MAX);
    let a = angle(random);
    let (sine, cosine) = a.sin_cos();
    [
        (vec![n as u64], vec![bits(n as f64)]),
        (vec![WIDTH, from as u64, to as u64], vec![to.wrapping_sub(from) as u64]),
        (vec![bits(x)], vec![0, bits(x.sqrt())]),
        (vec![bits(a)], vec![0, bits(sine), bits(cosine)]),
    ]
}

/// How far a sine and a cosine are off; of anything else, infinitely if a bit is.
fn error(ours: &[u64], rust: &[u64]) -> f64 {
    match (ours, rust) {
        ([0, a, b], [0, sine, cosine]) => {
            let apart = |x: &u64, y: &u64| (f64::from_bits(*x) - f64::from_bits(*y)).abs();
            larger(apart(a, sine), apart(b, cosine))
        }
        _ if ours == rust => 0.0,
        _ => f64::INFINITY,
    }
}

pub fn leaves(ours: &Ours, random: &mut Random) -> Group {
    let mut group = Group::new("number leaves: whole numbers, tick differences, roots, and sines and cosines within 2e-15", "");
    let cases: Vec<_> = (0..CASES).map(|_| drawn(random)).collect();
    let mut records = Records::default();
    for (kind, (given, _)) in cases.iter().flat_map(|four| (1..).zip(four)) {
        records.put(kind, given);
    }
    let mut lines = ours.lines("number_cases", &records);
    let (mut right, mut largest) = ([0; 4], 0.0);
    for four in &cases {
        for (right, (_, rust)) in right.iter_mut().zip(four) {
            let error = error(&lines.next().expect("one").take(rust.len()), rust);
            *right += u64::from(error <= 2e-15);
            largest = larger(largest, error);
        }
    }
    for right in right {
        group.same("all of a kind right", right, CASES);
    }
    group.cases = 4 * CASES;
    group.note = format!("largest error of a sine or cosine: {:.0}e-17", 1e17 * largest);
    group
}
