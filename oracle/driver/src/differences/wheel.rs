//! Composing, the wheel step, and what is asked of a drive.
use super::{Row, listed, number, numbers, unless_refused};
use crate::call::Call;
use crate::ours::{Line, bits, words};
use crate::wheel::{UNIT, begin, begin_counting, composition, hand_in, least_halvings, read};
use kornia_sensors::wheel::{DifferentialDrive, PlanarMotion, WheelKinematics, WheelMeasurement, WheelNoise, WheelPreintegration};
use std::f64::consts::{FRAC_PI_2, PI};

pub fn rows() -> Vec<Row> {
    let mut rows = vec![
        heading("composed heading, wrapped", 2.0, 2.0),
        heading("composed heading, exactly PI", FRAC_PI_2, FRAC_PI_2),
        heading("composed heading, exactly −PI", -FRAC_PI_2, -FRAC_PI_2),
        heading("composed heading, the next beyond PI", PI, 4.440892098500626e-16),
        heading("composed heading, −0 and −0", -0.0, -0.0),
        heading("composing a heading above 4", 5.0, 0.0),
        heading("composing a number that is not finite", f64::NAN, 0.0),
        step("step angle above 4", [0.0, 4194305.0], &[0.0, 1.0]),
        step("total time that overflows", [0.0, 0.0], &[-1.7e308, 0.0, 1.7e308]),
        counted("a counter of 16 bits that starts again at 0", 16, [65535, 65535], [0, 0]),
        counted("a counter of 16 bits that goes back below 0", 16, [0, 0], [65535, 65535]),
        counted("half the range of a counter of 16 bits", 16, [0, 0], [32768, 32768]),
        counted("a count that a counter of 16 bits does not show", 16, [0, 0], [65536, 0]),
        counted("a counter width that there is none of", 17, [0, 0], [1, 1]),
    ];
    rows.extend(asked_rows());
    rows.extend(halving_rows());
    rows
}

fn heading(place: &'static str, a: f64, b: f64) -> Row {
    let motion = |heading| PlanarMotion { delta: [0.0, 0.0, heading], ..PlanarMotion::IDENTITY };
    let rust = number(motion(a).compose(&motion(b)).delta[2]);
    let input = format!("headings {} and {}", number(a), number(b));
    let calls = composition(&motion(a), &motion(b)).into();
    Row { place, input, rust, calls, read: |line| unless_refused(line, |line| numbers(&line.behind(2).take(1))) }
}

/// How many words of a state's line stand before its motion: the settings.
const SETTINGS: usize = 7;

const QUIET: WheelNoise = WheelNoise { wheel_rate: 0.0, lateral_velocity: 0.0 };

/// Constant rates at some times.
fn step(place: &'static str, rates: [f64; 2], times: &[f64]) -> Row {
    let mut calls = vec![begin(UNIT, &QUIET)];
    let mut rust = WheelPreintegration::new(UNIT, QUIET).expect("fit");
    let mut said = String::new();
    for t in times {
        let m = WheelMeasurement::angular_velocity(*t, rates);
        calls.push(read(&m));
        said = rust.integrate(&m).map_or_else(|e| format!("{e:?}"), |()| "accepted".into());
    }
    let input = format!("radius 1, track 1, no noise, rates {rates:?} at the times {}", listed(times));
    let [x, y, heading] = rust.motion().delta;
    let rust = format!("{said}, dt {}, motion {}, {}, {}", number(rust.dt()), number(x), number(y), number(heading));
    let read = |line: &mut Line| unless_refused(line, |line| format!("accepted, motion {}", numbers(&line.behind(SETTINGS).take(3))));
    Row { place, input, rust, calls, read }
}

/// Two readings of counters that are as wide for ours as is said, on wheels one count of which is a metre of floor.
fn counted(place: &'static str, width: u64, from: [i64; 2], to: [i64; 2]) -> Row {
    let drive = DifferentialDrive { ticks_per_revolution: 2.0 * PI, ..UNIT };
    let mut calls = vec![begin_counting(drive, width)];
    let mut rust = WheelPreintegration::new(drive, WheelNoise::default()).expect("fit");
    let mut said = String::new();
    for (t, ticks) in [(0.0, from), (1.0, to)] {
        let m = WheelMeasurement::ticks(t, ticks);
        calls.push(read(&m));
        said = rust.integrate(&m).map_or_else(|e| format!("{e:?}"), |()| "accepted".into());
    }
    let input = format!("radius 1, track 1, 2·PI ticks per turn, counters of {width} bits, ticks {from:?} and then {to:?}");
    let rust = format!("{said}, {} m ahead", number(rust.motion().delta[0]));
    let read = |line: &mut Line| unless_refused(line, |line| format!("accepted, {} m ahead", numbers(&line.behind(SETTINGS).take(1))));
    Row { place, input, rust, calls, read }
}

fn asked_rows() -> Vec<Row> {
    let of_radius = |wheel_radius| DifferentialDrive { wheel_radius, ..UNIT };
    let (no_radius, large) = (of_radius(0.0), of_radius(1e308));
    let steep = DifferentialDrive { track_width: 1e-308, wheel_radius: 1e10, ..UNIT };
    let twist = |place, input: &str, drive: DifferentialDrive, rates: [f64; 2]| {
        let t = drive.twist(rates);
        row(place, input, drive, Call::unanswered(8, words(&rates)), &[t.vx, t.vy, t.wz])
    };
    let rates = |place, input: &str, ticks: [i64; 2], dt: f64| {
        let ask = Call::unanswered(9, vec![ticks[0] as u64, ticks[1] as u64, bits(dt)]);
        row(place, input, UNIT, ask, &UNIT.wheel_rates_from_ticks(ticks, dt))
    };
    let jacobian = |place, input: &str, drive: DifferentialDrive| {
        let [l, r] = drive.twist_jacobian([0.0; 2]);
        row(place, input, drive, Call::unanswered(10, vec![]), &[l.to_array(), r.to_array()].concat())
    };
    vec![
        twist("twist of an unfit drive", "radius 0, rates 1, 1", no_radius, [1.0, 1.0]),
        twist("twist of a rate that is not finite", "radius 1, track 1, rates NaN, 1", UNIT, [f64::NAN, 1.0]),
        twist("yaw rate of equal radii", "radii 0.1, track 1, rates 1, 3", of_radius(0.1), [1.0, 3.0]),
        twist("both numbers of a twist of equal radii", "radii 0.7, track 1, rates 2, 3", of_radius(0.7), [2.0, 3.0]),
        twist("forward speed of the smallest equal radii", "radii 5e-324, track 1, rates 1, 1", of_radius(5e-324), [1.0, 1.0]),
        twist(
            "yaw rate of rates that are nearly the same",
            "radii 0.1, track 1, rates 3, 3.0000000000000004",
            of_radius(0.1),
            [3.0, 3.0000000000000004],
        ),
        twist("twist of equal radii whose products overflow together", "radii 1e308, track 1, rates 1, 1", large, [1.0, 1.0]),
        twist("twist that overflows", "radius 1e308, track 1, rates 10, 10", large, [10.0, 10.0]),
        rates("rates over no time", "ticks 1, 0, dt 0", [1, 0], 0.0),
        rates("rates over a time below 0", "ticks 1, 0, dt −1", [1, 0], -1.0),
        rates("rates over a time that is not finite", "ticks 1, 0, dt NaN", [1, 0], f64::NAN),
        rates("rates that overflow", "ticks 1, 0, dt 5e-324", [1, 0], 5e-324),
        jacobian("Jacobian of an unfit drive", "radius 0", no_radius),
        jacobian("Jacobian that overflows", "radius 1e10, track 1e-308", steep),
    ]
}

fn row(place: &'static str, input: &str, drive: DifferentialDrive, ask: Call, rust: &[f64]) -> Row {
    let calls = vec![hand_in(drive, &PlanarMotion::IDENTITY), ask];
    Row { place, input: input.into(), rust: listed(rust), calls, read: |line| unless_refused(line, |line| numbers(&line.take(6))) }
}

/// The Rust's count, which is private there: its own expression.
fn rust_halvings(ratio: f64) -> u32 {
    (ratio.log2().ceil() as u32).min(20)
}

pub fn print_reach_of_log2() {
    let reach = |power: f64| {
        let above = |n: &u64| f64::from_bits(power.to_bits() + n);
        (1..100).filter(|n| rust_halvings(above(n)) != least_halvings(above(n))).max().unwrap_or(0)
    };
    let reaches: Vec<_> = (1..20).map(|k| reach(f64::from(1u32 << k)).to_string()).collect();
    println!("f64s just above 2^1 .. 2^19 of which the Rust counts one halving less: {}", reaches.join(" "));
}

/// The first ratio above each of two powers of two whose `log2().ceil()` is not the least count, as a time step.
fn halving_rows() -> Vec<Row> {
    let first = |power: f64| {
        let near = power * 0.01;
        (-8..64i64)
            .map(|n| f64::from_bits(near.to_bits().wrapping_add_signed(n)))
            .find(|dt| dt / 0.01 > power && rust_halvings(dt / 0.01) != least_halvings(dt / 0.01))
    };
    let powers: Vec<f64> = (1..20).map(|k| f64::from(1u32 << k)).filter(|p| first(*p).is_some()).collect();
    [powers.first(), powers.last()].into_iter().flatten().filter_map(|p| first(*p)).map(halving_row).collect()
}

fn halving_row(dt: f64) -> Row {
    let noise = WheelNoise { wheel_rate: 1.0, lateral_velocity: 0.0 };
    let mut calls = vec![begin(UNIT, &noise)];
    let mut rust = WheelPreintegration::new(UNIT, noise).expect("fit");
    for t in [0.0, dt] {
        let m = WheelMeasurement::angular_velocity(t, [1.0, 1.0]);
        calls.push(read(&m));
        rust.integrate(&m).expect("accepted");
    }
    let ratio = dt / 0.01;
    let rust = format!("{} halvings, variance of y {}", ratio.log2().ceil(), rust.motion().covariance.to_cols_array()[4]);
    Row {
        place: "halving count just above a power of two",
        input: format!("dt {dt}, ratio {ratio}, radius 1, track 1, wheel noise 1, rates 1, 1"),
        rust,
        calls,
        read: |line| {
            unless_refused(line, |line| {
                let covariance = line.behind(SETTINGS + 3).take(9);
                let k = least_halvings(line.floats(1)[0] / 0.01);
                format!("{k} halvings, variance of y {}", numbers(&covariance[4..5]))
            })
        },
    }
}
