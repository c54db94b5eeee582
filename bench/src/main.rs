//! Times each function of the proved library against the Rust on the same inputs: the best of two hundred rounds, in nanoseconds for one call or step.
//! Before a line is timed, both sides' answers are compared, so that neither is timed at doing nothing.
mod mapping;

use kornia_sensors::imu::{ImuBias, ImuCalib, ImuMeasurement, PreintegratedImu};
use kornia_sensors::wheel::{DifferentialDrive, WheelMeasurement, WheelNoise, WheelPreintegration};
use kornia_algebra::Vec3F64;
use std::fmt::Write;
use std::hint::black_box;
use std::time::Instant;

unsafe extern "C" {
    fn bench_root(x: f64) -> f64;
    fn bench_sine_plus_cosine(x: f64) -> f64;
    fn bench_wheel_run(events: *const u8, n: usize) -> f64;
    fn bench_replay(log: *const u8, n: usize) -> usize;
    fn bench_order(samples: *const f64, n: usize, t0: f64, t1: f64, order: *mut usize, places: usize);
    fn bench_inertial_batch(samples: *const f64, n: usize) -> f64;
    #[allow(clippy::too_many_arguments)]
    fn bench_information(heading: f64, cxx: f64, cxy: f64, cxw: f64, cyy: f64, cyw: f64, cww: f64) -> f64;
}

const ROUNDS: usize = 200;

/// The shortest round of each side, divided by the steps of one. The rounds alternate, so that a machine that slows down for a while does so for both.
fn best(steps: usize, mut ours: impl FnMut(), mut rust: impl FnMut()) -> (f64, f64) {
    let mut shortest = (f64::INFINITY, f64::INFINITY);
    for _ in 0..ROUNDS {
        shortest.0 = shortest.0.min(time(&mut ours));
        shortest.1 = shortest.1.min(time(&mut rust));
    }
    (shortest.0 / steps as f64, shortest.1 / steps as f64)
}

fn time(round: &mut impl FnMut()) -> f64 {
    let start = Instant::now();
    round();
    start.elapsed().as_secs_f64() * 1e9
}

/// A thousand calls, for each of which the answer is looked at.
fn thousand<T>(mut call: impl FnMut(usize) -> T) -> impl FnMut() {
    move || {
        for i in 0..1000 {
            black_box(call(black_box(i)));
        }
    }
}

fn line(name: &str, (ours, rust): (f64, f64)) {
    println!("| {name} | {ours:.1} | {rust:.1} | {:.2} |", ours / rust);
}

fn near(a: f64, b: f64) {
    assert!((a - b).abs() <= 1e-9 * a.abs().max(b.abs()), "{a} {b}");
}

// ---- inputs: one walk, as 64-byte events and as the Rust's measurements

/// How many bytes an event has; a reading's 26 stand at its front.
const EVENT: usize = 64;

struct Walk {
    bytes: Vec<u8>,
    readings: Vec<WheelMeasurement>,
}

fn walk(n: usize, hertz: f64) -> Walk {
    let mut bytes = Vec::new();
    let mut readings = Vec::new();
    let (mut left, mut right) = (0i64, 0i64);
    for i in 0..n {
        let time = i as f64 / hertz;
        left += (40000.0 / hertz) as i64 + (i % 7) as i64;
        right += (43000.0 / hertz) as i64 + (i % 5) as i64;
        bytes.extend([0, 1]);
        bytes.extend(time.to_le_bytes());
        bytes.extend(left.to_le_bytes());
        bytes.extend(right.to_le_bytes());
        bytes.resize(EVENT * (i + 1), 0);
        readings.push(WheelMeasurement::ticks(time, [left, right]));
    }
    Walk { bytes, readings }
}

fn integrator() -> WheelPreintegration {
    let drive = DifferentialDrive { wheel_radius: 0.1, track_width: 0.5, ticks_per_revolution: 65536.0 };
    WheelPreintegration::new(drive, WheelNoise::default()).unwrap()
}

fn rust_run(readings: &[WheelMeasurement]) -> f64 {
    let mut s = integrator();
    for m in readings {
        let _ = s.integrate(m);
    }
    black_box(s.motion());
    s.dt()
}

fn wheel_steps(name: &str, hertz: f64) {
    let w = walk(1000, hertz);
    let ours = || unsafe { bench_wheel_run(black_box(w.bytes.as_ptr()), w.bytes.len()) };
    near(ours(), rust_run(&w.readings));
    let times = best(
        1000,
        || {
            black_box(ours());
        },
        || {
            black_box(rust_run(black_box(&w.readings)));
        },
    );
    line(name, times);
}

// ---- the largest log. The Rust has no replay: what stands beside ours reads the same bytes, runs the Rust's integrator and writes the same lines.

fn log(n: usize, width: u32) -> Vec<u8> {
    let mut log = 1u32.to_le_bytes().to_vec();
    for x in [0.1f64, 0.1, 0.5, 65536.0, 0.05, 0.01] {
        log.extend(x.to_le_bytes());
    }
    log.extend((width as u64).to_le_bytes());
    log.extend((n as u32).to_le_bytes());
    for r in walk(n, 10.0).bytes.chunks_exact(EVENT) {
        log.extend(&r[..10]);
        log.extend(turned_over(i64_at(r, 10), width).to_le_bytes());
        log.extend(turned_over(i64_at(r, 18), width).to_le_bytes());
    }
    log
}

/// What a counter of this width shows.
fn turned_over(count: i64, width: u32) -> i64 {
    if width == 64 { count } else { count.rem_euclid(1 << width) }
}

fn f64_at(s: &[u8], i: usize) -> f64 {
    f64::from_le_bytes(s[i..i + 8].try_into().unwrap())
}

fn i64_at(s: &[u8], i: usize) -> i64 {
    i64::from_le_bytes(s[i..i + 8].try_into().unwrap())
}

fn rust_replay(log: &[u8]) -> usize {
    // both radii are the same here, and the Rust has one
    let drive = DifferentialDrive { wheel_radius: f64_at(log, 4), track_width: f64_at(log, 20), ticks_per_revolution: f64_at(log, 28) };
    let noise = WheelNoise { wheel_rate: f64_at(log, 36), lateral_velocity: f64_at(log, 44) };
    let mut s = WheelPreintegration::new(drive, noise).unwrap();
    let mut text = String::with_capacity(65536);
    let mut accepted = 0;
    for (i, r) in log[64..].chunks_exact(26).enumerate() {
        let time = f64_at(r, 2);
        let mut m = match r[0] {
            0 => WheelMeasurement::ticks(time, [i64_at(r, 10), i64_at(r, 18)]),
            _ => WheelMeasurement::angular_velocity(time, [f64_at(r, 10), f64_at(r, 18)]),
        };
        m.valid = r[1] == 1;
        match s.integrate(&m) {
            Ok(()) => accepted += 1,
            Err(e) => writeln!(text, "reading {i} refused {e:?}").unwrap(),
        }
    }
    writeln!(text, "accepted {accepted}").unwrap();
    writeln!(text, "dt {:016x}", s.dt().to_bits()).unwrap();
    text.push_str("motion");
    for x in s.motion().delta {
        write!(text, " {:016x}", x.to_bits()).unwrap();
    }
    text.push_str("\ncovariance");
    for x in s.motion().covariance.to_cols_array() {
        write!(text, " {:016x}", x.to_bits()).unwrap();
    }
    text.push('\n');
    black_box(&text);
    text.len()
}

/// The Rust's counters have 64 bits: it gets the walk as such.
fn replay(name: &str, width: u32) {
    let (turning, plain) = (log(2518, width), log(2518, 64));
    let ours = || unsafe { bench_replay(black_box(turning.as_ptr()), turning.len()) };
    assert_eq!(ours(), rust_replay(&plain));
    let times = best(
        1,
        || {
            black_box(ours());
        },
        || {
            black_box(rust_replay(black_box(&plain)));
        },
    );
    line(name, times);
}

// ---- inertial samples

fn samples(n: usize, hertz: f64) -> Vec<f64> {
    (0..n)
        .flat_map(|i| {
            let w = (i % 11) as f64 * 0.01;
            [i as f64 / hertz, 0.1 + w, -0.2, 0.3 - w, 0.1, w, 9.81]
        })
        .collect()
}

fn measurements(samples: &[f64]) -> Vec<ImuMeasurement> {
    samples
        .chunks_exact(7)
        .map(|s| ImuMeasurement { timestamp: s[0], gyro: Vec3F64::new(s[1], s[2], s[3]), accel: Vec3F64::new(s[4], s[5], s[6]) })
        .collect()
}

fn rust_batch(ms: &[ImuMeasurement]) -> f64 {
    let calib = ImuCalib { gyro_noise: 0.001, accel_noise: 0.01, gyro_bias_noise: 0.001, accel_bias_noise: 0.01 };
    let mut s = PreintegratedImu::new(ImuBias::default(), calib);
    s.integrate_batch(ms);
    let dt = s.dt;
    black_box(&s);
    dt
}

fn inertial_step() {
    let flat = samples(1001, 200.0);
    let ms = measurements(&flat);
    let ours = || unsafe { bench_inertial_batch(black_box(flat.as_ptr()), flat.len()) };
    near(ours(), rust_batch(&ms));
    let times = best(
        1000,
        || {
            black_box(ours());
        },
        || {
            black_box(rust_batch(black_box(&ms)));
        },
    );
    line("an inertial step", times);
}

/// 4,096 samples at the times i / 200 s, the i in the order that is handed in.
fn ordering(name: &str, places: Vec<usize>) {
    let mut flat = samples(places.len(), 200.0);
    for (i, place) in places.iter().enumerate() {
        flat[7 * i] = *place as f64 / 200.0;
    }
    let ms = measurements(&flat);
    let mut order = vec![0usize; ms.len()];
    let ours = |order: &mut [usize]| unsafe { bench_order(black_box(flat.as_ptr()), flat.len(), 0.0, 100.0, order.as_mut_ptr(), order.len()) };
    ours(&mut order);
    let rust = || {
        let mut sorted: Vec<&ImuMeasurement> = ms.iter().filter(|m| m.timestamp >= 0.0 && m.timestamp <= 100.0).collect();
        sorted.sort_by(|a, b| a.timestamp.total_cmp(&b.timestamp));
        sorted
    };
    assert!(order.iter().zip(rust()).all(|(&i, m)| std::ptr::eq(&ms[i], m)));
    let times = best(
        1,
        || ours(&mut order),
        || {
            black_box(rust());
        },
    );
    line(name, times);
}

/// The numbers below n, exchanged at random places: a generator of 64 bits with a fixed start.
fn shuffled(n: usize) -> Vec<usize> {
    let mut places: Vec<usize> = (0..n).collect();
    let mut state = 1u64;
    for i in (1..n).rev() {
        state = state.wrapping_mul(6364136223846793005).wrapping_add(1442695040888963407);
        places.swap(i, (state >> 33) as usize % (i + 1));
    }
    places
}

fn orderings() {
    ordering("an ordering of 4,096 samples, a fixed step apart", (0..4096).map(|i| (i * 2654435761) % 4096).collect());
    ordering("the same, at random", shuffled(4096));
    ordering("the same, eight out of place", {
        let mut places: Vec<usize> = (0..4096).collect();
        for k in 0..4 {
            places.swap(1000 * k + 7, 1000 * k + 500);
        }
        places
    });
    ordering("the same, in order", (0..4096).collect());
    ordering("the same, backwards", (0..4096).rev().collect());
}

// ---- small calls, a thousand at a time

fn information() {
    let c = |i: usize| 0.01 + i as f64 * 1e-5;
    let ours = |i: usize| unsafe { bench_information(0.001 * i as f64, c(i), 0.001, 0.002, c(i), 0.003, c(i)) };
    let rust = |i: usize| {
        let m = mapping::wheel_odom::WheelOdomMeasurement::new(
            [0.0, 0.0, 0.001 * i as f64],
            [[c(i), 0.001, 0.002], [0.001, c(i), 0.003], [0.002, 0.003, c(i)]],
        );
        m.information().unwrap()
    };
    near(ours(3), rust(3)[0][0]);
    line("an `information`", best(1000, thousand(ours), thousand(rust)));
}

fn numbers() {
    let x = |i: usize| 0.001 + 0.003 * i as f64;
    near(unsafe { bench_root(x(5)) }, x(5).sqrt());
    line("a root", best(1000, thousand(|i| unsafe { bench_root(x(i)) }), thousand(|i| x(i).sqrt())));
    let rust = |x: f64| {
        let (s, c) = x.sin_cos();
        s + c
    };
    near(unsafe { bench_sine_plus_cosine(x(5)) }, rust(x(5)));
    let ours = |x: f64| unsafe { bench_sine_plus_cosine(x) };
    line("a sine and cosine, up to 3 rad", best(1000, thousand(|i| ours(x(i))), thousand(|i| rust(x(i)))));
    let y = |i: usize| 0.00003 * i as f64;
    line("a sine and cosine, up to 0.03 rad", best(1000, thousand(|i| ours(y(i))), thousand(|i| rust(y(i)))));
}

fn main() {
    println!("| | ours, ns | the Rust, ns | ours / the Rust |");
    println!("|---|---|---|---|");
    wheel_steps("a wheel step at 100 Hz", 100.0);
    wheel_steps("a wheel step at 10 Hz", 10.0);
    replay("the replay of a log of 2,518 readings", 64);
    replay("the same, counters of 16 bits", 16);
    inertial_step();
    orderings();
    information();
    numbers();
}
