//! The inertial part, where every refusal is added.
use super::{Row, number, numbers, unless_refused};
use crate::call::Call;
use crate::inertial::{Window, World, bias_words, parameter_words, samples_words, step_words};
use crate::ours::{Line, words};
use kornia_algebra::{Mat3F64, Vec3F64};
use kornia_sensors::imu::{ImuBias, ImuCalib, ImuMeasurement, PreintegratedImu};

const CALIB: ImuCalib = ImuCalib { gyro_noise: 1.0, accel_noise: 1.0, gyro_bias_noise: 1.0, accel_bias_noise: 1.0 };

/// Those of a window's order buffer, which stand before the motion.
const PLACES: usize = 8;

fn reading(timestamp: f64, gyro: f64) -> ImuMeasurement {
    ImuMeasurement { timestamp, gyro: Vec3F64::new(gyro, 0.0, 0.0), accel: Vec3F64::new(1.0, 0.0, 0.0) }
}

pub fn rows() -> Vec<Row> {
    let mut rows = vec![
        made("making with a density below 0", "gyro noise −1", ImuBias::default(), ImuCalib { gyro_noise: -1.0, ..CALIB }),
        made("making with a bias that is not finite", "gyro bias (NaN, 0, 0)", bias(f64::NAN), CALIB),
        step("step over no time", reading(0.0, 0.0), 0.0),
        step("step over −0", reading(0.0, 0.0), -0.0),
        step("step over a time below 0", reading(0.0, 0.0), -1.0),
        step("step over a time that is not finite", reading(0.0, 0.0), f64::NAN),
        step("step whose reading's time is not finite", reading(f64::NAN, 0.0), 1.0),
        step("step that turns above 4", reading(0.0, 5.0), 1.0),
        step("step that turns exactly 4", reading(0.0, 4.0), 1.0),
        step("step whose angle's square overflows", reading(0.0, 1e200), 1.0),
        step("step that overflows", reading(0.0, 0.0), 1e200),
        correction("correction that turns above 4", bias(5.0)),
        correction("correction to a bias that is not finite", bias(f64::NAN)),
        prediction(),
        widened("widening that overflows", 1e200, 1e200),
        widened("widening by no time", 1.0, 0.0),
    ];
    rows.extend(batches());
    rows.extend(intervals());
    rows.extend(windows());
    rows
}

fn bias(gyro: f64) -> ImuBias {
    ImuBias { gyro: Vec3F64::new(gyro, 0.0, 0.0), accel: Vec3F64::ZERO }
}

/// Some numbers of a state that tell it.
fn told(p: &PreintegratedImu) -> String {
    let v = p.delta_velocity.x;
    let r = p.delta_rotation.to_cols_array()[4];
    format!("taken: dt {}, velocity x {}, rotation yy {}, covariance xx {}", number(p.dt), number(v), number(r), number(p.covariance[0]))
}

/// Of ours, from the motion that comes next in a line.
fn told_by(line: &mut Line) -> String {
    let (r, v, _, dt) = (line.take(9), line.take(3), line.take(3), line.take(1));
    format!("taken: dt {}, velocity x {}, rotation yy {}", numbers(&dt), numbers(&v[..1]), numbers(&r[4..5]))
}

fn begun(bias: &ImuBias, calib: &ImuCalib) -> (Vec<Call>, PreintegratedImu) {
    (vec![Call::unanswered(2, parameter_words(bias, calib))], PreintegratedImu::new(*bias, *calib))
}

fn made(place: &'static str, input: &str, bias: ImuBias, calib: ImuCalib) -> Row {
    let (calls, _) = begun(&bias, &calib);
    Row { place, input: input.into(), rust: "a state".into(), calls, read: |line| unless_refused(line, told_by) }
}

fn stepped(m: &ImuMeasurement, dt: f64) -> (Vec<Call>, PreintegratedImu) {
    let (mut calls, mut rust) = begun(&ImuBias::default(), &CALIB);
    calls.push(Call::unanswered(3, step_words(m, dt)));
    rust.integrate(m, dt);
    (calls, rust)
}

fn step(place: &'static str, m: ImuMeasurement, dt: f64) -> Row {
    let (calls, rust) = stepped(&m, dt);
    let input = format!("densities 1, time {}, gyro ({}, 0, 0), accel (1, 0, 0), dt {}", number(m.timestamp), number(m.gyro.x), number(dt));
    Row { place, input, rust: told(&rust), calls, read: |line| unless_refused(line, told_by) }
}

/// After one step of 1 s at rest.
fn correction(place: &'static str, bias: ImuBias) -> Row {
    let (mut calls, rust) = stepped(&reading(0.0, 0.0), 1.0);
    calls.push(Call::unanswered(8, bias_words(&bias)));
    let turned = rust.delta_rotation_with_bias(&bias).to_cols_array();
    let input = format!("one step of 1 s at rate 0, then gyro bias ({}, 0, 0)", number(bias.gyro.x));
    let rust = format!("rotation yy {}", number(turned[4]));
    Row { place, input, rust, calls, read: |line| unless_refused(line, |line| numbers(&line.take(9))) }
}

fn prediction() -> Row {
    let (mut calls, rust) = stepped(&reading(0.0, 0.0), 1.0);
    let from = World { r: Mat3F64::IDENTITY, v: Vec3F64::new(f64::NAN, 0.0, 0.0), p: Vec3F64::ZERO, g: Vec3F64::ZERO };
    calls.push(Call::unanswered(11, from.words()));
    let (_, v1, _) = rust.predict(&from.r, &from.v, &from.p, &from.g);
    let rust = format!("velocity x {}", number(v1.x));
    let input = "one step of 1 s, then from velocity (NaN, 0, 0)".into();
    let read = |line: &mut Line| unless_refused(line, |line| format!("velocity x {}", numbers(&line.behind(9).take(1))));
    Row { place: "prediction from a number that is not finite", input, rust, calls, read }
}

fn widened(place: &'static str, density: f64, seconds: f64) -> Row {
    let (mut calls, mut rust) = begun(&ImuBias::default(), &ImuCalib { gyro_bias_noise: density, ..CALIB });
    calls.push(Call::unanswered(4, words(&[seconds])));
    rust.widen_bias_walk(seconds);
    let input = format!("walk of the gyro bias {}, seconds {}", number(density), number(seconds));
    let rust = format!("bias covariance xx {}", number(rust.bias_covariance[0]));
    Row { place, input, rust, calls, read: |line| unless_refused(line, |_| "accepted".into()) }
}

fn batches() -> Vec<Row> {
    [
        ("batch, a time that is not finite", "two readings at times 0, NaN", vec![0.0, f64::NAN]),
        ("batch, a time twice", "two readings at times 1, 1", vec![1.0, 1.0]),
        ("batch, times that fall", "two readings at times 1, 0", vec![1.0, 0.0]),
        ("batch of one", "one reading at time NaN", vec![f64::NAN]),
        ("batch of more than 4,096", "4,097 readings at times 0, 1, ..", (0..4097).map(f64::from).collect()),
    ]
    .into_iter()
    .map(|(place, input, times)| batch(place, input, &at(&times)))
    .collect()
}

fn at(times: &[f64]) -> Vec<ImuMeasurement> {
    times.iter().map(|t| reading(*t, 0.0)).collect()
}

fn batch(place: &'static str, input: &str, samples: &[ImuMeasurement]) -> Row {
    let (mut calls, mut rust) = begun(&ImuBias::default(), &CALIB);
    calls.push(Call::unanswered(5, samples_words(samples)));
    rust.integrate_batch(samples);
    // The index stands before the motion.
    Row { place, input: input.into(), rust: told(&rust), calls, read: |line| unless_refused(line, |line| told_by(line.behind(1))) }
}

/// The same two readings by both ways in: a batch takes the reading before an interval, a window the one after.
fn intervals() -> Vec<Row> {
    let faster = ImuMeasurement { accel: Vec3F64::new(3.0, 0.0, 0.0), ..reading(1.0, 0.0) };
    let samples = [reading(0.0, 0.0), faster];
    let input = "accel 1 at time 0, accel 3 at time 1";
    vec![batch("batch of two readings", input, &samples), window("window over the same two", input, &samples, 0.0, 1.0)]
}

fn windows() -> Vec<Row> {
    [
        ("window, a reading at no time", "readings at NaN, 1; window 0 to 2", vec![f64::NAN, 1.0], 0.0, 2.0),
        ("window from no time", "a reading at 1; window NaN to 2", vec![1.0], f64::NAN, 2.0),
        ("window without an end", "a reading at 1; window 0 to infinity", vec![1.0], 0.0, f64::INFINITY),
        ("window that ends before it starts", "a reading at 1; window 2 to 0", vec![1.0], 2.0, 0.0),
        ("window of no time", "a reading at 1; window 1 to 1", vec![1.0], 1.0, 1.0),
    ]
    .into_iter()
    .map(|(place, input, times, t0, t1)| window(place, input, &at(&times), t0, t1))
    .collect()
}

fn window(place: &'static str, input: &str, samples: &[ImuMeasurement], t0: f64, t1: f64) -> Row {
    let w = Window { bias: ImuBias::default(), calib: CALIB, samples: samples.to_vec(), t0, t1 };
    let calls = vec![Call::unanswered(6, w.words(PLACES))];
    let read = |line: &mut Line| unless_refused(line, |line| told_by(line.behind(PLACES)));
    Row { place, input: input.into(), rust: told(&w.rust()), calls, read }
}
