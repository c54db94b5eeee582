//! Runs of the inertial accumulation: steps, corrections, predictions, widening, batches and windows.
use crate::call::{Call, Part, records};
use crate::ours::{Line, Ours, words};
use crate::random::{LEAST, MOST, Random};
use crate::report::{Group, larger, largest};
use kornia_algebra::{Mat3F64, Vec3F64};
use kornia_sensors::imu::{GRAVITY_MAGNITUDE, ImuBias, ImuCalib, ImuMeasurement, PreintegratedImu};

#[derive(Default)]
pub struct Run {
    pub calls: Vec<Call>,
    sizes: Sizes,
    steps: u64,
    /// Steps and corrections that the added refusal 8 keeps from the Rust.
    refused_8: u64,
}

/// The largest sizes that the groups of numbers reached in a run, by the Rust.
#[derive(Default)]
struct Sizes([f64; 10]);

// ---- the Rust

const NAMES: [&str; 10] = [
    "rotation",
    "velocity",
    "position",
    "covariance",
    "bias covariance",
    "Jacobian, rotation by gyro bias",
    "Jacobian, velocity by gyro bias",
    "Jacobian, velocity by accel bias",
    "Jacobian, position by gyro bias",
    "Jacobian, position by accel bias",
];

fn groups(p: &PreintegratedImu) -> [Vec<f64>; 10] {
    let matrix = |m: &Mat3F64| m.to_cols_array().to_vec();
    [
        matrix(&p.delta_rotation),
        p.delta_velocity.to_array().to_vec(),
        p.delta_position.to_array().to_vec(),
        p.covariance.to_vec(),
        p.bias_covariance.to_vec(),
        matrix(&p.d_rotation_d_bias_gyro),
        matrix(&p.d_velocity_d_bias_gyro),
        matrix(&p.d_velocity_d_bias_accel),
        matrix(&p.d_position_d_bias_gyro),
        matrix(&p.d_position_d_bias_accel),
    ]
}

/// The angle of a rotation vector, as document 01 takes it.
pub fn angle(v: Vec3F64) -> f64 {
    v.dot(v).sqrt()
}

impl Sizes {
    fn reach(&mut self, rust: &PreintegratedImu) {
        for (size, xs) in self.0.iter_mut().zip(groups(rust)) {
            *size = larger(*size, largest(&xs));
        }
    }

    /// What is asked of a rotation (0), velocity (1) or position (2) at the end of a run: within the size that it reached in the run, in what the
    /// call starts from, or in the answer.
    fn near(&self, what: &'static str, group: usize, from: &[f64], answer: &[f64]) -> Part {
        let size = [self.0[group], largest(from), largest(answer)].into_iter().fold(0.0, larger);
        Part::Near(what, answer.to_vec(), size)
    }
}

/// What a prediction starts from.
pub struct World {
    pub r: Mat3F64,
    pub v: Vec3F64,
    pub p: Vec3F64,
    pub g: Vec3F64,
}

impl World {
    pub fn words(&self) -> Vec<u64> {
        [words(&self.r.to_cols_array()), words(&[self.v, self.p, self.g].map(|x| x.to_array()).concat())].concat()
    }
}

/// What became of a call.
fn said(number: u64) -> Part {
    Part::Same("accepted", vec![number])
}

impl Run {
    fn call(&mut self, kind: u64, words: Vec<u64>, answer: Vec<Part>) {
        self.calls.push(Call { kind, words, answer });
    }

    /// What the Rust is kept from. That ours changes nothing shows in the next call.
    fn refuse_8(&mut self, kind: u64, words: Vec<u64>) {
        self.refused_8 += 1;
        self.call(kind, words, vec![said(8)]);
    }

    /// A call that gives a state, whose motion the line ends with.
    fn call_for_state(&mut self, kind: u64, words: Vec<u64>, mut answer: Vec<Part>, rust: &PreintegratedImu) {
        self.sizes.reach(rust);
        answer.extend(self.motion_parts(rust));
        self.call(kind, words, answer);
    }

    /// Some groups of numbers, within the sizes that they reached.
    fn near(&self, rust: &PreintegratedImu, which: std::ops::Range<usize>) -> Vec<Part> {
        let all = groups(rust).into_iter().zip(NAMES).zip(self.sizes.0);
        all.map(|((xs, what), size)| Part::Near(what, xs, size)).skip(which.start).take(which.len()).collect()
    }

    fn motion_parts(&self, rust: &PreintegratedImu) -> Vec<Part> {
        let mut parts = self.near(rust, 0..3);
        parts.push(Part::Same("dt", words(&[rust.dt])));
        parts
    }

    pub fn make(&mut self, bias: &ImuBias, calib: &ImuCalib) -> PreintegratedImu {
        let rust = PreintegratedImu::new(*bias, *calib);
        self.call_for_state(2, parameter_words(bias, calib), vec![said(0)], &rust);
        rust
    }

    pub fn step(&mut self, rust: &mut PreintegratedImu, m: &ImuMeasurement, dt: f64) {
        if angle((m.gyro - rust.bias.gyro) * dt) > 4.0 {
            return self.refuse_8(3, step_words(m, dt));
        }
        rust.integrate(m, dt);
        self.steps += 1;
        self.call_for_state(3, step_words(m, dt), vec![said(0)], rust);
    }

    /// Every number of the state.
    pub fn show(&mut self, rust: &PreintegratedImu) {
        let mut answer = self.motion_parts(rust);
        answer.push(Part::Kept(parameter_words(&rust.bias, &rust.calib)));
        answer.extend(self.near(rust, 3..10));
        self.call(12, vec![], answer);
    }

    pub fn widen(&mut self, rust: &mut PreintegratedImu, seconds: f64) {
        rust.widen_bias_walk(seconds);
        self.call_for_state(4, words(&[seconds]), vec![said(0)], rust);
    }

    /// The three corrections.
    pub fn correct(&mut self, rust: &PreintegratedImu, bias: &ImuBias) {
        if angle(rust.d_rotation_d_bias_gyro * (bias.gyro - rust.bias.gyro)) > 4.0 {
            self.refuse_8(8, bias_words(bias));
        } else {
            let rotation = self.sizes.near("corrected rotation", 0, &[], &rust.delta_rotation_with_bias(bias).to_cols_array());
            self.call(8, bias_words(bias), vec![said(0), rotation]);
        }
        let velocity = self.sizes.near("corrected velocity", 1, &[], &rust.delta_velocity_with_bias(bias).to_array());
        self.call(9, bias_words(bias), vec![said(0), velocity]);
        let position = self.sizes.near("corrected position", 2, &[], &rust.delta_position_with_bias(bias).to_array());
        self.call(10, bias_words(bias), vec![said(0), position]);
    }

    pub fn predict(&mut self, rust: &PreintegratedImu, from: &World) {
        let (r, v, p) = rust.predict(&from.r, &from.v, &from.p, &from.g);
        let answer = vec![
            said(0),
            self.sizes.near("predicted rotation", 0, &from.r.to_cols_array(), &r.to_cols_array()),
            self.sizes.near("predicted velocity", 1, &from.v.to_array(), &v.to_array()),
            self.sizes.near("predicted position", 2, &from.p.to_array(), &p.to_array()),
        ];
        self.call(11, from.words(), answer);
    }

    /// The index of a batch in which no step is refused is 0.
    pub fn batch(&mut self, rust: &mut PreintegratedImu, samples: &[ImuMeasurement]) {
        rust.integrate_batch(samples);
        self.steps += samples.len().saturating_sub(1) as u64;
        self.call_for_state(5, samples_words(samples), vec![said(0), Part::Kept(vec![0])], rust);
    }

    /// Into an order buffer of as many places as there are samples; those behind the window's own keep what they held.
    pub fn window(&mut self, w: &Window) -> PreintegratedImu {
        let rust = w.rust();
        // The order is the Rust's own expression, over indices.
        let time = |i: &usize| w.samples[*i].timestamp;
        let n = w.samples.len();
        let mut order: Vec<usize> = (0..n).filter(|i| time(i) >= w.t0 && time(i) <= w.t1).collect();
        order.sort_by(|a, b| time(a).total_cmp(&time(b)));
        self.steps += order.len() as u64;
        let untouched = (order.len()..n).map(|i| 1000 + i as u64).collect();
        let order = order.iter().map(|i| *i as u64).collect();
        let answer = vec![said(0), Part::Same("order of the window", order), Part::Kept(untouched)];
        self.call_for_state(6, w.words(n), answer, &rust);
        rust
    }
}

// ---- what records hold

pub fn bias_words(b: &ImuBias) -> Vec<u64> {
    words(&[b.gyro, b.accel].map(|x| x.to_array()).concat())
}

pub fn calib_words(c: &ImuCalib) -> Vec<u64> {
    words(&[c.gyro_noise, c.accel_noise, c.gyro_bias_noise, c.accel_bias_noise])
}

pub fn parameter_words(bias: &ImuBias, calib: &ImuCalib) -> Vec<u64> {
    [bias_words(bias), calib_words(calib)].concat()
}

fn measurement_words(m: &ImuMeasurement) -> Vec<u64> {
    [words(&[m.timestamp]), words(&m.gyro.to_array()), words(&m.accel.to_array())].concat()
}

pub fn step_words(m: &ImuMeasurement, dt: f64) -> Vec<u64> {
    [measurement_words(m), words(&[dt])].concat()
}

pub fn samples_words(samples: &[ImuMeasurement]) -> Vec<u64> {
    let n = 7 * samples.len() as u64;
    [n, n].into_iter().chain(samples.iter().flat_map(measurement_words)).collect()
}

// ---- what is drawn

/// The largest sizes that a run draws, and whether evenly below them.
pub struct Style {
    rate: f64,
    accel: f64,
    step: f64,
    is_tame: bool,
}

impl Style {
    fn number(&self, random: &mut Random, most: f64) -> f64 {
        if random.once_in(16) {
            0.0
        } else if self.is_tame {
            random.between(-most, most)
        } else {
            random.signed(LEAST, most)
        }
    }

    fn vector(&self, random: &mut Random, most: f64) -> Vec3F64 {
        Vec3F64::from_array(random.three(|r| self.number(r, most)))
    }

    pub fn measurement(&self, random: &mut Random, timestamp: f64) -> ImuMeasurement {
        ImuMeasurement { timestamp, gyro: self.vector(random, self.rate), accel: self.vector(random, self.accel) }
    }

    pub fn bias(&self, random: &mut Random) -> ImuBias {
        let part = if self.is_tame { 0.05 } else { 1.0 };
        ImuBias { gyro: self.vector(random, part * self.rate), accel: self.vector(random, part * self.accel) }
    }

    pub fn calib(&self, random: &mut Random) -> ImuCalib {
        let mut some = |tame: f64| if self.is_tame { random.between(0.0, tame) } else { random.any_size() };
        ImuCalib { gyro_noise: some(2e-3), accel_noise: some(2e-2), gyro_bias_noise: some(2e-5), accel_bias_noise: some(2e-4) }
    }

    pub fn dt(&self, random: &mut Random) -> f64 {
        if self.is_tame { random.between(0.001, self.step) } else { random.size(LEAST, self.step) }
    }
}

pub fn domain_style(random: &mut Random) -> Style {
    let rate = random.size(2e-6, MOST);
    let step = random.size(2e-6, (8.0 / rate).clamp(4e-6, MOST));
    Style { rate, accel: random.size(2e-6, MOST), step, is_tame: false }
}

pub const TAME: Style = Style { rate: 2.0, accel: 12.0, step: 0.01, is_tame: true };

fn drawn(random: &mut Random, style: &Style, length: u64) -> Run {
    let mut run = Run::default();
    let mut rust = run.make(&style.bias(random), &style.calib(random));
    for i in 1..=length {
        let time = random.any();
        let m = style.measurement(random, time);
        let dt = style.dt(random);
        run.step(&mut rust, &m, dt);
        if i % 25 == 0 || i == length {
            run.show(&rust);
        }
        if i % 100 == 0 || i == length {
            ask(random, style, &mut run, &rust);
        }
    }
    let seconds = random.one_of(&[0.0, -1.0, f64::NAN, f64::INFINITY, 1.0, 1e6, 0.25, 1e-6]);
    run.widen(&mut rust, seconds);
    run.show(&rust);
    let count = random.below(60);
    if let Some(samples) = batch(random, style, &rust, count) {
        run.batch(&mut rust, &samples);
        run.show(&rust);
    }
    run
}

/// Corrections at biases near by and anywhere, and a prediction.
fn ask(random: &mut Random, style: &Style, run: &mut Run, rust: &PreintegratedImu) {
    run.correct(rust, &near_bias(random, style, rust));
    run.correct(rust, &style.bias(random));
    run.predict(rust, &world(random, style));
}

/// A bias that turns a correction by less than 4.
pub fn near_bias(random: &mut Random, style: &Style, rust: &PreintegratedImu) -> ImuBias {
    let near = 0.4 / larger(1.0, largest(&rust.d_rotation_d_bias_gyro.to_cols_array()));
    let off = Vec3F64::from_array(random.three(|r| r.between(-near, near)));
    ImuBias { gyro: rust.bias.gyro + off, accel: style.vector(random, style.accel) }
}

pub fn world(random: &mut Random, style: &Style) -> World {
    let r: [f64; 9] = std::array::from_fn(|_| if style.is_tame { random.between(-1.0, 1.0) } else { random.any() });
    let vector = |random: &mut Random| Vec3F64::from_array(random.three(Random::any));
    let (v, p) = (vector(random), vector(random));
    let g = if style.is_tame { Vec3F64::new(0.0, 0.0, -GRAVITY_MAGNITUDE) } else { vector(random) };
    World { r: Mat3F64::from_cols_array(&r), v, p, g }
}

/// Samples at rising times of which no step turns above 4.
pub fn batch(random: &mut Random, style: &Style, rust: &PreintegratedImu, count: u64) -> Option<Vec<ImuMeasurement>> {
    let mut time = random.one_of(&[0.0, 1.0, -1.0]);
    let mut samples = vec![];
    for _ in 0..count {
        samples.push(style.measurement(random, time));
        time += style.dt(random);
        if time.abs() < LEAST {
            time = 0.0;
        }
    }
    let turns = samples.windows(2).map(|w| angle((w[0].gyro - rust.bias.gyro) * (w[1].timestamp - w[0].timestamp)));
    let is_fit = turns.fold(0.0, larger) <= 4.0 && time.abs() <= MOST && samples.windows(2).all(|w| w[1].timestamp > w[0].timestamp);
    is_fit.then_some(samples)
}

pub struct Window {
    pub bias: ImuBias,
    pub calib: ImuCalib,
    pub samples: Vec<ImuMeasurement>,
    pub t0: f64,
    pub t1: f64,
}

impl Window {
    pub fn rust(&self) -> PreintegratedImu {
        PreintegratedImu::from_measurements(self.bias, self.calib, &self.samples, self.t0, self.t1)
    }

    /// With an order buffer of so many places.
    pub fn words(&self, places: usize) -> Vec<u64> {
        let parameters = parameter_words(&self.bias, &self.calib);
        [parameters, words(&[self.t0, self.t1]), vec![places as u64], samples_words(&self.samples)].concat()
    }
}

/// Samples in any order, some outside the window or at one time, some at no time, with rates that turn at most 4 in the whole window.
pub fn window(random: &mut Random, n: u64) -> Window {
    let t0 = random.one_of(&[0.0, -0.0, 1.0, -5.0, 100.0]);
    let t1 = t0 + random.size(1e-3, 1e5);
    let length = t1 - t0;
    let style = Style { rate: (0.5 / length).clamp(LEAST, MOST), accel: random.size(1e-3, MOST), step: 0.0, is_tame: random.once_in(2) };
    let mut samples = vec![];
    for i in 0..n {
        let time = match random.below(24) {
            0 => t0,
            1 => t1,
            2 => -0.0,
            3 => f64::NAN,
            4 => random.one_of(&[f64::INFINITY, f64::NEG_INFINITY]),
            5 if i > 0 => samples[random.below(i) as usize],
            6 => t0 - random.size(1e-3, 1e3),
            7 => t1 + random.size(1e-3, 1e3),
            _ => random.between(t0, t1),
        };
        samples.push(if time.abs() < LEAST && time != 0.0 { 0.0 } else { time });
    }
    let samples: Vec<_> = samples.into_iter().map(|t| style.measurement(random, t)).collect();
    Window { bias: style.bias(random), calib: style.calib(random), samples, t0, t1 }
}

fn window_run(random: &mut Random) -> Run {
    let n = random.one_of(&[0, 1, 2, 5, 30, 200]);
    let w = window(random, n);
    let mut run = Run::default();
    let rust = run.window(&w);
    run.show(&rust);
    run
}

pub fn domain_runs(random: &mut Random) -> Vec<Run> {
    let mut all = vec![];
    for i in 0..80 {
        let style = domain_style(random);
        let length = if i % 4 == 0 { 1000 } else { 1 + random.below(400) };
        all.push(drawn(random, &style, length));
    }
    all
}

pub fn tame_runs(random: &mut Random) -> Vec<Run> {
    (0..20).map(|_| drawn(random, &TAME, 1000)).collect()
}

pub fn window_runs(random: &mut Random) -> Vec<Run> {
    (0..400).map(|_| window_run(random)).collect()
}

// ---- ours

impl Run {
    fn judge(&self, group: &mut Group, lines: &mut impl Iterator<Item = Line>) {
        for (call, mut line) in self.calls.iter().zip(lines) {
            for part in &call.answer {
                if let Part::Near(_, xs, _) = part {
                    group.same("how many numbers", line.left().min(xs.len()), xs.len());
                }
                group.hold(&mut line, std::slice::from_ref(part));
            }
        }
        for _ in 0..self.refused_8 {
            group.leave_out("steps and corrections refused by the added 8, not given to the Rust");
        }
        group.parts.1 += self.steps;
        group.cases += 1;
    }
}

pub fn runs(ours: &Ours, name: &'static str, runs: &[Run]) -> Group {
    let mut lines = ours.lines("imu_cases", &records(runs.iter().flat_map(|r| &r.calls)));
    let mut group = Group::new(name, "steps");
    for run in runs {
        run.judge(&mut group, &mut lines);
    }
    group
}
