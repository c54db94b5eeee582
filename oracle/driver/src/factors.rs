//! Wheel factors and still factors.
use crate::call::{Call, Part, records};
use crate::inertial::calib_words;
use crate::mapping::stationary::{StationaryFactor, StationaryGyro};
use crate::mapping::wheel_odom::{WheelOdomFactor, WheelOdomMeasurement};
use crate::ours::{Ours, bits, words};
use crate::random::Random;
use crate::report::{Group, largest};
use crate::wheel::{Sizes, motion, motion_parts, motion_words};
use kornia_3d::pose::Pose3d;
use kornia_algebra::{Mat3F64, Vec3F64};
use kornia_sensors::imu::ImuCalib;

const NOT_FINITE: [f64; 3] = [f64::NAN, f64::INFINITY, f64::NEG_INFINITY];

// ---- what is drawn

/// A number that a check has to find, once in n times.
fn or_unfit(random: &mut Random, x: f64, n: u64) -> f64 {
    if random.once_in(n) { random.one_of(&[0.0, -1.0, f64::NAN, f64::INFINITY, -1e-6]) } else { x }
}

pub fn measurement(random: &mut Random) -> WheelOdomMeasurement {
    let planar = motion(random);
    let mut m = WheelOdomMeasurement::from(planar);
    if random.once_in(3) {
        let (i, j) = random.one_of(&[(0, 1), (0, 2), (1, 2)]);
        let room = 1e-9 * (m.covariance[i][i] * m.covariance[j][j]).abs().sqrt();
        m.covariance[i][j] += room * random.between(-1.5, 1.5);
    }
    if random.once_in(3) {
        let (z, tilt) = (random.positive(), random.positive());
        m = m.with_out_of_plane_sigmas(or_unfit(random, z, 12), or_unfit(random, tilt, 12));
    }
    m
}

fn extrinsic(random: &mut Random) -> Pose3d {
    let mut m: [f64; 9] = std::array::from_fn(|_| random.any());
    let mut t = random.three(Random::any);
    if random.once_in(40) {
        m[random.below(9) as usize] = random.one_of(&NOT_FINITE);
    }
    if random.once_in(40) {
        t[random.below(3) as usize] = random.one_of(&NOT_FINITE);
    }
    Pose3d::new(Mat3F64::from_cols_array(&m), Vec3F64::from_array(t))
}

fn limit(random: &mut Random) -> Option<f64> {
    let x = random.positive();
    random.once_in(2).then(|| or_unfit(random, x, 8))
}

fn factor(random: &mut Random) -> WheelOdomFactor {
    let ends = [random.below(3) as usize, random.below(3) as usize];
    let m = measurement(random);
    WheelOdomFactor::new(ends[0], ends[1], m, extrinsic(random), extrinsic(random), limit(random))
}

// ---- what records and lines hold

fn measurement_words(m: &WheelOdomMeasurement) -> Vec<u64> {
    let columns: [f64; 9] = std::array::from_fn(|i| m.covariance[i % 3][i / 3]);
    [words(&m.delta), words(&columns), words(&[m.z_sigma, m.tilt_sigma])].concat()
}

fn extrinsic_words(t: &Pose3d) -> Vec<u64> {
    [words(&t.rotation.to_cols_array()), words(&t.translation.to_array())].concat()
}

/// Whether there are numbers (1), and which. Where there are none a record has zeros, so many, and a line nothing.
fn optional(xs: &[f64], zeros: usize) -> Vec<u64> {
    if xs.is_empty() { vec![0; 1 + zeros] } else { [vec![1], words(xs)].concat() }
}

fn factor_words(f: &WheelOdomFactor) -> Vec<u64> {
    [
        vec![f.from_idx as u64, f.to_idx as u64],
        measurement_words(&f.measurement),
        extrinsic_words(&f.t_cb_from),
        extrinsic_words(&f.t_cb_to),
        optional(f.huber_chi2.as_slice(), 1),
    ]
    .concat()
}

/// What two measurements come to: the motion within the sizes of the composition, and each sigma within its own.
fn composed_parts([a, b]: [&WheelOdomMeasurement; 2], m: &WheelOdomMeasurement) -> Vec<Part> {
    let sigmas = [m.z_sigma, m.tilt_sigma].map(|x| Part::Near("sigmas", vec![x], x));
    let sizes = Sizes::of_composition(&a.planar_motion(), &b.planar_motion());
    motion_parts(&m.planar_motion(), &sizes).into_iter().chain(sigmas).collect()
}

// ---- wheel factors

/// "no determinant smaller in size than 1e-6 of the largest of its six products"
pub fn has_clear_determinant(c: &[[f64; 3]; 3]) -> bool {
    let products: Vec<f64> = [[0, 1, 2], [1, 2, 0], [2, 0, 1], [0, 2, 1], [1, 0, 2], [2, 1, 0]]
        .iter()
        .map(|p: &[usize; 3]| c[0][p[0]] * c[1][p[1]] * c[2][p[2]])
        .collect();
    let det: f64 = products[..3].iter().sum::<f64>() - products[3..].iter().sum::<f64>();
    !(det.abs() < 1e-6 * largest(&products))
}

const DETERMINANT: &str = "determinant below 1e-6 of its largest product";

/// The planar block of a 6×6 information, and its other numbers.
fn split(m: &[f64]) -> (Vec<f64>, Vec<f64>) {
    let axes = [0, 1, 5];
    let is_planar = |i: &usize| axes.contains(&(i / 6)) && axes.contains(&(i % 6));
    let (planar, others): (Vec<usize>, Vec<usize>) = (0..36).partition(is_planar);
    (planar.iter().map(|i| m[*i]).collect(), others.iter().map(|i| m[*i]).collect())
}

/// A measurement's information, column by column.
fn matrix(m: &WheelOdomMeasurement) -> Option<[f64; 36]> {
    m.information().map(|info| std::array::from_fn(|i| info[i % 6][i / 6]))
}

/// The information, all of it within the size of the planar block; where there is none, blank by contract.
pub fn informed(m: &WheelOdomMeasurement) -> Call {
    let said = Part::Same("none, or 9", vec![if matrix(m).is_some() { 0 } else { 9 }]);
    let numbers = matrix(m).unwrap_or([0.0; 36]);
    let near = Part::Near("matrix", numbers.to_vec(), largest(&split(&numbers).0));
    Call { kind: 3, words: measurement_words(m), answer: vec![said, near] }
}

pub fn information(ours: &Ours, random: &mut Random) -> Group {
    let mut group = Group::new("wheel information", "with an answer");
    let mut all = vec![];
    while all.len() < 10_000 {
        let m = measurement(random);
        if has_clear_determinant(&m.covariance) {
            all.push(m);
        } else {
            group.leave_out(DETERMINANT);
        }
    }
    let calls: Vec<_> = all.iter().map(informed).collect();
    let lines = ours.lines("factor_cases", &records(&calls));
    for ((m, call), mut line) in all.iter().zip(&calls).zip(lines) {
        group.hold(&mut line, &call.answer[..1]);
        if let Some(rust) = matrix(m) {
            let (planar, others) = split(&line.floats(36));
            let (rust_planar, rust_others) = split(&rust);
            group.near("planar block", &planar, &rust_planar, largest(&rust_planar));
            group.near("the other numbers", &others, &rust_others, largest(&rust_others));
            group.parts.1 += 1;
        }
        group.cases += 1;
    }
    group
}

pub fn is_valid(f: &WheelOdomFactor) -> Call {
    Call { kind: 6, words: factor_words(f), answer: vec![Part::Same("is_valid", vec![u64::from(f.is_valid())])] }
}

pub fn validity(ours: &Ours, random: &mut Random) -> Group {
    let mut group = Group::new("wheel factors: is_valid", "valid");
    let mut cases = vec![];
    while cases.len() < 5_000 {
        let f = factor(random);
        if has_clear_determinant(&f.measurement.covariance) {
            group.parts.1 += u64::from(f.is_valid());
            cases.push([is_valid(&f)]);
        } else {
            group.leave_out(DETERMINANT);
        }
    }
    group.ask(ours, "factor_cases", &cases);
    group
}

/// Two measurements composed.
pub fn measurements(a: &WheelOdomMeasurement, b: &WheelOdomMeasurement) -> Call {
    let mut answer = vec![Part::Kept(vec![0])];
    answer.extend(composed_parts([a, b], &a.compose(b)));
    Call { kind: 4, words: [measurement_words(a), measurement_words(b)].concat(), answer }
}

/// Two factors composed. Where they do not meet, what ours has beside the refusal is not looked at.
fn factors(a: &WheelOdomFactor, b: &WheelOdomFactor) -> Call {
    let rust = a.compose(b);
    let mut answer = vec![Part::Same("none, or 10", vec![if rust.is_some() { 0 } else { 10 }])];
    if let Some(f) = rust {
        answer.push(Part::Same("ends", vec![f.from_idx as u64, f.to_idx as u64]));
        answer.extend(composed_parts([&a.measurement, &b.measurement], &f.measurement));
        answer.push(Part::Same("extrinsics", extrinsic_words(&f.t_cb_from)));
        answer.push(Part::Same("extrinsics", extrinsic_words(&f.t_cb_to)));
        answer.push(Part::Same("Huber limit", optional(f.huber_chi2.as_slice(), 0)));
    }
    Call { kind: 7, words: [factor_words(a), factor_words(b)].concat(), answer }
}

pub fn composed(ours: &Ours, random: &mut Random) -> Group {
    let mut group = Group::new("wheel factors: compose, and composed sigmas", "joined");
    let mut fit = || {
        let mut f = factor(random);
        let sigmas = [random.positive(), random.positive()];
        f.measurement = f.measurement.with_out_of_plane_sigmas(sigmas[0], sigmas[1]);
        f
    };
    let calls: Vec<_> = (0..10_000).map(|_| factors(&fit(), &fit())).collect();
    for (call, mut line) in calls.iter().zip(ours.lines("factor_cases", &records(&calls))) {
        group.cases += 1;
        group.parts.1 += u64::from(call.answer.len() > 1);
        group.hold(&mut line, &call.answer);
    }
    group
}

pub fn limits(ours: &Ours, random: &mut Random) -> Group {
    let mut group = Group::new("Huber limits joined", "");
    let some = [0.0, -0.0, 1.0, -1.0, 12.59, f64::NAN, f64::INFINITY, f64::NEG_INFINITY, 1e-6, 1e6];
    let mut pairs: Vec<_> = some.iter().flat_map(|a| some.map(|b| (Some(*a), Some(b)))).collect();
    pairs.extend(some.iter().flat_map(|a| [(Some(*a), None), (None, Some(*a))]));
    pairs.push((None, None));
    pairs.extend((0..2_000).map(|_| (limit(random), limit(random))));
    pairs.retain(|(a, b)| {
        let is_zeros = matches!((a, b), (Some(a), Some(b)) if *a == 0.0 && *b == 0.0 && a.to_bits() != b.to_bits());
        if is_zeros {
            group.leave_out("+0 and −0: Rust's min leaves open which is given");
        }
        !is_zeros
    });
    let cases: Vec<_> = pairs.iter().map(|(a, b)| [limits_joined(*a, *b)]).collect();
    group.ask(ours, "factor_cases", &cases);
    group
}

pub fn limits_joined(a: Option<f64>, b: Option<f64>) -> Call {
    let plain = WheelOdomMeasurement::new([0.0; 3], [[0.0; 3]; 3]);
    let with = |limit| WheelOdomFactor::new(0, 0, plain, Pose3d::IDENTITY, Pose3d::IDENTITY, limit);
    let rust = with(a).compose(&with(b)).expect("they meet");
    let answer = vec![
        Part::Same("limit", optional(rust.huber_chi2.as_slice(), 0)),
        Part::Same("whether it is valid", vec![u64::from(rust.huber_valid())]),
    ];
    Call { kind: 11, words: [optional(a.as_slice(), 1), optional(b.as_slice(), 1)].concat(), answer }
}

// ---- still factors

pub fn still(random: &mut Random) -> StationaryFactor {
    let spoil = random.one_of(&[8, 30, 1 << 40, 1 << 40, 1 << 40]);
    let some = |random: &mut Random| {
        let x = random.positive();
        or_unfit(random, x, spoil)
    };
    let calib =
        ImuCalib { gyro_noise: some(random), accel_noise: some(random), gyro_bias_noise: some(random), accel_bias_noise: some(random) };
    let mut f = StationaryFactor::new(random.below(3) as usize, random.below(3) as usize, some(random), calib);
    if random.once_in(2) {
        let mut mean = random.three(Random::any);
        if random.once_in(spoil) {
            mean[random.below(3) as usize] = random.one_of(&NOT_FINITE);
        }
        f = f.with_gyro(StationaryGyro::new(Vec3F64::from_array(mean), some(random)));
    }
    if random.once_in(2) {
        f.translation_sigma_m = some(random);
        f.rotation_sigma_rad = some(random);
        f.velocity_sigma_m_s = some(random);
    }
    if random.once_in(2) {
        f.huber_chi2 = random.once_in(2).then(|| some(random));
    }
    f
}

fn gyro_numbers(g: &StationaryGyro) -> [f64; 4] {
    [g.mean.x, g.mean.y, g.mean.z, g.covered_s]
}

/// A still factor, with so many zeros where there is no mean and no limit.
fn still_with(f: &StationaryFactor, zeros: [usize; 2]) -> Vec<u64> {
    let mean = f.gyro.as_ref().map(gyro_numbers);
    [
        vec![f.from_idx as u64, f.to_idx as u64, bits(f.span_s)],
        optional(mean.as_slice().as_flattened(), zeros[0]),
        calib_words(&f.calib),
        words(&[f.translation_sigma_m, f.rotation_sigma_rad, f.velocity_sigma_m_s]),
        optional(f.huber_chi2.as_slice(), zeros[1]),
    ]
    .concat()
}

/// As a record has it.
fn still_words(f: &StationaryFactor) -> Vec<u64> {
    still_with(f, [4, 1])
}

/// As a line has it.
fn shown(f: &StationaryFactor) -> Vec<u64> {
    still_with(f, [0, 0])
}

fn info_words(f: &StationaryFactor) -> Vec<u64> {
    let info = f.information();
    let pose: [f64; 36] = std::array::from_fn(|i| info.pose[i % 6][i / 6]);
    let row = info.gyro_mean.map_or(vec![], |(mean, information)| {
        let covered = f.gyro.expect("a mean").covered_s;
        vec![mean.x, mean.y, mean.z, covered, information]
    });
    [words(&pose), words(&[info.velocity, info.gyro_bias, info.accel_bias]), optional(&row, 0)].concat()
}

/// The added 11, which is ours, where a factor is invalid.
fn invalid() -> Part {
    Part::Same("11 of an invalid factor", vec![11])
}

/// Whether a factor is valid, and its information, which is blank by contract if it is not.
pub fn still_information(f: &StationaryFactor) -> Call {
    let mut answer = vec![Part::Same("is_valid", vec![u64::from(f.is_valid())])];
    if f.is_valid() {
        answer.push(Part::Same("information", [vec![0], info_words(f)].concat()));
    } else {
        answer.extend([invalid(), Part::Kept(vec![0; 40])]);
    }
    Call { kind: 9, words: still_words(f), answer }
}

/// Two factors composed.
pub fn still_joined(a: &StationaryFactor, b: &StationaryFactor) -> Call {
    let answer = if a.is_valid() && b.is_valid() {
        Part::Same("compose", a.compose(b).map_or(vec![10], |f| [vec![0], shown(&f)].concat()))
    } else {
        invalid()
    };
    Call { kind: 10, words: [still_words(a), still_words(b)].concat(), answer: vec![answer] }
}

pub fn stills(ours: &Ours, random: &mut Random) -> Group {
    let mut group = Group::new("still factors: is_valid, information, compose", "joined");
    let pairs: Vec<_> = (0..10_000)
        .map(|_| {
            let (a, mut b) = (still(random), still(random));
            if random.once_in(2) {
                b.from_idx = a.to_idx;
            }
            (a, b)
        })
        .collect();
    for (a, b) in &pairs {
        if !a.is_valid() {
            group.leave_out("information of an invalid factor, the added 11");
        }
        if !(a.is_valid() && b.is_valid()) {
            group.leave_out("compose with an invalid factor, the added 11");
        } else if a.compose(b).is_some() {
            group.parts.1 += 1;
        }
    }
    let cases: Vec<_> = pairs.iter().map(|(a, b)| [still_information(a), still_joined(a, b)]).collect();
    group.ask(ours, "factor_cases", &cases);
    group
}

// ---- what constructors and defaults give

/// A measurement as a line has it.
fn made(m: &WheelOdomMeasurement) -> Vec<u64> {
    [motion_words(&m.planar_motion()), words(&[m.z_sigma, m.tilt_sigma])].concat()
}

/// Every way to make a measurement.
pub fn measurement_made(m: &WheelOdomMeasurement) -> Call {
    let plain = WheelOdomMeasurement::new(m.delta, m.covariance);
    let full = plain.with_out_of_plane_sigmas(m.z_sigma, m.tilt_sigma);
    let answer = vec![
        Part::Same("new", made(&plain)),
        Part::Same("with_out_of_plane_sigmas", made(&full)),
        Part::Same("from a motion", made(&WheelOdomMeasurement::from(m.planar_motion()))),
        Part::Same("planar_motion", motion_words(&full.planar_motion())),
    ];
    Call { kind: 2, words: measurement_words(m), answer }
}

/// A still factor as it is made, and with a mean.
fn still_made(f: &StationaryFactor) -> Call {
    let gyro = f.gyro.unwrap_or(StationaryGyro::new(Vec3F64::ZERO, 1.0));
    let new = StationaryFactor::new(f.from_idx, f.to_idx, f.span_s, f.calib);
    let words = [vec![f.from_idx as u64, f.to_idx as u64, bits(f.span_s)], calib_words(&f.calib), words(&gyro_numbers(&gyro))].concat();
    Call { kind: 8, words, answer: vec![Part::Same("still new", shown(&new)), Part::Same("with_gyro", shown(&new.with_gyro(gyro)))] }
}

pub fn constructors(ours: &Ours, random: &mut Random) -> Group {
    let mut group = Group::new("constructors and defaults", "");
    let cases: Vec<_> = (0..500).map(|_| [measurement_made(&measurement(random)), still_made(&still(random))]).collect();
    group.ask(ours, "factor_cases", &cases);
    group
}
