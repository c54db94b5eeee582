//! Wheel factors and still factors.
use super::{Row, listed, number, numbers, unless_refused};
use crate::factors::{informed, is_valid, limits_joined, measurement_made, measurements, still_information, still_joined};
use crate::mapping::stationary::{StationaryFactor, StationaryGyro};
use crate::mapping::wheel_odom::{WheelOdomFactor, WheelOdomMeasurement};
use crate::ours::Line;
use kornia_3d::pose::Pose3d;
use kornia_algebra::Vec3F64;
use kornia_sensors::imu::ImuCalib;

fn unit_measurement(heading: f64, z: f64, tilt: f64) -> WheelOdomMeasurement {
    let unit = [[1.0, 0.0, 0.0], [0.0, 1.0, 0.0], [0.0, 0.0, 1.0]];
    WheelOdomMeasurement::new([0.0, 0.0, heading], unit).with_out_of_plane_sigmas(z, tilt)
}

pub fn rows() -> Vec<Row> {
    let mut rows = vec![
        information("information of a heading above 4", "unit covariance, heading 5", unit_measurement(5.0, 0.01, 0.01)),
        information("information that is not finite", "unit covariance, z sigma 1e-200", unit_measurement(0.0, 1e-200, 0.01)),
        valid("is_valid where information is refused 8", "unit covariance, heading 5", unit_measurement(5.0, 0.01, 0.01)),
        valid("is_valid where information is refused 2", "unit covariance, z sigma 1e-200", unit_measurement(0.0, 1e-200, 0.01)),
        sigmas("composed sigmas that overflow in their squares", 1e200, 1e200),
        sigmas("composed sigmas that vanish in their squares", 1e-200, 1e-200),
        sigmas("composed sigmas, the last place", 0.03, 0.4),
        sigmas("composed sigmas that are not finite", f64::NAN, 1.0),
        sigmas("composed sigmas below 0", -3.0, 4.0),
        limits("Huber limits, the first NaN", Some(f64::NAN), Some(1.0)),
        limits("Huber limits, the second NaN", Some(1.0), Some(f64::NAN)),
        limits("Huber limits +0, −0 (Rust's min leaves the zero to the platform)", Some(0.0), Some(-0.0)),
        limits("Huber limits −0, +0 (Rust's min leaves the zero to the platform)", Some(-0.0), Some(0.0)),
    ];
    rows.extend(stored_rows());
    rows.extend(still_rows());
    rows
}

fn information(place: &'static str, input: &str, m: WheelOdomMeasurement) -> Row {
    let rust = m.information().map_or("None".into(), |i| format!("diagonal {}", numbers(&[0, 1, 2, 3, 4, 5].map(|k| i[k][k].to_bits()))));
    Row { place, input: input.into(), rust, calls: vec![informed(&m)], read: |line| unless_refused(line, |line| numbers(&line.take(36))) }
}

/// Matrices that are not symmetric, in the order in which they are stored: in the Rust by rows, in ours by columns.
fn stored_rows() -> Vec<Row> {
    let counted = WheelOdomMeasurement::new([0.0; 3], [[1.0, 2.0, 3.0], [4.0, 5.0, 6.0], [7.0, 8.0, 9.0]]);
    let uneven = WheelOdomMeasurement::new([0.0; 3], [[1.0, 5e-10, 0.0], [0.0, 1.0, 0.0], [0.0, 0.0, 1.0]]);
    let info = uneven.information().expect("near enough to symmetric");
    vec![
        Row {
            place: "covariance of a measurement, as it is stored",
            input: "rows (1, 2, 3), (4, 5, 6), (7, 8, 9)".into(),
            rust: listed(counted.covariance.as_flattened()),
            calls: vec![measurement_made(&counted)],
            read: |line| numbers(&line.behind(3).take(9)),
        },
        Row {
            place: "information, the first seven numbers as they are stored",
            input: "unit covariance with 5e-10 in row x, column y, heading 0".into(),
            rust: listed(&info.as_flattened()[..7]),
            calls: vec![informed(&uneven)],
            read: |line| unless_refused(line, |line| numbers(&line.take(7))),
        },
    ]
}

fn with(m: WheelOdomMeasurement, limit: Option<f64>) -> WheelOdomFactor {
    WheelOdomFactor::new(0, 1, m, Pose3d::IDENTITY, Pose3d::IDENTITY, limit)
}

fn valid(place: &'static str, input: &str, m: WheelOdomMeasurement) -> Row {
    let f = with(m, None);
    let read = |line: &mut Line| format!("{}", line.take(1) == [1]);
    Row { place, input: input.into(), rust: format!("{}", f.is_valid()), calls: vec![is_valid(&f)], read }
}

fn sigmas(place: &'static str, a: f64, b: f64) -> Row {
    let (first, second) = (unit_measurement(0.0, a, 1.0), unit_measurement(0.0, b, 1.0));
    let rust = number(first.compose(&second).z_sigma);
    let input = format!("z sigmas {} and {}", number(a), number(b));
    let calls = vec![measurements(&first, &second)];
    Row { place, input, rust, calls, read: |line| unless_refused(line, |line| numbers(&line.behind(12).take(1))) }
}

fn limits(place: &'static str, a: Option<f64>, b: Option<f64>) -> Row {
    let m = unit_measurement(0.0, 1.0, 1.0);
    let first = WheelOdomFactor { to_idx: 0, ..with(m, a) };
    let rust = first.compose(&with(m, b)).and_then(|f| f.huber_chi2).map_or("none".into(), number);
    Row { place, input: format!("{a:?}, {b:?}"), rust, calls: vec![limits_joined(a, b)], read: |line| numbers(&line.behind(1).take(1)) }
}

// ---- still factors

const CALIB: ImuCalib = ImuCalib { gyro_noise: 1.0, accel_noise: 1.0, gyro_bias_noise: 1.0, accel_bias_noise: 1.0 };

fn still_rows() -> Vec<Row> {
    let still = |from, span| StationaryFactor::new(from, from + 1, span, CALIB);
    let mean = |x, covered| StationaryGyro::new(Vec3F64::new(x, 0.0, 0.0), covered);
    let thin = StationaryFactor { translation_sigma_m: 1e-200, ..still(0, 1.0) };
    let quiet = StationaryFactor { calib: ImuCalib { gyro_noise: 0.0, ..CALIB }, ..still(0, 1.0) };
    let info = |place, input: &str, f: StationaryFactor| {
        let i = f.information();
        let rust = format!("pose {}, gyro bias {}", number(i.pose[0][0]), number(i.gyro_bias));
        let read = |line: &mut Line| unless_refused(line.behind(1), |line| numbers(&line.take(1)));
        Row { place, input: input.into(), rust, calls: vec![still_information(&f)], read }
    };
    vec![
        info("still information of an invalid factor", "span 0, densities 1", still(0, 0.0)),
        info("still information that is not finite", "translation sigma 1e-200", thin),
        mean_row(still(0, 1.0).with_gyro(StationaryGyro::new(Vec3F64::new(1.0, 2.0, 3.0), 4.0))),
        joined("still compose with an invalid factor", "spans 0 and 1", still(0, 0.0), still(1, 1.0)),
        joined("still compose, span that overflows", "spans 1.7e308 and 1.7e308", still(0, 1.7e308), still(1, 1.7e308)),
        joined(
            "still compose, covered time that overflows",
            "means 0 over 1.7e308 s, twice",
            still(0, 1.0).with_gyro(mean(0.0, 1.7e308)),
            still(1, 1.0).with_gyro(mean(0.0, 1.7e308)),
        ),
        joined(
            "still compose, mean that overflows",
            "means 1e308 over 10 s, twice",
            still(0, 1.0).with_gyro(mean(1e308, 10.0)),
            still(1, 1.0).with_gyro(mean(1e308, 10.0)),
        ),
        joined(
            "still compose of two valid factors into an invalid one",
            "first: gyro noise 0, no mean; second: gyro noise 1, a mean",
            quiet,
            still(1, 1.0).with_gyro(mean(0.0, 1.0)),
        ),
    ]
}

/// What the information has of a mean rate.
fn mean_row(f: StationaryFactor) -> Row {
    let (mean, information) = f.information().gyro_mean.expect("a mean");
    let rust = format!("mean {}, information {}", listed(&mean.to_array()), number(information));
    let read = |line: &mut Line| {
        unless_refused(line.behind(1), |line| {
            let row = line.behind(40).take(5);
            format!("mean {}, covered {}, information {}", numbers(&row[..3]), numbers(&row[3..4]), numbers(&row[4..]))
        })
    };
    let input = "densities 1, span 1, mean (1, 2, 3) over 4 s".into();
    Row { place: "still information, what it carries of a mean", input, rust, calls: vec![still_information(&f)], read }
}

fn joined(place: &'static str, input: &str, a: StationaryFactor, b: StationaryFactor) -> Row {
    let rust = a.compose(&b).map_or("None".into(), |f| {
        let mean = f.gyro.map_or(String::new(), |g| format!(", mean {} over {}", number(g.mean.x), number(g.covered_s)));
        format!("span {}{mean}, is_valid {}", number(f.span_s), f.is_valid())
    });
    let read = |line: &mut Line| unless_refused(line, |line| format!("accepted, span {}", numbers(&line.behind(2).take(1))));
    Row { place, input: input.into(), rust, calls: vec![still_joined(&a, &b)], read }
}
