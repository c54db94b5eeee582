//! The Rust's answers to some hundreds of cases, for the gate, which runs the programs of cases on them and compares the lines. They stand behind
//! what the scripts of tools/ make for the same programs.
use crate::call::{Call, Part};
use crate::factors::{has_clear_determinant, informed, measurement, measurements, still, still_information, still_joined};
use crate::inertial::{self, Style, TAME, domain_style, near_bias, window, world};
use crate::ours::{Records, line, words};
use crate::random::Random;
use crate::report::TOLERANCE;
use crate::wheel::{Asked, Radii, Yardstick, changing_domain_run, changing_tame_run, composition, domain_run, motion, tame_run};
use std::path::Path;

/// How many samples a batch and a window have.
const SAMPLES: u64 = 20;

/// The number of the group in which the Rust's answers stand: `Rust` in ASCII.
const RUST: u64 = 0x7473_7552;

/// A program's input and output from the group of the Rust's answers on.
struct Tail {
    records: Records,
    lines: String,
}

impl Tail {
    fn new() -> Self {
        let mut tail = Self { records: Records::default(), lines: String::new() };
        tail.add([Call { kind: 1, words: vec![RUST], answer: vec![Part::Kept(vec![RUST])] }]);
        tail
    }

    fn add(&mut self, calls: impl IntoIterator<Item = Call>) {
        for call in calls {
            self.write(&call);
        }
    }

    /// The record and the line of a call. What is near stands in both: the program writes the Rust's number for its own if it is within the
    /// tolerance. One below 0 is that of a heading.
    fn write(&mut self, call: &Call) {
        let (mut held, mut said) = (vec![], vec![]);
        let mut hold = |xs: &[f64], tolerance: f64| {
            held.extend(words(&[tolerance]));
            held.extend(words(xs));
            words(xs)
        };
        for part in &call.answer {
            said.extend(match part {
                Part::Kept(words) | Part::Same(_, words) => words.clone(),
                Part::Near(_, xs, size) => hold(xs, TOLERANCE * size),
                Part::Heading(x, size) => hold(&[*x], -TOLERANCE * size),
            });
        }
        let kind = if held.is_empty() { call.kind } else { 100 + call.kind };
        self.records.put(kind, &[call.words.clone(), held].concat());
        self.lines += &line(kind, &said);
    }

    /// Writes the program's two files anew: what stands there before any tail, and this one.
    fn append(&self, folder: &Path) -> std::io::Result<()> {
        let (stdin, stdout) = (folder.join("stdin"), folder.join("stdout"));
        let (input, output) = (std::fs::read(&stdin)?, std::fs::read_to_string(&stdout)?);
        let marker = Self::new();
        let end = (0..input.len()).step_by(8).find(|i| input[*i..].starts_with(&marker.records.bytes)).unwrap_or(input.len());
        let before: String = output.split_inclusive('\n').take_while(|text| *text != marker.lines).collect();
        std::fs::write(stdin, [&input[..end], &self.records.bytes].concat())?;
        std::fs::write(stdout, before + &self.lines)
    }
}

pub fn write(folder: &Path) -> std::io::Result<()> {
    let mut random = Random(20);
    let [mut wheel, mut factor, mut imu] = [Tail::new(), Tail::new(), Tail::new()];
    for n in 0..40 {
        let length = 1 + random.below(if n < 30 { 12 } else { 60 });
        wheel.add(domain_run(&mut random, length, Radii::One).without_refused_8().calls(Yardstick::Own));
    }
    for _ in 0..8 {
        wheel.add(tame_run(&mut random, 60, Radii::One).without_refused_8().calls(Yardstick::Own));
    }
    for _ in 0..60 {
        let asked = std::iter::repeat_with(|| Asked::draw(&mut random)).find(|asked| !asked.is_left_out()).expect("most are not");
        wheel.add(asked.calls());
        wheel.add(composition(&motion(&mut random), &motion(&mut random)));
        factor.add(factor_calls(&mut random));
    }
    let mut two_radii = Random(21);
    for n in 0..16 {
        let length = 1 + two_radii.below(12);
        let run = if n < 12 { domain_run(&mut two_radii, length, Radii::Two) } else { tame_run(&mut two_radii, 60, Radii::Two) };
        wheel.add(run.without_refused_8().calls(Yardstick::Own));
    }
    let mut changing = Random(22);
    for n in 0..24 {
        let radii = if n % 2 == 0 { Radii::One } else { Radii::Two };
        let run = if n < 18 { changing_domain_run(&mut changing, 20, radii) } else { changing_tame_run(&mut changing, 60, radii) };
        wheel.add(run.without_refused_8().calls(Yardstick::Own));
    }
    for n in 0..20 {
        let style = if n < 10 { domain_style(&mut random) } else { TAME };
        imu.add(steps(&mut random, &style).calls);
        imu.add(batch(&mut random, &style).calls);
        let mut run = inertial::Run::default();
        let rust = run.window(&window(&mut random, SAMPLES));
        run.show(&rust);
        imu.add(run.calls);
    }
    for (program, tail) in [("wheel_cases", wheel), ("factor_cases", factor), ("imu_cases", imu)] {
        tail.append(&folder.join(program))?;
    }
    Ok(())
}

/// Two measurements with fit sigmas composed, the information of one, that of a still factor, and two valid ones, which mostly meet, composed.
fn factor_calls(random: &mut Random) -> [Call; 4] {
    let mut fit = || {
        let m = measurement(random);
        m.with_out_of_plane_sigmas(random.positive(), random.positive())
    };
    let composed = measurements(&fit(), &fit());
    let clear = std::iter::repeat_with(|| measurement(random)).find(|m| has_clear_determinant(&m.covariance)).expect("some are");
    let information = still_information(&still(random));
    let mut valid = || std::iter::repeat_with(|| still(random)).find(|f| f.is_valid()).expect("some are");
    let (a, mut b) = (valid(), valid());
    if random.below(4) > 0 {
        b.from_idx = a.to_idx;
        b.to_idx = a.to_idx + 1;
    }
    [composed, informed(&clear), information, still_joined(&a, &b)]
}

/// Up to 40 steps that turn at most 4, then a widening, a correction and a prediction.
fn steps(random: &mut Random, style: &Style) -> inertial::Run {
    let mut run = inertial::Run::default();
    let mut rust = run.make(&style.bias(random), &style.calib(random));
    let drawn: Vec<_> = (0..1 + random.below(40)).map(|_| (style.measurement(random, 0.0), style.dt(random))).collect();
    let bias = rust.bias.gyro;
    for (m, dt) in drawn.iter().filter(|(m, dt)| inertial::angle((m.gyro - bias) * *dt) <= 4.0) {
        run.step(&mut rust, m, *dt);
    }
    run.widen(&mut rust, random.one_of(&[0.0, -1.0, f64::NAN, 0.25, 1e6]));
    run.show(&rust);
    run.correct(&rust, &near_bias(random, style, &rust));
    run.predict(&rust, &world(random, style));
    run
}

/// Samples into a fresh state, none of which turns above 4.
fn batch(random: &mut Random, style: &Style) -> inertial::Run {
    loop {
        let mut run = inertial::Run::default();
        let mut rust = run.make(&style.bias(random), &style.calib(random));
        if let Some(samples) = inertial::batch(random, style, &rust, SAMPLES) {
            run.batch(&mut rust, &samples);
            run.show(&rust);
            return run;
        }
    }
}
