//! Runs through the wheel integrator, and what is asked of a drive on its own.
use crate::call::{Call, Part, records};
use crate::ours::{Ours, bits, words};
use crate::random::{LEAST, MOST, Random};
use crate::report::{Group, larger, largest};
use kornia_algebra::{Mat3F64, Vec3F64};
use kornia_sensors::wheel::{
    BodyTwist, DifferentialDrive, MAX_SUBSTEP_ANGLE, MAX_SUBSTEP_SECONDS, PlanarMotion, WheelError, WheelKinematics, WheelMeasurement,
    WheelNoise, WheelPreintegration, WheelReading,
};
use std::f64::consts::PI;

/// The Rust's counters turn over at 64 bits.
pub const WIDTH: u64 = 64;

type Integrator = WheelPreintegration<Cart>;

/// What the Rust's integrator goes by: the Rust's own drive, which has one radius; or two radii and 02's formulas (W-205), which is a kind of
/// drive that the Rust does not have, in the Rust's own terms.
#[derive(Clone, Copy)]
pub enum Cart {
    OneRadius(DifferentialDrive),
    /// The drive's own radius is the left one's.
    TwoRadii(DifferentialDrive, f64),
}

impl From<DifferentialDrive> for Cart {
    fn from(drive: DifferentialDrive) -> Self {
        Self::OneRadius(drive)
    }
}

impl Cart {
    fn drive(&self) -> &DifferentialDrive {
        match self {
            Self::OneRadius(drive) | Self::TwoRadii(drive, _) => drive,
        }
    }

    fn radii(&self) -> [f64; 2] {
        match self {
            Self::OneRadius(drive) => [drive.wheel_radius; 2],
            Self::TwoRadii(drive, right) => [drive.wheel_radius, *right],
        }
    }

    /// How fast each wheel rolls.
    fn products(&self, rates: [f64; 2]) -> [f64; 2] {
        let ([l, r], [left, right]) = (self.radii(), rates);
        [l * left, r * right]
    }

    /// 02: the products before their sum and difference.
    fn twist_by_products(&self, rates: [f64; 2]) -> BodyTwist {
        let [left, right] = self.products(rates);
        BodyTwist { vx: 0.5 * (left + right), vy: 0.0, wz: (right - left) / self.drive().track_width }
    }

    /// Whether the products nearly cancel: then what is left of them is the rounding of each.
    fn is_nearly_straight(&self, rates: [f64; 2]) -> bool {
        let [left, right] = self.products(rates);
        left != right && (right - left).abs() < 1e-6 * larger(left.abs(), right.abs())
    }
}

impl WheelKinematics for Cart {
    fn is_valid(&self) -> bool {
        self.radii().iter().all(|r| r.is_finite() && *r > 0.0) && self.drive().is_valid()
    }

    fn ticks_per_revolution(&self) -> f64 {
        self.drive().ticks_per_revolution
    }

    fn twist(&self, rates: [f64; 2]) -> BodyTwist {
        match self {
            Self::OneRadius(drive) => drive.twist(rates),
            Self::TwoRadii(..) => self.twist_by_products(rates),
        }
    }

    fn twist_jacobian(&self, rates: [f64; 2]) -> [Vec3F64; 2] {
        match self {
            Self::OneRadius(drive) => drive.twist_jacobian(rates),
            Self::TwoRadii(drive, right) => {
                let column = |r: f64, sign: f64| Vec3F64::new(r / 2.0, 0.0, sign * (r / drive.track_width));
                [column(drive.wheel_radius, -1.0), column(*right, 1.0)]
            }
        }
    }
}

pub const UNIT: DifferentialDrive = DifferentialDrive { wheel_radius: 1.0, track_width: 1.0, ticks_per_revolution: 1.0 };

/// What the Rust said to one record, and its state after it.
struct Seen {
    event: Event,
    /// The drive and the noise after it, in words of ours.
    settings: Vec<u64>,
    /// The refusal and what it carries, or 0.
    said: Vec<u64>,
    motion: PlanarMotion,
    dt: f64,
    last: Option<WheelMeasurement>,
    /// How far from its start the interval came on its way, and how far it turned, PI at most.
    way: (f64, f64),
}

enum Event {
    Reading(WheelMeasurement),
    /// A reading that the added refusal 8 keeps from the Rust.
    Refused8(WheelMeasurement),
    Restart,
    /// 02's change of drive and noise (W-206), with these in words of ours.
    Change(Vec<u64>),
}

pub struct Run {
    /// What it is made with.
    made: (Cart, WheelNoise),
    cart: Cart,
    noise: WheelNoise,
    seen: Vec<Seen>,
    /// Readings drawn and given to neither, and why.
    left_out: Vec<&'static str>,
}

const NEAR_POWER: &str = "readings whose ratio is within 1e-12 above a power of two, given to neither";
const NEARLY_STRAIGHT: &str =
    "equal radii whose products differ by less than a millionth, so that the yaw rate is rounding, given to neither";
const TURNED_APART: &str =
    "equal radii over so many turns that the last bits of the two yaw rates come to more than 1e-9 rad, given to neither";
const OTHER_COUNT: &str = "equal radii that ours halves once more or once less, given to neither";

// ---- the Rust

fn refusal(e: WheelError) -> Vec<u64> {
    match e {
        WheelError::Invalid => vec![1],
        WheelError::NonFinite => vec![2],
        WheelError::OutOfOrder { timestamp, last } => vec![3, timestamp.to_bits(), last.to_bits()],
        WheelError::Duplicate(timestamp) => vec![4, timestamp.to_bits()],
        WheelError::MixedReadings => vec![5],
        WheelError::InvalidNoise => vec![6],
        WheelError::InvalidKinematics => vec![7],
    }
}

/// A reading's time step and rates, where the Rust would come to them.
fn interval(drive: &Cart, last: &WheelMeasurement, m: &WheelMeasurement) -> Option<(f64, [f64; 2])> {
    let dt = m.timestamp - last.timestamp;
    if !(m.valid && dt > 0.0 && dt.is_finite()) {
        return None;
    }
    let rates = match (last.reading, m.reading) {
        (WheelReading::Ticks(a), WheelReading::Ticks(b)) => {
            drive.wheel_rates_from_ticks([b[0].wrapping_sub(a[0]), b[1].wrapping_sub(a[1])], dt)
        }
        (WheelReading::AngularVelocity(a), WheelReading::AngularVelocity(b)) => [0.5 * (a[0] + b[0]), 0.5 * (a[1] + b[1])],
        _ => return None,
    };
    Some((dt, rates))
}

/// The ratio that the halvings are counted by.
fn ratio(dt: f64, twist: &BodyTwist) -> f64 {
    (dt / MAX_SUBSTEP_SECONDS).max((twist.wz * dt).abs() / MAX_SUBSTEP_ANGLE)
}

/// Document 01's count: the least k with 2^k not below the ratio, at most 20.
pub fn least_halvings(ratio: f64) -> u32 {
    if ratio <= 1.0 + 1e-9 {
        return 0;
    }
    (0..20).find(|k| f64::from(1u32 << k) >= ratio).unwrap_or(20)
}

/// "ratio not within 1e-12 relative above a power of two". At most 1+1e-9 both count 0, so that is compared.
fn is_near_power(ratio: f64) -> bool {
    let power = f64::from_bits(ratio.to_bits() & 0x7ff0_0000_0000_0000);
    ratio > 1.0 + 1e-9 && ratio > power && ratio - power <= 1e-12 * power
}

impl Run {
    fn new(cart: Cart, noise: WheelNoise) -> (Self, Integrator) {
        let rust = Integrator::new(cart, noise).expect("fit");
        (Self { made: (cart, noise), cart, noise, seen: vec![], left_out: vec![] }, rust)
    }

    fn saw(&mut self, event: Event, said: Vec<u64>, rust: &Integrator, way: (f64, f64)) {
        let settings = settings_words(&self.cart, &self.noise);
        self.seen.push(Seen { way, event, settings, said, motion: *rust.motion(), dt: rust.dt(), last: rust.last().copied() });
    }

    /// Why an interval is not compared, where the two twists are not the same.
    fn reason_to_leave_out(&self, dt: f64, rates: [f64; 2]) -> Option<&'static str> {
        let [theirs, ours] = [self.cart.twist(rates), self.cart.twist_by_products(rates)];
        if theirs.wz == ours.wz {
            return None;
        }
        if self.cart.is_nearly_straight(rates) {
            return Some(NEARLY_STRAIGHT);
        }
        if ((theirs.wz - ours.wz) * dt).abs() > 1e-9 {
            return Some(TURNED_APART);
        }
        (least_halvings(ratio(dt, &theirs)) != least_halvings(ratio(dt, &ours))).then_some(OTHER_COUNT)
    }

    /// Gives the reading to the Rust, unless it is outside the domain.
    fn read(&mut self, m: WheelMeasurement, rust: &mut Integrator) {
        let between = rust.last().and_then(|last| interval(&self.cart, last, &m));
        let mut way = (0.0, 0.0);
        if let Some((dt, rates)) = between {
            let twist = self.cart.twist(rates);
            if is_near_power(ratio(dt, &twist)) {
                self.left_out.push(NEAR_POWER);
                return;
            }
            let ours = self.cart.twist_by_products(rates);
            let angle = ours.wz * (dt / f64::from(1u32 << least_halvings(ratio(dt, &ours))));
            if angle.is_finite() && angle.abs() > 4.0 {
                self.saw(Event::Refused8(m), vec![8], rust, way);
                return;
            }
            if let Some(why) = self.reason_to_leave_out(dt, rates) {
                self.left_out.push(why);
                return;
            }
            way = ((twist.vx * dt).abs().min((2.0 * twist.vx / twist.wz).abs()), (twist.wz * dt).abs().min(PI));
        }
        let said = rust.integrate(&m).map_or_else(refusal, |()| vec![0]);
        let way = if said == [0] { way } else { (0.0, 0.0) };
        self.saw(Event::Reading(m), said, rust, way);
    }

    fn restart(&mut self, rust: &mut Integrator) {
        rust.restart();
        self.saw(Event::Restart, vec![0], rust, (0.0, 0.0));
    }

    /// The Rust has no such call. What does for it is what demand 3 says of one: an integrator that is made with the new drive and noise and is
    /// fed the last reading; or, where the making is refused, the one that was there.
    fn change(&mut self, cart: Cart, noise: WheelNoise, rust: &mut Integrator) {
        let event = Event::Change(settings_words(&cart, &noise));
        let said = match Integrator::new(cart, noise) {
            Ok(mut fresh) => {
                if let Some(last) = rust.last() {
                    fresh.integrate(last).expect("it was accepted before");
                }
                *rust = fresh;
                (self.cart, self.noise) = (cart, noise);
                vec![0]
            }
            Err(e) => refusal(e),
        };
        self.saw(event, said, rust, (0.0, 0.0));
    }
}

// ---- what is drawn

/// How a run's readings are drawn.
struct Style {
    is_ticks: bool,
    /// The longest time step.
    step: f64,
    /// The largest rate, or difference of ticks.
    rate: f64,
    tick: f64,
    /// Whether the two wheels go nearly alike.
    is_paired: bool,
    is_tame: bool,
    /// The one time step of a run at a nominal rate, or 0.
    nominal: f64,
    /// The radii of the carts that a run changes to, if it does.
    changing: Option<Radii>,
}

fn any_drive(random: &mut Random) -> DifferentialDrive {
    DifferentialDrive { wheel_radius: random.positive(), track_width: random.positive(), ticks_per_revolution: random.positive() }
}

/// Which radii a run's cart has: the Rust's one; or a right one beside it, half of the time of any size, otherwise within a hundredth of it.
#[derive(Clone, Copy)]
pub enum Radii {
    One,
    Two,
}

impl Radii {
    fn cart(self, random: &mut Random, drive: DifferentialDrive) -> Cart {
        match self {
            Self::One => drive.into(),
            Self::Two => {
                let right = if random.once_in(2) { random.positive() } else { drive.wheel_radius * random.between(0.99, 1.01) };
                Cart::TwoRadii(drive, right.clamp(LEAST, MOST))
            }
        }
    }
}

fn any_noise(random: &mut Random) -> WheelNoise {
    WheelNoise { wheel_rate: random.any_size(), lateral_velocity: random.any_size() }
}

pub fn domain_run(random: &mut Random, length: u64, radii: Radii) -> Run {
    domain_run_with(random, length, radii, None)
}

/// The same with changes of drive and noise.
pub fn changing_domain_run(random: &mut Random, length: u64, radii: Radii) -> Run {
    domain_run_with(random, length, radii, Some(radii))
}

fn domain_run_with(random: &mut Random, length: u64, radii: Radii, changing: Option<Radii>) -> Run {
    let drive = any_drive(random);
    let cart = radii.cart(random, drive);
    let noise = any_noise(random);
    let style = Style {
        is_ticks: random.once_in(2),
        step: random.size(2e-6, (4e6 / length as f64).min(MOST)),
        rate: random.size(2e-6, MOST),
        tick: random.size(1.0, 9.3e18),
        is_paired: random.once_in(3),
        is_tame: false,
        nominal: 0.0,
        changing,
    };
    let start = if style.step * length as f64 > 1e6 { -MOST } else { random.any() };
    drawn(random, cart, noise, style, start, length)
}

/// A few readings whose time steps, rates and ticks go up to the domain's end.
fn short_run(random: &mut Random) -> Run {
    let (drive, tick) = (any_drive(random), random.size(1.0, 9.3e18));
    let noise = any_noise(random);
    let (is_ticks, is_paired) = (random.once_in(2), random.once_in(2));
    let style = Style { is_ticks, step: MOST, rate: MOST, tick, is_paired, is_tame: false, nominal: 0.0, changing: None };
    let start = if random.once_in(2) { -MOST } else { random.any() };
    drawn(random, drive.into(), noise, style, start, 5)
}

pub fn short_runs(random: &mut Random) -> Vec<Run> {
    (0..2000).map(|_| short_run(random)).collect()
}

fn tame_drive(random: &mut Random) -> DifferentialDrive {
    DifferentialDrive {
        wheel_radius: random.between(0.03, 0.3),
        track_width: random.between(0.2, 1.0),
        ticks_per_revolution: random.one_of(&[360.0, 512.0, 1024.0, 4096.0, 8191.5]),
    }
}

fn tame_noise(random: &mut Random) -> WheelNoise {
    WheelNoise { wheel_rate: random.between(0.0, 0.1), lateral_velocity: random.between(0.0, 0.05) }
}

pub fn tame_run(random: &mut Random, length: u64, radii: Radii) -> Run {
    tame_run_with(random, length, radii, None)
}

pub fn changing_tame_run(random: &mut Random, length: u64, radii: Radii) -> Run {
    tame_run_with(random, length, radii, Some(radii))
}

fn tame_run_with(random: &mut Random, length: u64, radii: Radii, changing: Option<Radii>) -> Run {
    let drive = tame_drive(random);
    let cart = radii.cart(random, drive);
    let noise = tame_noise(random);
    let nominal = random.one_of(&[0.0, 0.0, 0.0, 0.005, 0.01, 0.02, 0.05, 0.16]);
    let (is_ticks, is_paired) = (random.once_in(2), random.once_in(2));
    let style = Style { is_ticks, step: 0.2, rate: 10.0, tick: 500.0, is_paired, is_tame: true, nominal, changing };
    let start = random.between(1.0, 1000.0);
    drawn(random, cart, noise, style, start, length)
}

fn drawn(random: &mut Random, cart: Cart, noise: WheelNoise, style: Style, start: f64, length: u64) -> Run {
    let (mut run, mut rust) = Run::new(cart, noise);
    let mut time = start;
    let mut ticks = [random.word() as i64, random.word() as i64];
    if random.once_in(3) {
        ticks = [i64::MAX - random.below(1000) as i64, i64::MIN + random.below(1000) as i64];
    }
    for _ in 0..length {
        let next = later(random, time, &style);
        if next > MOST {
            break;
        }
        ticks = counted(random, ticks, style.tick, style.is_paired);
        let good = reading(random, next, ticks, &style);
        match random.below(200) {
            0..4 => run.restart(&mut rust),
            4..8 => run.read(WheelMeasurement { valid: false, ..good }, &mut rust),
            8..12 => run.read(WheelMeasurement { timestamp: time, ..good }, &mut rust),
            12..16 => run.read(WheelMeasurement { timestamp: earlier(random, time), ..good }, &mut rust),
            16..19 => run.read(reading(random, next, ticks, &Style { is_ticks: !style.is_ticks, ..style }), &mut rust),
            19..21 => run.read(not_finite(random, good), &mut rust),
            21..29 if style.changing.is_some() => change(random, &style, &mut run, &mut rust),
            _ => {
                run.read(good, &mut rust);
                time = next;
            }
        }
    }
    run
}

/// To a cart as the run's own was drawn; one in four is unfit, by its noise, its drive or both.
fn change(random: &mut Random, style: &Style, run: &mut Run, rust: &mut Integrator) {
    let radii = style.changing.expect("it is asked before");
    let mut drive = if style.is_tame { tame_drive(random) } else { any_drive(random) };
    let mut noise = if style.is_tame { tame_noise(random) } else { any_noise(random) };
    let unfit = random.one_of(&[f64::NAN, f64::INFINITY, f64::NEG_INFINITY, -1.0]);
    let faults = if random.once_in(4) { 1 + random.below(3) } else { 0 };
    if faults % 2 == 1 {
        noise.wheel_rate = unfit;
    }
    let cart = radii.cart(random, drive);
    if faults >= 2 {
        drive.track_width = random.one_of(&[unfit, 0.0]);
    }
    let cart = match cart {
        Cart::OneRadius(_) => Cart::OneRadius(drive),
        Cart::TwoRadii(_, right) => Cart::TwoRadii(drive, right),
    };
    run.change(cart, noise, rust);
}

/// A later time, 0 or not below the least size.
fn later(random: &mut Random, time: f64, style: &Style) -> f64 {
    let step = match style {
        Style { nominal, .. } if *nominal > 0.0 => *nominal,
        Style { is_tame: true, step, .. } => random.between(0.001, *step),
        Style { step, .. } => random.size(LEAST, *step),
    };
    let next = time + step;
    if next.abs() < LEAST { 0.0 } else { next }
}

fn earlier(random: &mut Random, time: f64) -> f64 {
    let before = (time - random.positive()).max(-MOST);
    if before.abs() < LEAST { 0.0 } else { before }
}

fn counted(random: &mut Random, ticks: [i64; 2], most: f64, is_paired: bool) -> [i64; 2] {
    let mut by = || if random.once_in(12) { 0 } else { random.signed(1.0, most) as i64 };
    let (left, right) = (by(), by());
    let right = if is_paired { left.wrapping_add(right % 100) } else { right };
    [ticks[0].wrapping_add(left), ticks[1].wrapping_add(right)]
}

fn reading(random: &mut Random, time: f64, ticks: [i64; 2], style: &Style) -> WheelMeasurement {
    if style.is_ticks {
        return WheelMeasurement::ticks(time, ticks);
    }
    let mut rate = || {
        if random.once_in(12) {
            0.0
        } else if style.is_tame {
            random.between(-style.rate, style.rate)
        } else {
            random.signed(LEAST, style.rate)
        }
    };
    let (left, right) = (rate(), rate());
    WheelMeasurement::angular_velocity(time, [left, if style.is_paired { left } else { right }])
}

/// Outside the domain, but the refusal is the Rust's own.
fn not_finite(random: &mut Random, m: WheelMeasurement) -> WheelMeasurement {
    let x = random.one_of(&[f64::NAN, f64::INFINITY, f64::NEG_INFINITY]);
    match m.reading {
        WheelReading::AngularVelocity([left, _]) if random.once_in(2) => WheelMeasurement::angular_velocity(m.timestamp, [left, x]),
        _ => WheelMeasurement { timestamp: x, ..m },
    }
}

// ---- calls

/// A drive of ours: of one radius, both wheels have it.
fn drive_words(cart: &Cart, width: u64) -> Vec<u64> {
    let (drive, [left, right]) = (cart.drive(), cart.radii());
    [words(&[left, right, drive.track_width, drive.ticks_per_revolution]), vec![width]].concat()
}

fn settings_words(cart: &Cart, noise: &WheelNoise) -> Vec<u64> {
    [drive_words(cart, WIDTH), words(&[noise.wheel_rate, noise.lateral_velocity])].concat()
}

pub fn motion_words(m: &PlanarMotion) -> Vec<u64> {
    [words(&m.delta), words(&m.covariance.to_cols_array())].concat()
}

/// A reading behind its kind.
fn reading_words(m: &WheelMeasurement) -> Vec<u64> {
    let (kind, [left, right]) = match m.reading {
        WheelReading::Ticks(ticks) => (4, ticks.map(|n| n as u64)),
        WheelReading::AngularVelocity(rates) => (5, rates.map(bits)),
    };
    vec![kind, u64::from(m.valid), bits(m.timestamp), left, right]
}

fn last_words(last: Option<WheelMeasurement>) -> Vec<u64> {
    last.map_or(vec![0], |m| reading_words(&m))
}

pub fn read(m: &WheelMeasurement) -> Call {
    let words = reading_words(m);
    Call::unanswered(words[0], words[1..].to_vec())
}

/// Begins a walk with a drive and a noise that are fit.
pub fn begin(cart: impl Into<Cart>, noise: &WheelNoise) -> Call {
    let cart = cart.into();
    let rust = Integrator::new(cart, *noise).expect("fit");
    let settings = settings_words(&cart, noise);
    let state = [vec![0], settings.clone(), motion_words(rust.motion()), words(&[rust.dt()]), last_words(rust.last().copied())].concat();
    Call { kind: 2, words: settings, answer: vec![Part::Kept(state)] }
}

/// Begins a walk of the default noise with counters of another width, which the Rust does not know.
pub fn begin_counting(drive: DifferentialDrive, width: u64) -> Call {
    Call::unanswered(3, drive_words(&drive.into(), width))
}

/// Hands in a state of this drive and motion, fit or not.
pub fn hand_in(drive: DifferentialDrive, motion: &PlanarMotion) -> Call {
    let words = [settings_words(&drive.into(), &WheelNoise::default()), motion_words(motion), words(&[0.0]), last_words(None)].concat();
    Call { kind: 7, words: words.clone(), answer: vec![Part::Kept(words)] }
}

pub fn motion_parts(m: &PlanarMotion, sizes: &Sizes) -> [Part; 3] {
    let [x, y, heading] = m.delta;
    let covariance = m.covariance.to_cols_array().to_vec();
    [
        Part::Near("x and y", vec![x, y], sizes.place),
        Part::Heading(heading, sizes.heading),
        Part::Near("covariance", covariance, sizes.covariance),
    ]
}

impl Run {
    /// The same without what the added 8 keeps from the Rust, which changes nothing.
    pub fn without_refused_8(mut self) -> Self {
        self.seen.retain(|s| !matches!(s.event, Event::Refused8(_)));
        self
    }

    /// The beginning, and every event with the whole state after it.
    pub fn calls(&self, by: Yardstick) -> Vec<Call> {
        let mut calls = vec![begin(self.made.0, &self.made.1)];
        let mut sizes = Sizes::default();
        for s in &self.seen {
            let mut call = match &s.event {
                Event::Reading(m) | Event::Refused8(m) => read(m),
                Event::Restart => {
                    sizes = Sizes::default();
                    Call::unanswered(6, vec![])
                }
                Event::Change(words) => {
                    if s.said == [0] {
                        sizes = Sizes::default();
                    }
                    Call::unanswered(12, words.clone())
                }
            };
            sizes.reach(&s.motion);
            if by == Yardstick::Widened {
                sizes.reach_on_the_way(s.way);
            }
            call.answer.push(Part::Same("refusals and their times", s.said.clone()));
            call.answer.push(Part::Kept(s.settings.clone()));
            call.answer.extend(motion_parts(&s.motion, &sizes));
            call.answer.push(Part::Same("dt", words(&[s.dt])));
            call.answer.push(Part::Same("last reading", last_words(s.last)));
            calls.push(call);
        }
        calls
    }

    fn tally(&self, group: &mut Group) {
        for s in &self.seen {
            group.parts.1 += 1;
            match s.event {
                Event::Restart => group.tally("restarts", 0),
                Event::Change(_) => group.tally("changes", s.said[0]),
                _ => group.tally("", s.said[0]),
            }
            if matches!(s.event, Event::Refused8(_)) {
                group.leave_out("readings refused by the added 8, not given to the Rust");
            }
        }
        for why in &self.left_out {
            group.leave_out(why);
        }
    }
}

/// What counts as a size that a run reached.
#[derive(Clone, Copy, PartialEq)]
pub enum Yardstick {
    /// Document 01's own: at the readings.
    Own,
    /// Inside an interval too. After whole turns a heading or a place is back at 0, though it was not there on the way.
    Widened,
}

/// The largest sizes reached since the start or the last restart, by the Rust.
#[derive(Default)]
pub struct Sizes {
    place: f64,
    heading: f64,
    covariance: f64,
}

impl Sizes {
    fn reach(&mut self, m: &PlanarMotion) {
        self.place = larger(self.place, largest(&m.delta[..2]));
        self.heading = larger(self.heading, m.delta[2].abs());
        self.covariance = larger(self.covariance, largest(&m.covariance.to_cols_array()));
    }

    fn reach_on_the_way(&mut self, (place, heading): (f64, f64)) {
        self.place = larger(self.place, place);
        self.heading = larger(self.heading, heading);
    }

    /// Of a composition: a run of two motions and what they come to.
    pub fn of_composition(a: &PlanarMotion, b: &PlanarMotion) -> Self {
        let mut sizes = Self::default();
        for m in [a, b, &a.compose(b)] {
            sizes.reach(m);
        }
        sizes
    }
}

pub fn runs(ours: &Ours, name: &'static str, runs: &[Run]) -> Group {
    judged(ours, name, runs, Yardstick::Own)
}

/// By the widened yardstick, and beside it by document 01's own.
pub fn runs_by_both(ours: &Ours, name: &'static str, runs: &[Run]) -> Group {
    let mut group = judged(ours, name, runs, Yardstick::Widened);
    group.by_own = Some(Box::new(judged(ours, name, runs, Yardstick::Own)));
    group
}

fn judged(ours: &Ours, name: &'static str, runs: &[Run], by: Yardstick) -> Group {
    let mut group = Group::new(name, "readings, restarts and changes");
    let steps = runs.iter().flat_map(|r| r.seen.windows(2)).map(|w| w[1].dt - w[0].dt).filter(|step| *step > 0.0);
    let (least, most) = steps.fold((f64::INFINITY, 0.0), |(a, b), step| (step.min(a), step.max(b)));
    let longest = runs.iter().map(|r| r.seen.len()).max().unwrap_or(0);
    group.note = format!("the longest run {longest}, time steps accepted from {least:.1e} to {most:.1e} s");
    for run in runs {
        run.tally(&mut group);
    }
    let cases: Vec<_> = runs.iter().map(|run| run.calls(by)).collect();
    group.ask(ours, "wheel_cases", &cases);
    group
}

pub fn domain_runs(random: &mut Random, radii: Radii) -> Vec<Run> {
    let length = |random: &mut Random| match random.below(4) {
        0 => 1 + random.below(10),
        1 => 10 + random.below(90),
        2 => 100 + random.below(901),
        _ => 1000,
    };
    (0..200)
        .map(|_| {
            let n = length(random);
            domain_run(random, n, radii)
        })
        .collect()
}

pub fn tame_runs(random: &mut Random, radii: Radii) -> Vec<Run> {
    (0..40).map(|_| tame_run(random, 1000, radii)).collect()
}

/// With changes of drive and noise, half of them over the whole domain; carts of one radius and of two.
pub fn changing_runs(random: &mut Random) -> Vec<Run> {
    let radii = |n: u64| if n % 2 == 0 { Radii::One } else { Radii::Two };
    let wide: Vec<_> = (0..100).map(|n| changing_domain_run(random, 400, radii(n))).collect();
    wide.into_iter().chain((0..40).map(|n| changing_tame_run(random, 1000, radii(n)))).collect()
}

/// The hardest: every interval turns as far as the refusal 8 allows, or nearly, and the same each time, so that what 20 doublings do to a heading
/// adds up over 1,000 readings.
pub fn spinning_runs(random: &mut Random) -> Vec<Run> {
    (0..40).map(|_| spinning_run(random)).collect()
}

fn spinning_run(random: &mut Random) -> Run {
    let drive = DifferentialDrive { wheel_radius: random.size(1e-3, 1e3), track_width: 1.0, ticks_per_revolution: 1.0 };
    let noise = WheelNoise { wheel_rate: random.any_size(), lateral_velocity: random.any_size() };
    let step = random.between(16.0, 900.0);
    let apart = random.between(1.0, 4.0) * f64::from(1 << 20) / step / drive.wheel_radius;
    let left = random.between(-1.0, 1.0) * apart;
    let (mut run, mut rust) = Run::new(drive.into(), noise);
    let is_even = random.once_in(2);
    for i in 0..1000 {
        let time = if is_even { f64::from(i) * step.floor() } else { f64::from(i) * step };
        let rates = [left, left + apart].map(|w| w.clamp(-MOST, MOST));
        run.read(WheelMeasurement::angular_velocity(time, rates), &mut rust);
    }
    run
}

/// Intervals of whole turns: one tick is a turn of the wheel, and the radius a whole part or multiple of the track.
pub fn turning_runs(random: &mut Random) -> Vec<Run> {
    (0..40).map(|_| turning_run(random)).collect()
}

fn turning_run(random: &mut Random) -> Run {
    let track_width = random.one_of(&[0.25, 0.5, 1.0, 3.0, 0.7]);
    let drive = DifferentialDrive { wheel_radius: random.one_of(&[0.5, 1.0, 2.0]) * track_width, track_width, ticks_per_revolution: 1.0 };
    let noise = WheelNoise { wheel_rate: random.any_size(), lateral_velocity: random.any_size() };
    let step = random.between(0.01, 900.0);
    let mut ticks = [random.word() as i64, random.word() as i64];
    let (mut run, mut rust) = Run::new(drive.into(), noise);
    for i in 0..200 {
        run.read(WheelMeasurement::ticks(f64::from(i) * step, ticks), &mut rust);
        ticks = [ticks[0].wrapping_add(random.below(3) as i64), ticks[1].wrapping_add(random.below(1000) as i64)];
    }
    run
}

// ---- asked on their own

/// A drive, two rates, two differences of ticks and a time.
pub struct Asked {
    drive: DifferentialDrive,
    rates: [f64; 2],
    ticks: [i64; 2],
    dt: f64,
}

impl Asked {
    pub fn draw(random: &mut Random) -> Self {
        let tick = random.size(1.0, 9.3e18);
        Self {
            drive: any_drive(random),
            rates: [random.any(), random.any()],
            ticks: counted(random, [0, 0], tick, false),
            dt: random.positive(),
        }
    }

    pub fn is_left_out(&self) -> bool {
        Cart::from(self.drive).is_nearly_straight(self.rates)
    }

    /// The drive, and what it gives.
    pub fn calls(&self) -> [Call; 4] {
        let BodyTwist { vx, vy, wz } = self.drive.twist(self.rates);
        let twist = vec![
            Part::Kept(vec![0]),
            Part::Near("forward speed", vec![vx], vx.abs()),
            Part::Kept(words(&[vy])),
            Part::Near("yaw rate", vec![wz], wz.abs()),
        ];
        let jacobian = self.drive.twist_jacobian(self.rates).map(|column| column.to_array()).concat();
        let ticks = vec![self.ticks[0] as u64, self.ticks[1] as u64, bits(self.dt)];
        let ask = |kind, asked, what, given: &[f64]| {
            let answer = vec![Part::Kept(vec![0]), Part::Same(what, words(given))];
            Call { kind, words: asked, answer }
        };
        [
            begin(self.drive, &WheelNoise::default()),
            Call { kind: 8, words: words(&self.rates), answer: twist },
            ask(9, ticks, "rates from ticks", &self.drive.wheel_rates_from_ticks(self.ticks, self.dt)),
            ask(10, vec![], "Jacobian", &jacobian),
        ]
    }
}

pub fn asked(ours: &Ours, random: &mut Random) -> Group {
    let mut group = Group::new("twists, rates from ticks and Jacobians, asked on their own; the default noise", "");
    let (left_out, compared): (Vec<_>, Vec<_>) = (0..10_000).map(|_| Asked::draw(random)).partition(Asked::is_left_out);
    left_out.iter().for_each(|_| group.leave_out(NEARLY_STRAIGHT));
    let cases: Vec<_> = compared.iter().map(Asked::calls).collect();
    let WheelNoise { wheel_rate, lateral_velocity } = WheelNoise::default();
    let drive = drive_words(&UNIT.into(), WIDTH);
    let default = Part::Same("default noise", words(&[wheel_rate, lateral_velocity]));
    let begun = Call { kind: 3, words: drive.clone(), answer: vec![Part::Kept(vec![0]), Part::Kept(drive), default] };
    group.ask(ours, "wheel_cases", &cases);
    group.hold(&mut ours.lines("wheel_cases", &records([&begun])).next().expect("one"), &begun.answer);
    group
}

// ---- single compositions

/// A symmetric matrix: half of the time L·Lᵀ, otherwise any.
fn covariance(random: &mut Random) -> [f64; 9] {
    let e = if random.once_in(2) {
        let scale = random.size(1e-3, 1e3);
        let mut l = [0.0; 6];
        l.fill_with(|| random.between(-scale, scale));
        let [a, b, c, d, e, f] = l;
        [a * a, a * b, b * b + c * c, a * d, b * d + c * e, d * d + e * e + f * f]
    } else {
        std::array::from_fn(|_| random.any())
    };
    [e[0], e[1], e[3], e[1], e[2], e[4], e[3], e[4], e[5]].map(|x| if x.abs() < LEAST { 0.0 } else { x.clamp(-MOST, MOST) })
}

pub fn motion(random: &mut Random) -> PlanarMotion {
    let heading = match random.below(4) {
        0 => random.between(-4.0, 4.0),
        1 => random.signed(LEAST, 4.0),
        2 => random.one_of(&[0.0, 2.0, -2.0, 4.0, -4.0, PI, -PI, std::f64::consts::FRAC_PI_2]),
        _ => random.between(-1.0, 1.0),
    };
    let heading = if heading.abs() < LEAST { 0.0 } else { heading };
    PlanarMotion { delta: [random.any(), random.any(), heading], covariance: Mat3F64::from_cols_array(&covariance(random)) }
}

/// The first motion, and the second composed with it.
pub fn composition(a: &PlanarMotion, b: &PlanarMotion) -> [Call; 2] {
    let mut answer = vec![Part::Same("refusals", vec![0])];
    answer.extend(motion_parts(&a.compose(b), &Sizes::of_composition(a, b)));
    [hand_in(UNIT, a), Call { kind: 11, words: motion_words(b), answer }]
}

pub fn compositions(ours: &Ours, random: &mut Random) -> Group {
    let mut group = Group::new("single compositions of planar motions", "");
    let cases: Vec<_> = (0..10_000).map(|_| composition(&motion(random), &motion(random))).collect();
    group.ask(ours, "wheel_cases", &cases);
    group
}
