//! Runs the Rust that Latchfern was carried over from beside the proved code, on the same inputs. README.md says what is compared how.
mod call;
mod differences;
mod factors;
mod inertial;
mod mapping;
mod numbers;
mod ours;
mod random;
mod report;
mod sample;
mod wheel;

use ours::Ours;
use random::Random;
use wheel::Radii;

fn main() {
    let words: Vec<_> = std::env::args().skip(1).collect();
    let words: Vec<&str> = words.iter().map(String::as_str).collect();
    match words[..] {
        ["--sample", folder] => sample::write(folder.as_ref()).expect("the folder is there"),
        [runner] => compare(&Ours { runner: runner.into() }, 0),
        [runner, seed] => compare(&Ours { runner: runner.into() }, seed.parse().expect("a number")),
        _ => panic!("usage: oracle RUNNER [SEED], or oracle --sample FOLDER"),
    }
}

fn compare(ours: &Ours, seed: u64) {
    let random = |group: u64| Random(1000 * seed + group);
    let mut groups = vec![
        numbers::leaves(ours, &mut random(17)),
        wheel::runs(ours, "wheel runs over the whole domain", &wheel::domain_runs(&mut random(1), Radii::One)),
        wheel::runs(ours, "wheel runs of a few readings, up to the domain's end", &wheel::short_runs(&mut random(16))),
        wheel::runs(ours, "tame wheel walks", &wheel::tame_runs(&mut random(2), Radii::One)),
        wheel::runs(ours, "wheel runs of two radii over the whole domain", &wheel::domain_runs(&mut random(18), Radii::Two)),
        wheel::runs(ours, "tame wheel walks of two radii", &wheel::tame_runs(&mut random(19), Radii::Two)),
        wheel::runs(ours, "wheel runs with changes of drive and noise", &wheel::changing_runs(&mut random(20))),
        wheel::runs(ours, "wheel runs that turn as far as they may", &wheel::spinning_runs(&mut random(13))),
        wheel::runs_by_both(ours, "wheel runs of whole turns", &wheel::turning_runs(&mut random(14))),
        wheel::asked(ours, &mut random(3)),
        wheel::compositions(ours, &mut random(4)),
        factors::information(ours, &mut random(5)),
        factors::validity(ours, &mut random(6)),
        factors::composed(ours, &mut random(7)),
        factors::limits(ours, &mut random(8)),
        factors::stills(ours, &mut random(9)),
        factors::constructors(ours, &mut random(15)),
    ];
    if ours.has("imu_cases") {
        groups.extend([
            inertial::runs(ours, "inertial runs over the whole domain", &inertial::domain_runs(&mut random(10))),
            inertial::runs(ours, "tame inertial runs", &inertial::tame_runs(&mut random(11))),
            inertial::runs(ours, "inertial windows (from_measurements)", &inertial::window_runs(&mut random(12))),
        ]);
    } else {
        println!("inertial: NOT COMPARED, the repository has no crates/imu_cases");
    }
    for group in &groups {
        group.print();
    }
    differences::print(ours);
    report::conclude(&groups);
    if groups.iter().any(|g| !g.agrees()) {
        std::process::exit(1);
    }
}
