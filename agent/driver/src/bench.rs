//! The compiled verifier and machine beside the independent implementation and, where `java` is on the machine, beside HotSpot.

use std::path::Path;
use std::process::Command;

use flosquedo_outside::{bundle, names_in, vectors};
use flosquedo_proved::{Entry, Machine, Verifier};

use crate::measure::{best, keep, BENCHES};

const LOADS: &str = "50";
/// Rounds of each method of the sample that make somewhat less than a million steps.
const ROUNDS: [u32; 5] = [10, 20, 5, 5, 30_000];

fn jobs() -> Vec<String> {
    let names = names_in("jobs/bundles").into_iter();
    names.filter(|name| name.ends_with(".r8.bundle")).collect()
}

/// The jobs compiled for Java 8, one after the other.
pub fn verifying() {
    let bundles: Vec<Vec<u8>> = jobs().iter().map(|name| bundle(name)).collect();
    let mut verifier = Verifier::new();
    let proved = best(|| {
        let numbers = bundles
            .iter()
            .map(|bytes| verifier.verify(keep(bytes.as_slice())).number);
        numbers.sum::<u32>()
    });
    let independent = best(|| {
        let numbers = bundles
            .iter()
            .map(|bytes| flosquedo_reference::verify(keep(bytes.as_slice())).number);
        numbers.sum::<u32>()
    });
    println!("verifying {} jobs\tus\tratio", bundles.len());
    println!("proved\t{:.0}\t1.00", proved / 1e3);
    println!(
        "independent\t{:.0}\t{:.2}",
        independent / 1e3,
        independent / proved
    );
    let paths: Vec<String> = jobs()
        .iter()
        .map(|name| vectors().join(name).display().to_string())
        .collect();
    let mut words = vec!["load".to_string(), LOADS.to_string()];
    words.extend(paths);
    for (what, time) in java(&[], &words) {
        println!("HotSpot, {}\t{:.0}\t{:.2}", what, time / 1e3, time / proved);
    }
}

/// HotSpot's interpreter on the sample, by the steps that the proved machine counts.
pub fn hotspot() {
    let sample = Path::new(env!("CARGO_MANIFEST_DIR")).join("../samples/Bench.bundle");
    let bytes = include_bytes!("../../samples/Bench.bundle");
    let mut words = vec![
        "run".to_string(),
        sample.display().to_string(),
        "20".to_string(),
    ];
    words.extend(
        BENCHES
            .iter()
            .zip(ROUNDS)
            .map(|(bench, rounds)| format!("{}={}", bench.name, rounds)),
    );
    let times = java(&["-Xint"], &words);
    println!("what\tns a step\tHotSpot -Xint, ns a step\tratio");
    for ((bench, rounds), (_, time)) in BENCHES.iter().zip(ROUNDS).zip(times) {
        let mut machine = Machine::new();
        let mut heap = vec![0; 16_384];
        let entry = Entry {
            class: 0,
            method: bench.method,
            arguments: &[rounds],
            budget: 1_000_000,
        };
        let steps = machine
            .run(bytes, &mut heap, entry)
            .map_or(0, |run| run.steps);
        let proved = best(|| {
            machine
                .run(bytes, &mut heap, entry)
                .map_or(0, |run| run.steps)
        });
        let steps = f64::from(steps);
        println!(
            "{}\t{:.1}\t{:.1}\t{:.2}",
            bench.name,
            proved / steps,
            time / steps,
            proved / time
        );
    }
}

/// Names and nanoseconds that the Java program prints; none without `java`.
fn java(options: &[&str], words: &[String]) -> Vec<(String, f64)> {
    let program = Path::new(env!("CARGO_MANIFEST_DIR")).join("java/HotSpot.java");
    let output = match Command::new("java")
        .args(options)
        .arg(program)
        .args(words)
        .output()
    {
        Ok(output) if output.status.success() => output,
        _ => {
            println!("(no `java` that runs on this machine)");
            return Vec::new();
        }
    };
    let text = String::from_utf8_lossy(&output.stdout).into_owned();
    let rows = text.lines().filter_map(|line| line.split_once('\t'));
    rows.filter_map(|(name, time)| Some((name.to_string(), time.parse().ok()?)))
        .collect()
}
