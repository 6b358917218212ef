//! What judging a bundle costs, as ratios to a byte-by-byte FNV-1a pass over the same bytes, best of many.

use std::process::ExitCode;
use std::time::Instant;

use flosquedo_outside::{bundle, bundles, fnv1a64, names_in};
use flosquedo_proved::{Entry, Machine};

use crate::bundles::{branches, covered, methods, pool_heavy, straight, Naming};
use crate::part::{Judge, Part};

const ROUNDS: usize = 400;
const STEPS: u32 = 1_000_000;

/// A method of the sample `Bench`.
pub struct Sample {
    pub method: u32,
    pub name: &'static str,
}

const fn sample(method: u32, name: &'static str) -> Sample {
    Sample { method, name }
}

/// What the machine is measured on.
pub const BENCHES: [Sample; 5] = [
    sample(1, "sieve"),
    sample(2, "list"),
    sample(3, "sort"),
    sample(4, "calls"),
    sample(6, "virtual"),
];

/// What reading, linking and clearing costs.
pub fn measure_reader() -> ExitCode {
    if !Part::Reader.is_linked() {
        eprintln!("built without the reader's archive: run `tools/archive reader` at the repository's root, then build again");
        return ExitCode::from(2);
    }
    let mut bench = Bench::new(Part::Reader);
    let prefixed = Naming::Prefixed(240);
    bench.row("pool-heavy, 16 classes", &pool_heavy(16, 3_900, 4));
    bench.row("pool-heavy, 1 class", &pool_heavy(1, 2_060, 4));
    bench.row("the largest job", &largest_job());
    for (name, bundle) in [
        (
            "3 times 64 methods, equal prefixes of 240",
            methods(3, 64, prefixed, false),
        ),
        ("the same in a chain of 3", methods(3, 64, prefixed, true)),
        (
            "a chain of 16, 4 methods each",
            methods(16, 4, Naming::Prefixed(4), true),
        ),
        (
            "a chain of 16, 16 methods each",
            methods(16, 16, Naming::Prefixed(4), true),
        ),
        (
            "a chain of 16, 64 methods each",
            methods(16, 64, Naming::Prefixed(4), true),
        ),
        (
            "the same 64 methods in a chain of 16",
            methods(16, 64, Naming::Repeated, true),
        ),
        (
            "16 times 64 overloads of a long name",
            methods(16, 64, Naming::Overloaded, false),
        ),
        (
            "the same in a chain of 16",
            methods(16, 64, Naming::Overloaded, true),
        ),
        (
            "a chain of 10, 64 methods each, all of one print",
            methods(10, 64, Naming::Alike, true),
        ),
    ] {
        bench.row(name, &bundle);
    }
    ExitCode::SUCCESS
}

/// What the whole verification costs, and how it grows.
pub fn measure_verifier() -> ExitCode {
    let mut bench = Bench::new(Part::Verifier);
    bench.jobs();
    bench.row("the largest job", &largest_job());
    for length in [256, 512, 1_024, 2_048, 4_096] {
        bench.row(&format!("{} bytes of code", length), &straight(length));
    }
    for count in [16, 32, 64, 128, 256] {
        bench.row(
            &format!("{} branches, {} frames", count, count),
            &branches(count),
        );
    }
    for count in [1, 2, 4, 8, 16] {
        bench.row(
            &format!("{} classes with pools of 2,000 bytes", count),
            &pool_heavy(count, 2_000, 0),
        );
    }
    for size in [1_000, 2_000, 4_000, 6_000] {
        bench.row(
            &format!("1 class with a pool of {} bytes", size),
            &pool_heavy(1, size, 0),
        );
    }
    for count in [1, 4] {
        bench.row(
            &format!(
                "{} methods of long code under 32 entries, 256 full frames",
                count
            ),
            &covered(count),
        );
    }
    ExitCode::SUCCESS
}

/// What a step costs beside the independent implementation, over a million steps each.
pub fn measure_machine() -> ExitCode {
    let bytes = include_bytes!("../../samples/Bench.bundle");
    let mut machine = Machine::new();
    let mut heap = vec![0; 16_384];
    println!("what\tns a step\tindependent, ns a step\tratio");
    for Sample { method, name } in BENCHES {
        let entry = Entry {
            class: 0,
            method,
            arguments: &[i32::MAX as u32],
            budget: STEPS,
        };
        let steps = machine.run(bytes, &mut heap, entry).map(|run| run.steps);
        assert_eq!(steps, Ok(STEPS), "{} is to run out of steps", name);
        let proved = best(|| {
            machine
                .run(bytes, &mut heap, entry)
                .map_or(0, |run| run.steps)
        });
        let independent = best(|| {
            flosquedo_reference::run(bytes, &mut heap, 0, method, entry.arguments, STEPS).count
        });
        let steps = f64::from(STEPS);
        println!(
            "{}\t{:.1}\t{:.1}\t{:.2}",
            name,
            proved / steps,
            independent / steps,
            proved / independent
        );
    }
    ExitCode::SUCCESS
}

struct Bench {
    judge: Judge,
    clearing: f64,
}

impl Bench {
    fn new(part: Part) -> Bench {
        let mut judge = Judge::new(part);
        let clearing = best(|| judge.judge(keep(&[]))[0]);
        println!(
            "clearing the scratch alone (an empty bundle): {:.1} us",
            clearing / 1e3
        );
        println!("bundle\tbytes\tverdict\tus\tFNV us\tratio\twithout clearing, ns a byte");
        Bench { judge, clearing }
    }

    fn row(&mut self, name: &str, bytes: &[u8]) {
        let verdict = self.judge.judge(bytes)[0];
        let judged = best(|| self.judge.judge(keep(bytes))[0]);
        let hash = best(|| hashed(keep(bytes)));
        println!(
            "{}\t{}\t{}\t{:.1}\t{:.1}\t{:.1}\t{:.2}",
            name,
            bytes.len(),
            verdict,
            judged / 1e3,
            hash / 1e3,
            judged / hash,
            (judged - self.clearing) / bytes.len() as f64
        );
    }

    /// The jobs compiled for Java 8, one after the other.
    fn jobs(&mut self) {
        let names = names_in("jobs/bundles");
        let names = names.iter().filter(|name| name.ends_with(".r8.bundle"));
        let bundles: Vec<Vec<u8>> = names.map(|name| bundle(name)).collect();
        let judge = &mut self.judge;
        let judged = best(|| {
            let refused = |bytes: &Vec<u8>| judge.judge(keep(bytes.as_slice()))[0];
            bundles.iter().map(refused).sum::<u32>()
        });
        let hash = best(|| {
            let hashes = bundles.iter().map(|bytes| hashed(keep(bytes.as_slice())));
            hashes.fold(0, |sum, hash| sum ^ hash)
        });
        let bytes: usize = bundles.iter().map(Vec::len).sum();
        println!(
            "{} jobs\t{}\t0\t{:.1}\t{:.1}\t{:.1}\t{:.2}",
            bundles.len(),
            bytes,
            judged / 1e3,
            hash / 1e3,
            judged / hash,
            (judged - self.clearing * bundles.len() as f64) / bytes as f64
        );
    }
}

fn largest_job() -> Vec<u8> {
    let jobs = bundles("jobs/bundles").into_iter();
    jobs.max_by_key(Vec::len).expect("a job")
}

/// The shortest of many runs, in nanoseconds; long ones are run less often.
pub fn best<T: Copy>(mut run: impl FnMut() -> T) -> f64 {
    let start = Instant::now();
    let mut least = f64::INFINITY;
    for round in 0..ROUNDS {
        let one = Instant::now();
        keep(run());
        least = least.min(one.elapsed().as_nanos() as f64);
        if round > 10 && start.elapsed().as_secs() >= 2 {
            break;
        }
    }
    least
}

fn hashed(bytes: &[u8]) -> u64 {
    fnv1a64(bytes.iter().copied())
}

/// The value, by a way that the compiler does not see through.
pub fn keep<T: Copy>(value: T) -> T {
    // SAFETY: it reads a local that has a value.
    unsafe { std::ptr::read_volatile(&value) }
}
