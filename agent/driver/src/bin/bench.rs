//! All measurements by one command, as ratios in one run.

use flosquedo_driver::{bench, measure};

fn main() {
    bench::verifying();
    println!();
    measure::measure_machine();
    println!();
    bench::hotspot();
    println!();
    measure::measure_verifier();
}
