//! `compare CASES SEED [FIRST]`: so many random cases of a seed, from the first on, by the proved functions and
//! by the model. Prints what was met; fails at the first case in which the two differ.

use compare::cases::bench::Bench;
use compare::proved::Proved;
use compare::side::Model;
use std::process::ExitCode;
use std::time::Instant;

/// The number in this argument, or the default where there is none.
fn argument(place: usize, default: u64) -> u64 {
    std::env::args()
        .nth(place)
        .map_or(default, |word| word.parse().expect("a number"))
}

/// Does the cases and prints what they met.
fn main() -> ExitCode {
    let (cases, seed, first) = (argument(1, 100_000), argument(2, 1), argument(3, 0));
    let mut bench = Bench::new(&Model, &Proved, seed);
    let start = Instant::now();
    let found = bench.cases(first, cases);
    let enough = bench.tally.demand(cases / 100_000);
    println!("{}", bench.tally);
    if let Err(fault) = found.and(enough) {
        println!("{fault}");
        return ExitCode::FAILURE;
    }
    let seconds = start.elapsed().as_secs_f64();
    println!("{cases} cases of seed {seed} in {seconds:.1} s: the same on both sides");
    ExitCode::SUCCESS
}
