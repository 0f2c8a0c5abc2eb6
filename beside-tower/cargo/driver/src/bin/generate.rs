//! generate SEED RUNS: writes made-up runs.

use driver::generate::run;
use driver::random::Random;
use std::io::{BufWriter, Write};

fn main() {
    let mut args = std::env::args().skip(1).map(|a| a.parse::<u64>().expect("a number"));
    let (seed, runs) = (args.next().expect("SEED"), args.next().expect("RUNS"));
    let mut random = Random::new(seed);
    let mut out = BufWriter::new(std::io::stdout().lock());
    for _ in 0..runs {
        write!(out, "{}", run(&mut random)).expect("to write");
    }
}
