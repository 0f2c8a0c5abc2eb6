//! How long a cycle of poll, call and completion takes: ours, tower as published, and the reference, in turn.

mod cycles;

use cycles::{as_published, as_reference, ours, Shape};
use std::hint::black_box;

const ROUNDS: usize = 7;
const FIRST: u32 = 200;

type Run = fn(Shape) -> u64;

#[repr(C)]
struct Timespec {
    seconds: i64,
    nanos: i64,
}

extern "C" {
    fn clock_gettime(clock: i32, time: *mut Timespec) -> i32;
}

/// The processor time that this process has taken, in seconds: other work on the machine is not in it.
fn processor_time() -> f64 {
    const CLOCK_PROCESS_CPUTIME_ID: i32 = 2;
    let mut time = Timespec { seconds: 0, nanos: 0 };
    let status = unsafe { clock_gettime(CLOCK_PROCESS_CPUTIME_ID, &mut time) };
    assert_eq!(status, 0);
    time.seconds as f64 + time.nanos as f64 / 1e9
}

fn seconds(run: Run, shape: Shape) -> f64 {
    let start = processor_time();
    black_box(run(black_box(shape)));
    processor_time() - start
}

/// Nanoseconds for a cycle, without what the making and the first cycles take.
fn nanos(run: Run, shape: Shape) -> f64 {
    let begun = seconds(run, Shape { cycles: FIRST, ..shape });
    let whole = seconds(run, Shape { cycles: FIRST + shape.cycles, ..shape });
    (whole - begun).max(0.0) * 1e9 / f64::from(shape.cycles)
}

fn median(mut times: Vec<f64>) -> f64 {
    times.sort_by(f64::total_cmp);
    times[times.len() / 2]
}

/// Times the three in turn, round by round, and prints the medians.
fn line(name: &str, runs: [Run; 3], shape: Shape) {
    let mut times = [Vec::new(), Vec::new(), Vec::new()];
    for _ in 0..ROUNDS {
        for (run, times) in runs.iter().zip(times.iter_mut()) {
            times.push(nanos(*run, shape));
        }
    }
    let [ours, published, reference] = times.map(median);
    println!(
        "| {name} | {} | {ours:.0} | {published:.0} | {reference:.0} | {:.2} | {:.2} |",
        shape.workers,
        published / ours,
        reference / ours
    );
}

/// The reference answers the same, so it is the same work.
fn check(name: &str, runs: [Run; 3], shape: Shape) {
    let shape = Shape { cycles: 3000, ..shape };
    let (ours, reference) = (runs[0](shape), runs[2](shape));
    if ours != reference {
        println!("{name} at {} workers: ours sums to {ours}, the reference to {reference}", shape.workers);
    }
}

fn main() {
    cycles::set_up();
    let count: [Run; 3] = [ours::by_count, as_published::by_count, as_reference::by_count];
    let time: [Run; 3] = [ours::by_time, as_published::by_time, as_reference::by_time];
    let shapes = [("all ready", 0, 0), ("one in ten not ready", 10, 0), ("one in four cycles a worker leaves and comes", 0, 4)];
    println!("| workers | number | ours, ns | tower as published, ns | reference, ns | published / ours | reference / ours |");
    println!("|---|---:|---:|---:|---:|---:|---:|");
    for (measure, runs) in [("requests out", count), ("Peak-EWMA", time)] {
        for (name, unready, turnover) in shapes {
            for workers in [2, 8, 64, 512, 4096] {
                let cycles = if workers > 512 { 20_000 } else { 40_000 };
                let shape = Shape { workers, unready, turnover, cycles, out: 0 };
                let name = format!("{measure}, {name}");
                check(&name, runs, Shape { workers: workers.min(4000), ..shape });
                line(&name, runs, shape);
            }
        }
    }
    println!();
    println!("| tickets out, 64 workers | number | ours, ns | tower as published, ns | reference, ns | published / ours | reference / ours |");
    println!("|---|---:|---:|---:|---:|---:|---:|");
    for out in [0, 16, 256, 4096, 65_535] {
        let shape = Shape { workers: 64, unready: 0, turnover: 0, cycles: 40_000, out };
        tickets(count, shape);
    }
    let (counted, timed, record) = ours::bytes();
    println!("\nan entry by requests out has {counted} bytes, one by response time {timed}, a record {record}");
}

/// A cycle with so many tickets out: the time with that many, without the time until they are out.
fn tickets(runs: [Run; 3], shape: Shape) {
    let mut times = [Vec::new(), Vec::new(), Vec::new()];
    let first = FIRST + shape.out;
    let cycles = shape.cycles;
    for _ in 0..ROUNDS {
        for (run, times) in runs.iter().zip(times.iter_mut()) {
            let begun = seconds(*run, Shape { cycles: first, ..shape });
            let whole = seconds(*run, Shape { cycles: first + cycles, ..shape });
            times.push((whole - begun).max(0.0) * 1e9 / f64::from(cycles));
        }
    }
    let [ours, published, reference] = times.map(median);
    println!("| requests out | {} | {ours:.0} | {published:.0} | {reference:.0} | {:.2} | {:.2} |", shape.out, published / ours, reference / ours);
}
