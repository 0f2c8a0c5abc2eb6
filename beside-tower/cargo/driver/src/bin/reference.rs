//! reference RUNS CUT ANSWERS: has tower answer the runs of a file, writes the answers, and the runs as far as they are
//! compared; says how much that was.

use driver::drive::{answer, Totals};
use driver::run::{Reader, Run};
use std::fs::File;
use std::io::{BufWriter, Write};

fn main() {
    let args: Vec<String> = std::env::args().skip(1).collect();
    let [runs, cut, answers] = &args[..] else { panic!("reference RUNS CUT ANSWERS") };
    let text = std::fs::read_to_string(runs).expect("to read the runs");
    let mut cut = BufWriter::new(File::create(cut).expect("to write the cut runs"));
    let mut answers = BufWriter::new(File::create(answers).expect("to write the answers"));
    // A panic of tower is an answer here, so it is not to be printed.
    std::panic::set_hook(Box::new(|info| {
        let text = info.to_string();
        if !text.contains("called before ready") && !text.contains("was not called") {
            eprintln!("{text}");
        }
    }));
    let mut totals = Totals::default();
    let mut reader = Reader::new(&text);
    while let Some(run) = reader.run() {
        let (lines, compared, _) = answer(&run, &mut totals);
        write!(answers, "{lines}").expect("to write");
        let picks = run.picks[..compared].to_vec();
        write!(cut, "{}", Run { picks, ..run }).expect("to write");
    }
    report(&totals);
}

fn report(t: &Totals) {
    let early = t.after_fault + t.evicted + t.panicked;
    let share = 100.0 * early as f64 / t.runs as f64;
    println!("{} runs; {} polls, {} calls, {} completions, {} calls of the cache; {} draws", t.runs, t.polls, t.calls, t.completions, t.cache_calls, t.draws);
    println!(
        "{early} runs ({share:.1} %) ended early: {} at a call after a poll that a fault ended, {} at a poll that evicted or moved the selected entry, {} at a call of the balancer after the cache was called past it",
        t.after_fault, t.evicted, t.panicked
    );
}
