//! Compares the library with the original Rust; see README.md.

use std::process::ExitCode;
use std::thread;
use std::time::Instant;

use bench::judge::{Fault, Judge};
use bench::rng::Rng;
use bench::run;
use bench::tally::Tally;

const USAGE: &str = "usage: compare [--cases N] [--seed S] | compare --self-test";

/// The default number of cases.
const CASES: u64 = 37_000_000;

/// No more than two, whatever the machine has.
const WORKERS: usize = 2;

fn main() -> ExitCode {
    let (mut cases, mut seed) = (CASES, 1);
    let mut args = std::env::args().skip(1);
    while let Some(arg) = args.next() {
        let number = |text: Option<String>| text.and_then(|text| text.parse().ok());
        match (arg.as_str(), &mut cases, &mut seed) {
            ("--self-test", ..) => return self_test(),
            ("--cases", value, _) | ("--seed", _, value) => match number(args.next()) {
                Some(number) => *value = number,
                None => return usage(),
            },
            _ => return usage(),
        }
    }
    compare(cases, seed)
}

fn usage() -> ExitCode {
    eprintln!("{USAGE}");
    ExitCode::from(2)
}

/// At least so many cases: all short ones, then random ones.
fn compare(cases: u64, seed: u64) -> ExitCode {
    println!("seed {seed}, {WORKERS} workers");
    let start = Instant::now();
    let mut tally = Tally::default();
    thread::scope(|scope| {
        let work = |worker| scope.spawn(move || worked(worker, cases, seed));
        let workers: Vec<_> = (0..WORKERS).map(work).collect();
        for worker in workers {
            tally.merge(worker.join().expect("a worker ends"));
        }
    });
    let seconds = start.elapsed().as_secs_f64();
    let (all, calls) = (tally.cases(), tally.calls);
    println!("{all} cases, {calls} calls of the library, {seconds:.1} s\n\n{tally}");
    ExitCode::from(u8::from(tally.unexplained() > 0))
}

/// A worker's part of the run.
fn worked(worker: usize, cases: u64, seed: u64) -> Tally {
    let mut judge = Judge::default();
    if worker == 0 {
        run::known(&mut judge);
        run::limits(&mut judge);
    }
    run::exhaustive(&mut judge, (worker, WORKERS));
    // Seeds that differ by little give sequences that have nothing in common.
    let mut rng = Rng::new(Rng::new(seed).bits().wrapping_add(worker as u64));
    while judge.tally.cases() < cases / WORKERS as u64 {
        for _ in 0..100 {
            run::round(&mut judge, &mut rng);
        }
    }
    judge.tally
}

/// Puts each fault into the library's answers: every one must be reported.
fn self_test() -> ExitCode {
    let mut missed = 0;
    for fault in Fault::ALL {
        for (kind, count) in run::faulty(fault, 200).counts {
            let (put, reported) = (count.faults, count.unexplained.cases);
            missed += put.abs_diff(reported);
            println!("{fault:?}, {kind}: {put} faults, {reported} reported");
        }
    }
    println!("{missed} missed");
    ExitCode::from(u8::from(missed > 0))
}
