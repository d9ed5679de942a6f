//! The C library against the second program, call by call, over all admitted codes.
//!
//! Every case is made by a fixed generator (`case`) and put to both on copies of the same
//! buffers (`check`). A run stops at the mismatch with the lowest number, so that it shows the
//! same one whatever the number of threads.

pub mod case;
pub mod check;
mod draw;
pub mod guarded;
pub mod kind;
pub mod plan;

use case::Case;
use check::{check, Library, Mismatch};
use plan::Plan;
use std::sync::atomic::{AtomicU64, Ordering::Relaxed};
use std::thread;
use std::time::{Duration, Instant};

/// Cases `first` to `first + calls - 1` of a seed.
#[derive(Debug, Clone, Copy)]
pub struct Run {
    pub seed: u64,
    pub first: u64,
    pub calls: u64,
}

/// How often each cell of the plan was met with each code: by code, then cell.
pub type Counts = Vec<Vec<u64>>;
type Result<T> = std::result::Result<T, Box<Mismatch>>;

/// What the threads of a run share.
struct Shared<'a> {
    run: Run,
    plan: Plan,
    library: &'a Library,
    second: &'a Library,
    threads: u64,
    done: AtomicU64,
    /// No case from this number on is needed: the end, or a mismatch found.
    end: AtomicU64,
}

/// Compares, on all cores. `watch` is told the number of calls done every few seconds.
pub fn run(
    run: Run,
    library: &Library,
    second: &Library,
    mut watch: impl FnMut(u64),
) -> Result<Counts> {
    let shared = Shared {
        run,
        plan: Plan::new(),
        library,
        second,
        threads: thread::available_parallelism().map_or(1, |cores| cores.get() as u64),
        done: AtomicU64::new(0),
        end: AtomicU64::new(run.first + run.calls),
    };
    let results: Vec<_> = thread::scope(|scope| {
        let shared = &shared;
        let worker = |thread| scope.spawn(move || work(shared, thread));
        let workers: Vec<_> = (0..shared.threads).map(worker).collect();
        let mut told = Instant::now();
        while workers.iter().any(|worker| !worker.is_finished()) {
            thread::sleep(Duration::from_millis(20));
            if told.elapsed() >= Duration::from_secs(5) {
                watch(shared.done.load(Relaxed));
                told = Instant::now();
            }
        }
        workers
            .into_iter()
            .map(|worker| worker.join().expect("no panic"))
            .collect()
    });
    add_up(results, &shared.plan)
}

/// The share of one thread: every `threads`-th case.
fn work(shared: &Shared, thread: u64) -> Result<Counts> {
    let Shared { run, plan, .. } = shared;
    let mut counts = no_counts(plan);
    let mut number = run.first + thread;
    while number < shared.end.load(Relaxed) {
        let case = Case::make(plan, run.seed, number);
        let answer = check(&case, shared.library, shared.second).inspect_err(|_| {
            shared.end.fetch_min(number, Relaxed);
        })?;
        if kind::answers(case.call, case.kind, case.length).contains(&answer) {
            let (code, cell) = plan.turn(number);
            counts[code][cell] += 1;
        }
        shared.done.fetch_add(1, Relaxed);
        number += shared.threads;
    }
    Ok(counts)
}

fn no_counts(plan: &Plan) -> Counts {
    vec![vec![0; plan.cells.len()]; plan.codes.len()]
}

/// The counts of all threads, or of their mismatches the first.
fn add_up(results: Vec<Result<Counts>>, plan: &Plan) -> Result<Counts> {
    let mut total = no_counts(plan);
    let mut first: Option<Box<Mismatch>> = None;
    for result in results {
        match result {
            Ok(counts) => {
                let cells = total.iter_mut().flatten().zip(counts.iter().flatten());
                cells.for_each(|(total, count)| *total += count);
            }
            Err(mismatch) => {
                if first
                    .as_ref()
                    .is_none_or(|first| mismatch.case.number < first.case.number)
                {
                    first = Some(mismatch);
                }
            }
        }
    }
    first.map_or(Ok(total), Err)
}
