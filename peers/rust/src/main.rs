//! rust_peer STEPS POOL WORKLOAD WORKERS THROUGHPUT [once]
//!
//! STEPS is `plain`, the same steps as Heddleorange, or `lean`: no journal, no waiting counts, no gates. POOL is `shared` or
//! `stealing`. It runs the workload, with `once` so that each send is made once, and prints the seconds of the run and how many messages
//! were handled.

mod actor;
mod journal;
mod pool;
mod runtime;
mod workload;

use journal::{Compact, Journal, NoJournal};
use runtime::{Runtime, Steps};
use workload::Workload;

struct Plain;

impl Steps for Plain {
    const COUNTS: bool = true;
    const GATES: bool = true;
    type Journal = Compact;
}

struct Lean;

impl Steps for Lean {
    const COUNTS: bool = false;
    const GATES: bool = false;
    type Journal = NoJournal;
}

fn run<S: Steps, const STEALING: bool>(name: &str, once: bool, workers: usize, throughput: u32) -> Result<(), String> {
    let Workload { scripts, jobs, ends } = workload::named(name, once).ok_or(format!("no workload {name}"))?;
    let outcome = Runtime::<S, STEALING>::run(scripts, jobs, workers, throughput);
    let messages: u64 = ends.iter().map(|end| end.handled).sum();
    let restarts: u64 = ends.iter().map(|end| end.restarts).sum();
    // Each restart is recorded twice: as a failure in the parent's journal, and in the child's.
    let entries = if S::Journal::KEEPS { (messages + 2 * restarts) as usize } else { 0 };
    if outcome.ends != ends || outcome.left != 0 || outcome.entries != entries {
        return Err(format!("{name} ended wrongly: {:?}, {} left, {} entries", outcome.ends, outcome.left, outcome.entries));
    }
    println!("{:.6} {messages}", outcome.seconds);
    Ok(())
}

fn main() -> Result<(), String> {
    let words: Vec<String> = std::env::args().skip(1).collect();
    let words: Vec<&str> = words.iter().map(String::as_str).collect();
    let (words, once) = match words[..] {
        [ref words @ .., "once"] => (words, true),
        ref words => (words, false),
    };
    let [steps, pool, name, workers, throughput] = words[..] else {
        return Err("rust_peer STEPS POOL WORKLOAD WORKERS THROUGHPUT [once]".to_string());
    };
    let workers = workers.parse().map_err(|_| "WORKERS is a number")?;
    let throughput = throughput.parse().map_err(|_| "THROUGHPUT is a number")?;
    match (steps, pool) {
        ("plain", "shared") => run::<Plain, false>(name, once, workers, throughput),
        ("plain", "stealing") => run::<Plain, true>(name, once, workers, throughput),
        ("lean", "shared") => run::<Lean, false>(name, once, workers, throughput),
        ("lean", "stealing") => run::<Lean, true>(name, once, workers, throughput),
        _ => Err(format!("no peer {steps} {pool}")),
    }
}
