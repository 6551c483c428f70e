//! The product against the peer, octet by octet, from fixed seeds; and on whole runs, their rearrangement, what the
//! pickers are told, who is served first, what the pickup group is sent, and what the desk phones do.
//!
//! Every part prints lines of counts. Its first difference ends it with what is needed to see it again. The parts share
//! nothing, so each runs as a process of its own, two at a time; what they print is shown in the order in which they
//! are listed. `cargo test --release -- NAME` runs one part alone.

mod damage;
mod desk;
mod document;
mod entry;
mod fair;
mod lamps;
mod phones;
mod pickers;
mod product;
mod program;
mod ranks;
mod rearrange;
mod runs;
mod tally;

use std::collections::BTreeMap;
use std::env;
use std::io::{self, Write};
use std::process::{exit, Command, Output};
use std::sync::atomic::{AtomicUsize, Ordering};
use std::sync::Mutex;
use std::thread;
use std::time::Instant;

type Part = (&'static str, fn());

/// Two processors are what the gate may count on.
const AT_ONCE: usize = 2;

/// The two long ones first, so that they run side by side.
const PARTS: [Part; 7] = [
    ("entry", at_the_entry),
    ("lamps", lamps::run),
    ("program", program::run),
    ("rearrangement", rearrange::run),
    ("pickers", pickers::run),
    ("fairness", fair::run),
    ("phones", phones::run),
];

fn main() {
    // Cargo may add arguments of its own: one that names no part says nothing.
    let named = |(name, _): &&Part| env::args().skip(1).any(|argument| argument == *name);
    match PARTS.iter().find(named) {
        Some((_, run)) => run(),
        None => run_all(),
    }
}

fn at_the_entry() {
    let mut desk = desk::Desk::new();
    document::run(&mut desk);
    entry::run(&mut desk);
    desk.tally.print_and_demand();
}

fn run_all() {
    let start = Instant::now();
    let next = AtomicUsize::new(0);
    let ended = Mutex::new(BTreeMap::new());
    thread::scope(|scope| {
        for _ in 0..AT_ONCE {
            scope.spawn(|| loop {
                let index = next.fetch_add(1, Ordering::Relaxed);
                let Some((name, _)) = PARTS.get(index) else { break };
                let output = output_of(name);
                ended.lock().expect("no thread panics").insert(index, output);
            });
        }
    });
    let outputs: Vec<Output> = ended.into_inner().expect("no thread panics").into_values().collect();
    for output in &outputs {
        let shown = io::stdout().write_all(&output.stdout).and(io::stderr().write_all(&output.stderr));
        shown.expect("what a part printed can be shown");
    }
    if outputs.len() < PARTS.len() || outputs.iter().any(|output| !output.status.success()) {
        fail("not every part ended well");
    }
    println!("all parts agree, {:.1} s", start.elapsed().as_secs_f64());
}

fn output_of(name: &str) -> Output {
    let own = env::current_exe().expect("the program has a path");
    Command::new(own).arg(name).output().unwrap_or_else(|error| fail(&format!("{name}: {error}")))
}

/// Ends the run as failed.
fn fail(message: &str) -> ! {
    println!("FAILED: {message}");
    exit(1)
}
