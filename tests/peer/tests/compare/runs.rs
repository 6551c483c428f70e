//! The peer's own runs, on which the demands of the documents are tried, and the count of the slips that were noticed.

use peer::trial::{Follower, Rng};
use peer::{step, Answer, Event, Record, Table};

use crate::fail;

pub const RUNS: u64 = 400;

pub struct Run {
    pub seed: u64,
    pub steps: Vec<Step>,
    /// After the last step.
    pub table: Table,
}

pub struct Step {
    /// The record of the answer's place before the event; a refusal names no place, and has the free record here.
    pub before: Record,
    pub event: Event,
    pub answer: Answer,
}

pub fn all() -> impl Iterator<Item = Run> {
    (0..RUNS).map(random_run)
}

fn random_run(seed: u64) -> Run {
    let fill = [1, 3, 10, 30, 60, 96][seed as usize % 6];
    let events = 200 + Rng::new(seed).below(3_000);
    let mut table = Table::empty();
    let mut follower = Follower::new(seed, fill);
    let mut steps = Vec::with_capacity(events);
    for _ in 0..events {
        let event = follower.event(&table);
        let records = *table.records();
        let answer = step(&mut table, &event);
        let index = usize::from(answer.place.0).checked_sub(1);
        let before = index.map_or(Record::FREE, |index| records[index]);
        steps.push(Step { before, event, answer });
    }
    Run { seed, steps, table }
}

/// Prints in how many runs each slip was noticed, and fails where it was in none: then the check says nothing.
pub fn demand_noticed<'a>(noticed: impl Iterator<Item = (usize, &'a str)>) {
    for (count, name) in noticed {
        println!("  {count:>8} runs in which the slip is noticed: {name}");
        if count == 0 {
            fail(&format!("a slip is never noticed: {name}"));
        }
    }
}
