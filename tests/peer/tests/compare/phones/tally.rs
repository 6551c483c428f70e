//! What the random lines have tried, so that nothing is left out.

use std::collections::BTreeMap;

use peer::{is_request, PhoneState, Phones, PARKED_EVENTS, PARKING_EVENTS};

use crate::fail;
use crate::tally::demand_sorts;

/// Machine, state before, event, and of a request whether it is accepted.
type Row = (u8, PhoneState, u8, Option<bool>);

#[derive(Default)]
pub struct Tally {
    lines: u64,
    tables: u64,
    /// Lines by the number of their answer.
    numbers: BTreeMap<u8, u64>,
    /// Lines that bring an event to a machine.
    rows: BTreeMap<Row, u64>,
}

/// How often each number and each row must have come.
const LEAST: u64 = 50;

const NUMBERS: [u8; 7] = [0, 1, 2, 21, 22, 23, 33];

impl Tally {
    /// The phones are those before the line, which has no feed; the answer is what the peer prints for it.
    pub fn note(&mut self, before: &Phones, line: &[u8], answer: &str) {
        self.lines += 1;
        if line == b"?" {
            self.tables += 1;
            return;
        }
        let number = answer.split('\t').next().and_then(|number| number.parse().ok());
        let Some(number) = number else { fail(&format!("phones: the peer answers {answer:?}")) };
        *self.numbers.entry(number).or_default() += 1;
        if matches!(number, 0 | 33) {
            *self.rows.entry(row_of(before, line)).or_default() += 1;
        }
    }

    /// Prints the counts, and fails where something came too seldom.
    pub fn print_and_demand(&self, lines: u64) {
        let accepted = self.numbers.get(&0).copied().unwrap_or(0);
        println!(
            "  {} random lines, {accepted} of them accepted, {} of them for the table",
            self.lines, self.tables
        );
        for (number, count) in &self.numbers {
            println!("  {count:>8} lines answered {number}");
        }
        demand_sorts("numbers of answers", &self.numbers, NUMBERS.into_iter(), LEAST);
        demand_sorts("rows (machine, state, event, accepted)", &self.rows, all_rows().into_iter(), LEAST);
        if self.lines != lines || accepted < lines / 4 || self.tables == 0 {
            fail("phones: too few lines, too few of them accepted, or none for the table");
        }
    }
}

/// The line is one that reads, so it has four numbers.
fn row_of(before: &Phones, line: &[u8]) -> Row {
    let text = String::from_utf8_lossy(line);
    let numbers: Vec<u8> = text.split('\t').take(3).map(|field| field.parse().expect("it reads")).collect();
    let (machine, event) = (numbers[0], numbers[1]);
    let state = if machine == 1 { before.parking } else { before.parked };
    (machine, state, event, is_request(machine, event).then_some(numbers[2] == 1))
}

fn all_rows() -> Vec<Row> {
    let parking = PhoneState::PARKING.map(|state| (1, state, PARKING_EVENTS));
    let parked = PhoneState::PARKED.map(|state| (2, state, PARKED_EVENTS));
    let mut rows = Vec::new();
    for (machine, state, events) in parking.into_iter().chain(parked) {
        for event in 1..=events {
            if is_request(machine, event) {
                rows.push((machine, state, event, Some(true)));
                rows.push((machine, state, event, Some(false)));
            } else {
                rows.push((machine, state, event, None));
            }
        }
    }
    assert_eq!(rows.len(), 14 + 60);
    rows
}
