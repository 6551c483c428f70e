//! Request Q-7: the built `phoneline` as a child process against the peer's two phones: the whole table with the values
//! of the errors after it, every event in every state, lines that are bad in every way, and random lines from fixed
//! seeds.

mod cases;
mod stream;
mod tally;

use std::path::Path;

use peer::{phone_session, Phones, INPUT_OCTETS};

use crate::program::{print_of, Cuts};
use crate::{fail, product};
use tally::Tally;

/// Several, so that none is longer than `phoneline` reads.
const STREAMS: u64 = 10;
const LINES: usize = 10_000;

pub fn run() {
    let program = product::phoneline();
    let mut compared = Comparison::default();
    compared.compare(&program, "the table", b"?\n", None);
    let events = cases::every_event_in_every_state();
    for cuts in [Some(1), Some(4_096), None] {
        compared.compare(&program, "every event in every state", &events, cuts);
    }
    for (name, text) in cases::edges() {
        for cuts in [Some(7), Some(65_537), None] {
            compared.compare(&program, name, &text, cuts);
        }
    }
    let (streams, lines) = (compared.streams, compared.lines);
    println!("phones: {lines} lines in {streams} streams: the table, every event in every state, bad lines");
    let mut tally = Tally::default();
    for seed in 0..STREAMS {
        let text = stream::random(seed, LINES, &mut tally);
        compared.compare(
            &program,
            &format!("seed {seed}"),
            &text,
            [Some(61), Some(4_097), None][seed as usize % 3],
        );
    }
    tally.print_and_demand(STREAMS * LINES as u64);
    println!("  {} lines compared in all, {} octets printed", compared.lines, compared.octets);
}

#[derive(Default)]
struct Comparison {
    streams: u64,
    lines: usize,
    octets: usize,
}

impl Comparison {
    /// Fails where the program prints anything else than the peer.
    fn compare(&mut self, program: &Path, name: &str, text: &[u8], cuts: Cuts) {
        if text.len() > INPUT_OCTETS {
            fail(&format!("phones, {name}: {} octets, which is more than is tried", text.len()));
        }
        let mut expected = Vec::new();
        phone_session(text, &mut expected).expect("memory can be written");
        let printed = print_of(program, text, cuts);
        if printed != expected {
            report(name, cuts, text, &printed, &expected);
        }
        self.streams += 1;
        self.lines += lines_of(text).count();
        self.octets += printed.len();
    }
}

/// With their feeds, so that a missing one is a difference too.
fn lines_of(text: &[u8]) -> impl Iterator<Item = &[u8]> {
    text.split_inclusive(|&octet| octet == b'\n')
}

fn without_feed(line: &[u8]) -> &[u8] {
    line.strip_suffix(b"\n").unwrap_or(line)
}

/// The table has more than one line, so the line of the input is looked for by what the peer prints for it.
fn report(name: &str, cuts: Cuts, text: &[u8], printed: &[u8], expected: &[u8]) -> ! {
    let same = lines_of(printed).zip(lines_of(expected)).take_while(|(left, right)| left == right).count();
    let (mut phones, mut written) = (Phones::IDLE, 0);
    let asked = (1..).zip(lines_of(text)).find(|(_, line)| {
        written += lines_of(phones.take(without_feed(line)).as_bytes()).count();
        written > same
    });
    let shown = |line: Option<&[u8]>| match line {
        Some(line) => format!("\"{}\"", line[..line.len().min(200)].escape_ascii()),
        None => "nothing".into(),
    };
    match asked {
        Some((number, line)) => println!("  line {number}:  {}", shown(Some(line))),
        None => println!("  after the last line"),
    }
    println!("  program: {}", shown(lines_of(printed).nth(same)));
    println!("  peer:    {}", shown(lines_of(expected).nth(same)));
    let (left, right) = (printed.len(), expected.len());
    fail(&format!("phones, {name}, cut at {cuts:?}: {left} octets printed, {right} expected"))
}
