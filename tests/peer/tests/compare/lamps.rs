//! Request Q-5: the built `lampline` as a child process against the peer's session with the lamps, on random streams
//! from fixed seeds; and on the same streams what the request promises of On, Off and the timers.

mod history;
mod promise;
mod stream;
mod tally;

use std::path::Path;

use peer::trial::line_of;
use peer::{lamp_session, Asked, Call, Event, Invoke, Place, Served, INPUT_OCTETS};

use crate::program::{print_of, Cuts};
use crate::{fail, product};
use promise::Promise;
use stream::Stream;
use tally::Tally;

/// One for each mix of a stream's habits.
const RUNS: u64 = 108;

pub fn run() {
    let program = product::lampline();
    let edges = edge_streams();
    let (mut octets, mut printed) = (0, 0);
    for (name, text) in &edges {
        for cuts in [Some(61), Some(65_537), None] {
            // Small pieces of a long stream would take longer than they teach.
            let cuts = if text.len() > 100_000 && cuts == Some(61) { Some(4_097) } else { cuts };
            compare(&program, name, text, cuts);
        }
    }
    let mut tally = Tally::default();
    let mut promise = Promise::default();
    for seed in 0..RUNS {
        let name = format!("seed {seed}");
        let text = Stream::random(seed, &mut tally);
        let expected = compare(&program, &name, &text, [Some(4_096), Some(65_537), None][seed as usize % 3]);
        promise.check(&name, &text, &expected);
        octets += text.len();
        printed += lines_of(&expected).count();
    }
    println!("lamps: {RUNS} streams, {octets} octets, {printed} lines printed; {} streams of edges", edges.len());
    tally.print_and_demand();
    promise.print_and_demand();
}

/// A last line may lack its feed; nothing after the last feed is no line.
fn lines_of(text: &[u8]) -> impl Iterator<Item = &[u8]> {
    text.split_inclusive(|&octet| octet == b'\n').map(|line| line.strip_suffix(b"\n").unwrap_or(line))
}

/// Gives what both print.
fn compare(program: &Path, name: &str, text: &[u8], cuts: Cuts) -> Vec<u8> {
    if text.len() > INPUT_OCTETS {
        fail(&format!("lamps, {name}: {} octets, of which the program would not read all", text.len()));
    }
    let mut expected = Vec::new();
    lamp_session(text, &mut expected).expect("memory can be written");
    let printed = print_of(program, text, cuts);
    if printed != expected {
        report(name, cuts, text, &printed, &expected);
    }
    expected
}

/// A line of the input may give two of the output, or none, so it is looked for by what the peer writes for it.
fn report(name: &str, cuts: Cuts, text: &[u8], printed: &[u8], expected: &[u8]) -> ! {
    let same = lines_of(printed).zip(lines_of(expected)).take_while(|(left, right)| left == right).count();
    let (mut served, mut written) = (Served::empty(), 0);
    let asked = (1..).zip(lines_of(text)).find(|(_, line)| {
        let mut given = Vec::new();
        served.take(&Asked::read(line)).write(&mut given).expect("memory can be written");
        written += lines_of(&given).count();
        written > same
    });
    let shown = |line: Option<&[u8]>| line.map_or("nothing".into(), |line| format!("\"{}\"", line.escape_ascii()));
    if let Some((number, line)) = asked {
        println!("  line {number}:  {}", shown(Some(&line[..line.len().min(80)])));
    }
    println!("  program: {}", shown(lines_of(printed).nth(same)));
    println!("  peer:    {}", shown(lines_of(expected).nth(same)));
    let (left, right) = (printed.len(), expected.len());
    fail(&format!("lamps, {name}, cut at {cuts:?}: {left} octets printed, {right} expected"))
}

fn edge_streams() -> Vec<(&'static str, Vec<u8>)> {
    let event = |kind, choice, invoke| {
        let (call, place) = (Call(1), Place(17));
        line_of(&Event { kind, call, place, choice, invoke: Invoke(invoke), ..Event::default() })
    };
    let lettered = |letter: u8, line: Vec<u8>| [&[letter], &line[..]].concat();
    let park = || event(1, 0, 0);
    let release = || event(8, 0, 0);
    let reply = || lettered(b'r', event(1, 8, 1));
    let question = || lettered(b'g', event(0, 8, 0));
    let count = || lettered(b'n', event(0, 0, 65_535));
    let longest = || b"255\tffffffffffffffffffffffffffffffff\t65535\t255\t65535\t65535\t255".to_vec();
    let long = |octet: u8| vec![octet; 500_000];
    let feed = |lines: &[Vec<u8>]| lines.join(&b'\n');
    let and_feed = |lines: &[Vec<u8>]| [&feed(lines)[..], b"\n"].concat();

    let mut around_the_limit = Vec::new();
    for letter in *b"rgn" {
        for length in 0..=70 {
            for pad in *b"01\tx" {
                let mut rest = longest();
                rest.resize(length, pad);
                around_the_limit.extend([count(), lettered(letter, rest), park(), question(), release()]);
            }
        }
    }
    let mut every_octet_first = Vec::new();
    for octet in (0..=255).filter(|&octet| octet != b'\n') {
        every_octet_first.extend([park(), lettered(octet, event(1, 8, 1)), question(), release(), vec![octet]]);
    }
    let as_long_as_may_be = || {
        let stay = and_feed(&[park(), reply(), question(), release(), question()]);
        let mut text = stay.repeat(INPUT_OCTETS / stay.len() + 1);
        text.truncate(INPUT_OCTETS - question().len() - 1);
        [&text[..], b"\n", &question()].concat()
    };
    vec![
        ("nothing", vec![]),
        ("only feeds", vec![b'\n'; 5_000]),
        ("letters alone", b"r\ng\nn\nr\nrg\nnn\nR\nG\nN\n".to_vec()),
        ("last feed missing, event", feed(&[park(), release()])),
        ("last feed missing, reply", feed(&[park(), reply()])),
        ("last feed missing, question", feed(&[park(), question()])),
        ("last feed missing, number", feed(&[park(), count()])),
        ("last feed missing, letter alone", feed(&[park(), b"r".to_vec()])),
        (
            "carriage returns",
            [&park()[..], b"\r\n", &reply(), b"\r\n", &question(), b"\r\n", &count(), b"\r\n"].concat(),
        ),
        ("rests around the limit", and_feed(&around_the_limit)),
        ("every octet first", and_feed(&every_octet_first)),
        ("long rest of a reply", and_feed(&[park(), lettered(b'r', long(b'1')), reply(), question()])),
        ("long rest of a number", and_feed(&[count(), lettered(b'n', long(b'\t')), park(), question()])),
        ("long question, feed missing", feed(&[park(), lettered(b'g', long(0))])),
        ("as long as may be", as_long_as_may_be()),
    ]
}
