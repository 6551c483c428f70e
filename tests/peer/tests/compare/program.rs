//! The built `parkline` as a child process against the peer's session.

use std::io::{BufReader, Read, Write};
use std::path::Path;
use std::process::{Command, Stdio};

use peer::trial::{line_of, Follower, Rng};
use peer::{read_line, session, step, Table};

use crate::{damage, fail, product};

pub fn run() {
    let program = product::parkline();
    let (mut streams, mut octets, mut lines) = (0, 0, 0);
    for (name, stream, cuts) in streams_to_try() {
        let mut expected = Vec::new();
        session(BufReader::new(&stream[..]), &mut expected).expect("memory can be written");
        let printed = print_of(&program, &stream, cuts);
        if printed != expected {
            report(&name, cuts, &stream, &printed, &expected);
        }
        streams += 1;
        octets += stream.len();
        lines += expected.iter().filter(|&&octet| octet == b'\n').count();
    }
    println!("program: {streams} streams, {octets} octets, {lines} answers");
}

/// How a stream is cut into pieces; no size means random ones.
pub type Cuts = Option<usize>;

fn streams_to_try() -> Vec<(String, Vec<u8>, Cuts)> {
    let mut all = Vec::new();
    for (fill, cuts) in [(0, 4097), (4, 63), (24, 62), (48, 65_537), (90, 4095), (96, 4096)] {
        all.push((format!("following, fill {fill}"), following(fill, 25_000, 5), Some(cuts)));
    }
    for cuts in [Some(1), Some(7), Some(61), Some(64), None] {
        all.push((format!("short following, cut at {cuts:?}"), following(30, 2_000, 10), cuts));
    }
    all.push(("damaged".into(), following(50, 30_000, 90), None));
    for (name, text) in edge_streams() {
        for cuts in [Some(7), Some(65_537), None] {
            // Single octets of a long stream would take longer than they teach.
            let cuts = if text.len() > 100_000 && cuts == Some(7) { Some(4097) } else { cuts };
            all.push((name.into(), text.clone(), cuts));
        }
    }
    all
}

/// Lines that follow the table they act on, some of them damaged; the fill is the seed too. Damage may contain a
/// line feed, and then makes two lines.
fn following(fill: usize, lines: usize, damaged_percent: usize) -> Vec<u8> {
    let mut stream = Vec::new();
    let mut table = Table::empty();
    let mut follower = Follower::new(fill as u64, fill);
    let mut rng = Rng::new(fill as u64 + 1);
    for _ in 0..lines {
        let event = follower.event(&table);
        let line = match rng.percent(damaged_percent) {
            true => damage::random(&mut rng, &event),
            false => line_of(&event),
        };
        for part in line.split(|&octet| octet == b'\n') {
            if let Ok(event) = read_line(part) {
                step(&mut table, &event);
            }
        }
        stream.extend(line);
        stream.push(b'\n');
    }
    stream
}

fn edge_streams() -> Vec<(&'static str, Vec<u8>)> {
    let park = b"1\t00000000000000000000000000000001\t17\t0\t0\t0\t0";
    let release = b"8\t00000000000000000000000000000001\t0\t0\t0\t0\t0";
    let long = |octet: u8| vec![octet; 1_000_000];
    let mut around_the_limit = Vec::new();
    for length in (0..=70).chain(120..=130) {
        let mut line = park.to_vec();
        line.resize(length, b'0');
        around_the_limit.extend([&line[..], b"\n", release, b"\n"].concat());
    }
    vec![
        ("nothing", vec![]),
        ("only feeds", vec![b'\n'; 5_000]),
        ("empty lines between", [&park[..], b"\n\n\n", release, b"\n\n"].concat()),
        ("last feed missing", [&park[..], b"\n", release].concat()),
        ("one octet", b"1".to_vec()),
        ("carriage returns", [&park[..], b"\r\n", release, b"\r\n"].concat()),
        ("lengths around the limit", around_the_limit),
        ("last line too long, feed missing", [&park[..], b"\n", &[b'7'; 63]].concat()),
        ("long lines", [&long(b'1')[..], b"\n", park, b"\n", &long(b'\t'), b"\n", release, b"\n"].concat()),
        ("good line with a long tail", [&park[..], &long(b'0'), b"\n", release, b"\n", park].concat()),
        ("long last line, feed missing", [&park[..], b"\n", &long(0)].concat()),
    ]
}

pub fn print_of(program: &Path, stream: &[u8], cuts: Cuts) -> Vec<u8> {
    let child = Command::new(program).stdin(Stdio::piped()).stdout(Stdio::piped()).spawn();
    let mut child = child.unwrap_or_else(|error| fail(&format!("{}: {error}", program.display())));
    let mut output = child.stdout.take().expect("a pipe was asked for");
    let reader = std::thread::spawn(move || {
        let mut printed = Vec::new();
        output.read_to_end(&mut printed).map(|_| printed)
    });
    let mut input = child.stdin.take().expect("a pipe was asked for");
    let mut rng = Rng::new(stream.len() as u64);
    let mut rest = stream;
    while !rest.is_empty() {
        let size = cuts.unwrap_or_else(|| 1 + rng.below(5_000)).min(rest.len());
        let (piece, later) = rest.split_at(size);
        if let Err(error) = input.write_all(piece) {
            fail(&format!("the program stopped reading: {error}"));
        }
        rest = later;
    }
    drop(input);
    let printed = reader.join().expect("the reader does not panic").expect("the pipe can be read");
    match child.wait() {
        Ok(status) if status.success() => printed,
        other => fail(&format!("the program ended badly: {other:?}")),
    }
}

fn report(name: &str, cuts: Cuts, stream: &[u8], printed: &[u8], expected: &[u8]) -> ! {
    let lines = |octets: &[u8]| octets.split(|&octet| octet == b'\n').map(<[u8]>::to_vec).collect::<Vec<_>>();
    let (asked, left, right) = (lines(stream), lines(printed), lines(expected));
    if let Some(at) = left.iter().zip(&right).position(|(left, right)| left != right) {
        let asked = asked.get(at).map_or(&[][..], |line| &line[..line.len().min(80)]);
        println!("  line {}:  \"{}\"", at + 1, asked.escape_ascii());
        println!("  program: \"{}\"\n  peer:    \"{}\"", left[at].escape_ascii(), right[at].escape_ascii());
    }
    let (left, right) = (printed.len(), expected.len());
    fail(&format!("program, stream {name}, cut at {cuts:?}: {left} octets printed, {right} expected"))
}
