//! The speed of the product beside the peer's, as one table in Markdown: `park_step` within this process, and the
//! programs on long streams. `park_step` and `parkline` keep the table as its image; `lampline` hands a table from line
//! to line, and each event steps it at its image in a local array.
//!
//! A time is the least of many short rounds in which both sides take turns, so that whatever else the machine does
//! falls on both and mostly drops out. The instructions are callgrind's counts, or another counter's, which repeat.

// The query on a line is compared, but not measured.
#[allow(dead_code)]
#[path = "../tests/compare/product.rs"]
mod product;

use std::fs::{self, File};
use std::hint::black_box;
use std::io::ErrorKind;
use std::ops::Range;
use std::path::{Path, PathBuf};
use std::process::{Command, Stdio};
use std::time::{Duration, Instant};

use peer::trial::{line_of, Follower, Rng};
use peer::{
    step, write_image, Call, Connection, Event, Invoke, Place, Side, Table, ANSWER_OCTETS, IMAGE_OCTETS,
    RECORD_OCTETS,
};

/// Ours first, then the peer's, in this and in every other pair.
const STEPS: [Step; 2] = [product::park_step, peer::park_step];
type Step = fn(&mut [u8], &[u8], &mut [u8]) -> usize;

const ROUNDS: usize = 400;
const SHORTEST_ROUND: Duration = Duration::from_millis(1);
const PROGRAM_RUNS: usize = 15;
const STREAM_LINES: usize = 200_000;
/// `lampline` reads a mebioctet at most.
const LAMP_LINES: usize = 15_000;
/// The counter runs the first lines of a stream, one in so many of the whole.
const COUNTED_SHARE: usize = 10;
/// The counter runs so many events and the double; the difference leaves only those in between. The start of a process
/// takes some hundred instructions more or less from one run to the next.
const COUNTED_EVENTS: usize = 300;

fn main() {
    let arguments: Vec<String> = std::env::args().skip(1).collect();
    match &arguments[..] {
        [mode, row, side, cycles] if mode == "cycles" => {
            let [row, side, cycles] = [row, side, cycles].map(|text| text.parse().expect("a number"));
            let row = step_rows().swap_remove(row);
            row.run_cycles(side, &mut row.image.clone(), cycles);
        }
        // Cargo adds an argument of its own.
        _ => print_table(),
    }
}

fn print_table() {
    println!("| measured | ours | peer | ours / peer | ours, instructions | peer, instructions | ours / peer |");
    println!("|---|--:|--:|--:|--:|--:|--:|");
    for (index, row) in step_rows().iter().enumerate() {
        row.check();
        let (times, counts) = (cells(Some(row.times()), 0, " ns"), cells(row.instructions(index), 0, ""));
        println!("| `park_step`, {} | {times} | {counts} |", row.name);
    }
    for fill in [24, 90] {
        Programs::on_the_table(fill).print_row();
    }
    for sort in SORTS {
        Programs::with_lamps(sort).print_row();
    }
}

/// Ours, the peer's, and the first as a multiple of the second.
fn cells(pair: Option<[f64; 2]>, digits: usize, unit: &str) -> String {
    match pair {
        Some([ours, peer]) => format!("{ours:.digits$}{unit} | {peer:.digits$}{unit} | {:.2}", ours / peer),
        None => "- | - | -".into(),
    }
}

/// The least times of both sides, in the order of `STEPS`.
fn least_by_turns(rounds: usize, round: impl Fn(usize) -> f64) -> [f64; 2] {
    let mut least = [f64::INFINITY; 2];
    for _ in 0..rounds {
        for (side, least) in least.iter_mut().enumerate() {
            *least = least.min(round(side));
        }
    }
    least
}

/// A cycle of event lines for `park_step`, after which the image is again what it was before.
struct Row {
    name: String,
    /// What each answer begins with.
    number: &'static str,
    image: Vec<u8>,
    lines: Vec<Vec<u8>>,
    /// The octets that are put back after each cycle, where no event would do so. That is measured too.
    put_back: Range<usize>,
}

/// The call of the record with this index.
type CallAt = fn(usize) -> Call;

/// What tells the calls of a table apart decides how long it takes to compare two of them.
const SORTS: [(&str, CallAt); 3] = [
    ("random calls", random_call),
    ("calls that share their first 15 octets", call_by_last_octet),
    ("calls that share their last 15 octets", call_by_first_octet),
];

fn step_rows() -> Vec<Row> {
    let row = |name: &str, number, (image, lines)| Row { name: name.into(), number, image, lines, put_back: 0..0 };
    let mut rows = vec![row("no calls", "0", stays(0, random_call))];
    for calls in [24, 48, 96] {
        for (sort, call_at) in SORTS {
            rows.push(row(&format!("{calls} {sort}"), "0", stays(calls, call_at)));
        }
    }
    for (sort, call_at) in SORTS {
        let not_held = Event { kind: 8, call: call_at(Table::PLACES), ..Event::default() };
        let (image, lines) = (stays(96, call_at).0, vec![line_of(&not_held)]);
        rows.push(row(&format!("96 {sort}, another call named (5)"), "5", (image, lines)));
    }
    for (sort, call_at) in COLLIDING {
        rows.push(row(&format!("96 calls chosen against our hash{sort}"), "0", stays(96, call_at)));
    }
    let (image, mut lines) = stays(96, random_call);
    lines.truncate(1);
    let mut equal_calls = image.clone();
    equal_calls.copy_within(1..17, IMAGE_OCTETS - RECORD_OCTETS + 1);
    let mut six_fields = lines.clone();
    while six_fields[0].pop() != Some(b'\t') {}
    rows.push(row("96 random calls, refused line (22)", "22", (image, six_fields)));
    rows.push(row("96 random calls, refused image (25)", "25", (equal_calls, lines)));
    for (side, calls) in [(Side::Position, Table::POSITIONS), (Side::Line, Table::LINES)] {
        rows.extend([1, calls].map(|rank| release(side, rank)));
    }
    rows.push(longest_waiting_last());
    rows
}

/// All places are taken, and the call in the middle of the side, which has this rank, is released: all that came after
/// it move up. The whole side is put back whatever the rank, so that two of these rows differ by the moving up alone.
fn release(side: Side, rank: usize) -> Row {
    let mut order: Vec<usize> = side.indices().collect();
    let (calls, middle) = (order.len(), order.remove(order.len() / 2));
    order.insert(rank - 1, middle);
    let others = (0..Table::PLACES).filter(|&index| Side::of(index) != side);
    let image = image_of(order.into_iter().chain(others), random_call);
    assert_eq!(usize::from(image[RECORD_OCTETS * (middle + 1) - 1]), rank, "a place's last octet is its rank");
    Row {
        name: format!("96 random calls, release of rank {rank} of {calls}"),
        number: "0",
        image,
        lines: vec![line_of(&Event { kind: 8, call: random_call(middle), ..Event::default() })],
        put_back: RECORD_OCTETS * side.indices().start..RECORD_OCTETS * side.indices().end,
    }
}

/// All places are taken, the last first, so that whoever looks for the longest waiting call finds one that came earlier
/// at each place.
fn longest_waiting_last() -> Row {
    let last = RECORD_OCTETS * (Table::POSITIONS - 1);
    Row {
        name: "96 random calls, choice 1, the longest waiting at place 64".into(),
        number: "0",
        image: image_of((0..Table::PLACES).rev(), random_call),
        lines: vec![line_of(&Event { kind: 4, choice: 1, connection: Connection(900), ..Event::default() })],
        put_back: last..last + RECORD_OCTETS,
    }
}

/// The event by which the call of the record with this index comes to its place.
fn entering(index: usize, call: Call) -> Event {
    let kind = if index < Table::POSITIONS { 1 } else { 2 };
    Event { kind, call, place: Place(index as u16 + 1), ..Event::default() }
}

/// The image after calls have come to the records with these indices, in this order.
fn image_of(order: impl Iterator<Item = usize>, call_at: CallAt) -> Vec<u8> {
    let mut table = Table::empty();
    for index in order {
        let answer = step(&mut table, &entering(index, call_at(index)));
        assert_eq!(answer.number, 0, "the calls and the places differ");
    }
    let mut image = vec![0; IMAGE_OCTETS];
    write_image(&table, &mut image).expect("an image's length");
    image
}

/// Differs from the others in nearly every octet.
fn random_call(index: usize) -> Call {
    let mut rng = Rng::new(index as u64);
    Call(u128::from(rng.word()) << 64 | u128::from(rng.word()))
}

/// As where a few machines give out the identifiers: the first 15 octets are the same.
fn call_by_last_octet(index: usize) -> Call {
    Call(random_call(0).0 & !255 | u128::from(own_octet(index)))
}

/// The last 15 octets are the same.
fn call_by_first_octet(index: usize) -> Call {
    Call(random_call(0).0 & u128::MAX >> 8 | u128::from(own_octet(index)) << 120)
}

/// An odd factor keeps these apart and out of order.
fn own_octet(index: usize) -> u8 {
    (167 * index) as u8
}

/// The library looks for equal calls among those whose halves have the same sum, modulo this prime. Here all have.
const BUCKETS: u64 = 509;
const COLLIDING: [(&str, CallAt); 3] = [
    ("", |index| call_of_halves(167 * index as u64, !(167 * index as u64))),
    (" that share their first 8 octets", |index| call_of_halves(1, BUCKETS * index as u64)),
    (" that share their last 8 octets", |index| call_of_halves(BUCKETS * index as u64, 1)),
];

/// The low octet of a half comes first, as where the library adds them.
fn call_of_halves(first: u64, last: u64) -> Call {
    let halves = [first.to_le_bytes(), last.to_le_bytes()];
    Call(u128::from_be_bytes(halves.concat().try_into().expect("16 octets")))
}

/// The image and the lines: calls spread over the whole table, of which the first, the middle and the last are
/// picked up, turned down, picked up again, released and entered anew. Without calls, these three come and go one
/// by one.
fn stays(calls: usize, call_at: CallAt) -> (Vec<u8>, Vec<Vec<u8>>) {
    let taken: Vec<usize> = (0..calls).map(|nth| nth * Table::PLACES / calls).collect();
    let moved = [0, 1, 2].map(|share| match calls {
        0 => share * (Table::PLACES - 1) / 2,
        _ => taken[share * (calls - 1) / 2],
    });
    // Whoever is entered anew is the last of its side, and has to be so from the start for the cycle to close.
    let (anew, others): (Vec<usize>, Vec<usize>) = taken.iter().partition(|index| moved.contains(index));
    let image = image_of(others.into_iter().chain(anew), call_at);

    let mut lines = Vec::new();
    for index in moved {
        let call = call_at(index);
        let mut stay = [
            entering(index, call),
            Event { kind: 4, call, connection: Connection(900), ..Event::default() },
            Event { kind: 10, call, timer: 9, ..Event::default() },
            Event { kind: 3, call, ..Event::default() },
            Event { kind: 7, call, invoke: Invoke(2), ..Event::default() },
        ];
        if calls > 0 {
            stay.rotate_left(1);
        }
        lines.extend(stay.iter().map(line_of));
    }
    (image, lines)
}

impl Row {
    fn run_cycles(&self, side: usize, image: &mut [u8], cycles: usize) {
        let mut answer = [0; ANSWER_OCTETS];
        for _ in 0..cycles {
            for line in &self.lines {
                black_box(black_box(STEPS[side])(image, line, &mut answer));
            }
            self.put_back(image);
        }
    }

    fn put_back(&self, image: &mut [u8]) {
        image[self.put_back.clone()].copy_from_slice(&self.image[self.put_back.clone()]);
    }

    /// Both sides do the same, and what the row's name says.
    fn check(&self) {
        let mut images = [(); 2].map(|()| self.image.clone());
        for line in &self.lines {
            let mut answers = [[0; ANSWER_OCTETS]; 2];
            for (side, step) in STEPS.iter().enumerate() {
                step(&mut images[side], line, &mut answers[side]);
            }
            assert!(answers[0] == answers[1] && images[0] == images[1], "{}: the two sides differ", self.name);
            let number = answers[0].split(|&octet| octet == b'\t').next();
            assert_eq!(number, Some(self.number.as_bytes()), "{}: another number", self.name);
        }
        self.put_back(&mut images[0]);
        assert!(images[0] == self.image, "{}: the cycle does not close", self.name);
    }

    /// Nanoseconds per event.
    fn times(&self) -> [f64; 2] {
        let time = |side: usize, cycles: usize| {
            let mut image = self.image.clone();
            let start = Instant::now();
            self.run_cycles(side, &mut image, cycles);
            start.elapsed()
        };
        let cycles = [0, 1].map(|side| {
            let mut cycles = 1;
            while time(side, cycles) < SHORTEST_ROUND {
                cycles *= 2;
            }
            cycles
        });
        least_by_turns(ROUNDS, |side| {
            time(side, cycles[side]).as_nanos() as f64 / (cycles[side] * self.lines.len()) as f64
        })
    }

    /// Instructions per event.
    fn instructions(&self, index: usize) -> Option<[f64; 2]> {
        let own = std::env::current_exe().expect("the path of this program");
        let count = |side: usize, cycles: usize| {
            let numbers = [index, side, cycles].map(|number| number.to_string());
            count_instructions(&own, &["cycles", &numbers[0], &numbers[1], &numbers[2]], Stdio::null)
        };
        let cycles = COUNTED_EVENTS / self.lines.len();
        let per_event = |side| {
            let counted = count(side, 2 * cycles)? - count(side, cycles)?;
            Some(counted / (cycles * self.lines.len()) as f64)
        };
        Some([per_event(0)?, per_event(1)?])
    }
}

/// A program of ours with the peer's for it, and the files of lines that both are given.
struct Programs {
    name: String,
    paths: [PathBuf; 2],
    lines: usize,
    stream: PathBuf,
    /// The first lines of the stream, for the counter.
    short_stream: PathBuf,
}

impl Programs {
    /// Lines which follow the table that they act on, filled to about the wanted count; the fill is the seed too.
    fn on_the_table(fill: usize) -> Programs {
        let mut follower = Follower::new(fill as u64, fill);
        let mut table = Table::empty();
        let lines = (0..STREAM_LINES).map(|_| {
            let event = follower.event(&table);
            step(&mut table, &event);
            line_of(&event)
        });
        let paths = [product::parkline(), env!("CARGO_BIN_EXE_peerline").into()];
        Programs::new(&format!("`parkline`, about {fill} calls"), paths, lines.collect())
    }

    /// All places are taken, and then the cycle of `park_step` is run again and again.
    fn with_lamps((sort, call_at): (&str, CallAt)) -> Programs {
        let entered = (0..Table::PLACES).map(|index| line_of(&entering(index, call_at(index))));
        let (_, cycle) = stays(Table::PLACES, call_at);
        let lines = entered.chain(cycle.into_iter().cycle()).take(LAMP_LINES);
        let paths = [product::lampline(), env!("CARGO_BIN_EXE_lamppeer").into()];
        Programs::new(&format!("`lampline`, {} {sort}", Table::PLACES), paths, lines.collect())
    }

    fn new(name: &str, paths: [PathBuf; 2], lines: Vec<Vec<u8>>) -> Programs {
        let counted = lines.len() / COUNTED_SHARE;
        Programs {
            name: format!("{name}, {} lines (instructions: {counted})", lines.len()),
            paths,
            lines: lines.len(),
            stream: write_stream("stream", &lines),
            short_stream: write_stream("short_stream", &lines[..counted]),
        }
    }

    fn print_row(&self) {
        self.check();
        let (times, counts) = (cells(Some(self.times()), 1, " ms"), cells(self.instructions(), 1, " M"));
        println!("| {} | {times} | {counts} |", self.name);
    }

    /// Both print the same, one answer for each line of the stream. What else there is begins with no digit.
    fn check(&self) {
        let [ours, peer] = [0, 1].map(|side| {
            let output = Command::new(&self.paths[side]).stdin(open(&self.stream)).output();
            output.unwrap_or_else(|error| panic!("{}: {error}", self.paths[side].display())).stdout
        });
        assert!(ours == peer, "the programs differ");
        let printed = ours.split(|&octet| octet == b'\n');
        assert_eq!(printed.filter(|line| line.first().is_some_and(u8::is_ascii_digit)).count(), self.lines);
    }

    /// Milliseconds for the whole stream, the start of the process included.
    fn times(&self) -> [f64; 2] {
        least_by_turns(PROGRAM_RUNS, |side| {
            let mut command = Command::new(&self.paths[side]);
            command.stdin(open(&self.stream)).stdout(Stdio::null());
            let start = Instant::now();
            let status = command.status().expect("the program ran before");
            let time = start.elapsed();
            assert!(status.success(), "{}: {status}", self.paths[side].display());
            1000.0 * time.as_secs_f64()
        })
    }

    /// Millions of instructions for the short stream.
    fn instructions(&self) -> Option<[f64; 2]> {
        let count = |side: usize| count_instructions(&self.paths[side], &[], || open(&self.short_stream));
        Some([count(0)? / 1e6, count(1)? / 1e6])
    }
}

/// The file stays, in cargo's folder for such files, until the next stream takes its place.
fn write_stream(name: &str, lines: &[Vec<u8>]) -> PathBuf {
    let text: Vec<u8> = lines.iter().flat_map(|line| [line, b"\n".as_slice()].concat()).collect();
    let path = Path::new(env!("CARGO_TARGET_TMPDIR")).join(name);
    fs::write(&path, text).expect("the stream can be written");
    path
}

fn open(stream: &Path) -> Stdio {
    File::open(stream).expect("the stream was written").into()
}

/// Runs the program whose command line follows, and says on standard error `Collected : N`, its instructions. Where
/// valgrind cannot run the programs, the variable PARK_COUNTER names another such command.
const CALLGRIND: &str = "valgrind --tool=callgrind --callgrind-out-file=/dev/null";

/// The instructions of a whole process, or nothing where the counter is missing. The environment lies above the stack
/// and moves it, and how many a long copy or fill takes depends on where it lies, by 16 octets: the smaller count
/// stands.
fn count_instructions(program: &Path, arguments: &[&str], input: impl Fn() -> Stdio) -> Option<f64> {
    let [one, other] = ["", "sixteen octets.."].map(|pad| count_with(program, arguments, input(), pad));
    Some(f64::min(one?, other?))
}

fn count_with(program: &Path, arguments: &[&str], input: Stdio, pad: &str) -> Option<f64> {
    let own = std::env::var("PARK_COUNTER");
    let mut words = own.as_deref().unwrap_or(CALLGRIND).split(' ');
    let mut counter = Command::new(words.next().expect("a first word"));
    counter.env_clear().envs(std::env::var_os("PATH").map(|path| ("PATH", path))).env("PAD", pad);
    // Callgrind counts an instruction for each octet of a `rep stosb`, by which glibc fills long buffers where the
    // processor has ERMS. Without ERMS the vectors that fill the buffer are counted instead.
    counter.env("GLIBC_TUNABLES", "glibc.cpu.hwcaps=-ERMS");
    counter.args(words).arg(program).args(arguments);
    let output = match counter.stdin(input).stdout(Stdio::null()).output() {
        Err(error) if error.kind() == ErrorKind::NotFound => return None,
        other => other.expect("the counter can be started"),
    };
    let report = String::from_utf8_lossy(&output.stderr);
    let count = report.lines().find_map(|line| line.split_once("Collected :")?.1.trim().parse().ok());
    Some(count.unwrap_or_else(|| panic!("no count: {report}")))
}
