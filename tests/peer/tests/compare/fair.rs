//! What request Q-4 is for, tried on whole runs from the empty table: a pickup by choice gets the call, of those that
//! wait on that side, whose park or alert was accepted first. That is told from the events and their answers alone; no
//! rank is looked at.

use peer::trial::line_of;
use peer::{Answer, Event, Table, ANSWER_OCTETS, IMAGE_OCTETS};

use crate::{fail, product, runs};

/// What is read of an answer.
#[derive(Clone, Copy)]
struct Reply {
    number: usize,
    place: usize,
    state: usize,
}

impl Reply {
    fn of(answer: &Answer) -> Reply {
        Reply { number: answer.number.into(), place: answer.place.0.into(), state: answer.state as usize }
    }

    fn read(answer: &[u8]) -> Reply {
        let mut fields = std::str::from_utf8(answer).unwrap_or_default().split('\t');
        let mut after = |skipped| match fields.nth(skipped).map(str::parse) {
            Some(Ok(number)) => number,
            _ => fail(&format!("fairness: no answer line: \"{}\"", answer.escape_ascii())),
        };
        // The second field is the call. The place says as much, since no call ever moves.
        Reply { number: after(0), place: after(1), state: after(0) }
    }
}

/// A stay that has not ended, by the numbers of the steps in which it began and last came to wait.
#[derive(Clone, Copy)]
struct Stay {
    place: usize,
    came: usize,
    waits_since: usize,
    waits: bool,
}

/// Of the calls that wait, the one for which this is least is to be served.
type Order = fn(&Stay) -> usize;

const FIRST_COME: Order = |stay| stay.came;

const SLIPS: [(Order, &str); 4] = [
    (|stay| stay.place, "the lowest place served, as before Q-4"),
    (|stay| 96 - stay.place, "the highest place served"),
    (|stay| usize::MAX - stay.came, "the last call to come served"),
    (|stay| stay.waits_since, "a call sent back to waiting taken as a new one"),
];

pub fn run() {
    let (mut tried, mut by_choice) = (0, 0);
    let mut noticed = [0; SLIPS.len()];
    for run in runs::all() {
        let of_peer: Vec<_> = run.steps.iter().map(|step| (step.event, Reply::of(&step.answer))).collect();
        let of_library = replayed(run.steps.iter().map(|step| step.event));
        for (name, history) in [("the peer", &of_peer), ("the library", &of_library)] {
            if !is_fair(history, FIRST_COME) {
                fail(&format!("fairness, seed {}: {name} does not serve the first to come", run.seed));
            }
        }
        for (count, (order, _)) in noticed.iter_mut().zip(SLIPS) {
            *count += usize::from(!is_fair(&of_library, order));
        }
        tried += of_library.len();
        by_choice += of_library.iter().filter(|(event, reply)| reply.number == 0 && is_by_choice(event)).count();
    }
    let runs = runs::RUNS;
    println!("fairness: {runs} runs, {tried} events, {by_choice} calls served by choice");
    runs::demand_noticed(noticed.into_iter().zip(SLIPS.map(|(_, name)| name)));
}

/// The answers that the library gives to these events, from the empty table.
fn replayed(events: impl Iterator<Item = Event>) -> Vec<(Event, Reply)> {
    let mut image = [0; IMAGE_OCTETS];
    let mut answer = [0; ANSWER_OCTETS];
    let reply = |event: Event| {
        let length = product::park_step(&mut image, &line_of(&event), &mut answer);
        (event, Reply::read(&answer[..length]))
    };
    events.map(reply).collect()
}

fn is_by_choice(event: &Event) -> bool {
    matches!((event.kind, event.choice), (3 | 4, 1 | 2))
}

/// Whether every pickup by choice gets the call that is least by this order, and is refused exactly if none waits.
fn is_fair(history: &[(Event, Reply)], order: Order) -> bool {
    let mut stays: [Option<Stay>; Table::PLACES] = [None; Table::PLACES];
    (0..).zip(history).all(|(now, (event, reply))| {
        let taken = reply.number == 0;
        if is_by_choice(event) {
            let (positions, lines) = stays.split_at(Table::POSITIONS);
            let side = if event.choice == 1 { positions } else { lines };
            let first = side.iter().flatten().filter(|stay| stay.waits).min_by_key(|stay| order(stay));
            if first.map(|stay| stay.place) != taken.then_some(reply.place) {
                return false;
            }
        }
        if taken {
            let stay = &mut stays[reply.place - 1];
            let waits = matches!(reply.state, 1 | 2);
            let (came, since) = stay.map_or((now, now), |stay| (stay.came, stay.waits_since));
            let waits_since = if waits { now } else { since };
            *stay = (reply.state != 0).then_some(Stay { place: reply.place, came, waits_since, waits });
        }
        true
    })
}
