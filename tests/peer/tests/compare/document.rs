//! What the documents say with numbers, on both sides: "One session in full", "Twelve edges to prove", and requests Q-1,
//!

use peer::{
    write_image, Call, Connection, Event, Invoke, Place, Rank, Record, Side, State, Table, ANSWER_OCTETS,
    IMAGE_OCTETS,
};

use crate::desk::Desk;
use crate::fail;

const SESSION: [(&str, &str); 5] = [
    (
        "1\t00000000000000000000000000000001\t17\t0\t0\t0\t0",
        "0\t00000000000000000000000000000001\t17\t1\t1\t0\t0\t0\t1\t0\t0\t0\t0\t0",
    ),
    (
        "4\t00000000000000000000000000000001\t0\t0\t900\t0\t0",
        "0\t00000000000000000000000000000001\t17\t4\t4\t0\t1\t0\t4\t0\t0\t0\t0\t0",
    ),
    (
        "5\t00000000000000000000000000000001\t0\t0\t0\t1\t0",
        "0\t00000000000000000000000000000001\t17\t5\t5\t900\t0\t0\t0\t4\t0\t0\t0\t0",
    ),
    (
        "4\t00000000000000000000000000000000\t0\t1\t901\t0\t0",
        "6\t00000000000000000000000000000000\t0\t0\t6\t901\t0\t1\t0\t0\t0\t0\t0\t0",
    ),
    (
        "8\t00000000000000000000000000000001\t0\t0\t0\t0\t0",
        "0\t00000000000000000000000000000001\t17\t0\t0\t0\t0\t0\t0\t1\t0\t0\t0\t0",
    ),
];

/// The call of the edges and of the requests. Other places taken hold the calls 101 and up.
const CALL: Call = Call(7);

/// The calls of a side came in the order in which they are given.
fn with(records: &[(usize, Record)]) -> Table {
    let mut all = [Record::FREE; Table::PLACES];
    let mut came = [0; 2];
    for &(place, record) in records {
        let came = &mut came[Side::of(place - 1) as usize];
        *came += 1;
        all[place - 1] = Record { rank: Rank(*came), ..record };
    }
    Table::from_records(all).expect("a sound table")
}

/// All positions taken, the last by the given call.
fn full(last: Call) -> Table {
    let calls = (1..64).map(|place| (place, Call(100 + place as u128))).chain([(64, last)]);
    let parked = |call| Record { state: State::CpWaitForPickup, call, ..Record::FREE };
    with(&calls.map(|(place, call)| (place, parked(call))).collect::<Vec<_>>())
}

fn event(kind: u8, invoke: u16, timer: u8) -> Event {
    Event { kind, call: CALL, invoke: Invoke(invoke), timer, ..Event::default() }
}

/// Table, event, and the answer as number, place, state, message, invoke, error, started, stopped.
fn edges() -> Vec<(Table, Event, [u16; 8])> {
    let one =
        |place, state, count| with(&[(place, Record { state, call: CALL, count: Invoke(count), ..Record::FREE })]);
    let park = |place| Event { place: Place(place), ..event(1, 0, 0) };
    vec![
        (Table::empty(), park(64), [0, 64, 1, 1, 0, 0, 1, 0]),
        (Table::empty(), park(65), [0, 1, 1, 1, 0, 0, 1, 0]),
        (Table::empty(), park(0), [0, 1, 1, 1, 0, 0, 1, 0]),
        (full(Call(1)), park(0), [4, 0, 0, 2, 0, 1, 0, 0]),
        (full(CALL), park(0), [3, 0, 0, 2, 0, 1, 0, 0]),
        (Table::empty(), Event { kind: 2, ..park(64) }, [0, 65, 2, 0, 0, 0, 0, 0]),
        (one(9, State::CpickupRequested, 1), event(10, 0, 3), [0, 9, 0, 7, 0, 0, 0, 3]),
        (one(9, State::CpickupRemoteRequested, 1), event(6, 1, 0), [0, 9, 1, 6, 0, 1, 0, 4]),
        (one(9, State::HandedOver, 1), event(4, 0, 0), [12, 0, 0, 6, 0, 2, 0, 0]),
        (one(9, State::CpWaitForPickup, 1), event(7, 1, 0), [0, 9, 0, 0, 0, 0, 0, 1]),
        (one(9, State::CpWaitForPickup, 65_535), event(3, 0, 0), [0, 9, 3, 3, 0, 0, 2, 0]),
        (one(70, State::WaitForPickup, 0), event(10, 0, 3), [10, 0, 0, 0, 0, 0, 0, 0]),
    ]
}

/// Kind, invoke and timer.
type Freeing = (u8, u16, u8);
/// The four fields of a message.
type Sent = &'static str;
const NOTHING: Sent = "0\t0\t0\t0";
const RELEASED: Sent = "7\t0\t0\t0";
const TOLD: Sent = "6\t65535\t0\t1";

/// Place, its state, and an event that frees it; first message, stopped timers, second message.
const ENDS: [(usize, State, Freeing, Sent, u8, Sent); 10] = [
    (64, State::CpickupRemoteRequested, (8, 0, 0), TOLD, 5, NOTHING),
    (64, State::CpickupRemoteRequested, (7, 0, 0), TOLD, 5, NOTHING),
    (64, State::CpickupRemoteRequested, (7, 1, 0), TOLD, 5, NOTHING),
    (64, State::CpickupRemoteRequested, (10, 0, 3), RELEASED, 5, TOLD),
    (96, State::CpickupRemoteRequested, (8, 0, 0), TOLD, 4, NOTHING),
    (96, State::CpickupRemoteRequested, (7, 0, 0), TOLD, 4, NOTHING),
    // Elsewhere nobody waits to be told.
    (64, State::CpickupRequested, (8, 0, 0), NOTHING, 3, NOTHING),
    (64, State::HandedOver, (8, 0, 0), NOTHING, 1, NOTHING),
    (64, State::HandedOver, (7, 1, 0), NOTHING, 1, NOTHING),
    (64, State::HandedOver, (10, 0, 3), RELEASED, 1, NOTHING),
];

/// The states in which a call is taken, each with the refusal of a pickup by name.
pub const TAKEN: [(State, u8); 3] =
    [(State::CpickupRequested, 7), (State::CpickupRemoteRequested, 11), (State::HandedOver, 12)];
/// Both kinds of pickup, with the message of either to a picker on connection 900.
const REFUSED: [(u8, Sent); 2] = [(3, NOTHING), (4, "6\t900\t0\t2")];

/// The count is 1, and in state 4 the connection 65,535.
fn held(place: usize, state: State) -> Table {
    let connection = Connection(if state == State::CpickupRemoteRequested { 65_535 } else { 0 });
    with(&[(place, Record { state, call: CALL, connection, count: Invoke(1), ..Record::FREE })])
}

/// Kind, call, place, choice, invoke.
type Asked = (u8, u128, u16, u8, u16);
/// Call, place, state.
type Given = (u128, u16, u8);

/// Whose ranks the session of Q-4 looks at.
const RANKED: [usize; 5] = [40, 1, 20, 90, 70];

/// From the empty table: an event, what its answer begins with, and the ranks at the places above afterwards.
const LONGEST_WAITING_FIRST: [(Asked, Given, [u8; 5]); 19] = [
    ((1, 1, 40, 0, 0), (1, 40, 1), [1, 0, 0, 0, 0]),
    ((1, 2, 1, 0, 0), (2, 1, 1), [1, 2, 0, 0, 0]),
    ((2, 4, 90, 0, 0), (4, 90, 2), [1, 2, 0, 1, 0]),
    ((1, 3, 20, 0, 0), (3, 20, 1), [1, 2, 3, 1, 0]),
    ((2, 5, 70, 0, 0), (5, 70, 2), [1, 2, 3, 1, 2]),
    // Position 40 is served before position 1, and line 90 before line 70.
    ((4, 0, 0, 1, 0), (1, 40, 4), [1, 2, 3, 1, 2]),
    ((4, 0, 0, 1, 0), (2, 1, 4), [1, 2, 3, 1, 2]),
    ((3, 0, 0, 2, 0), (4, 90, 3), [1, 2, 3, 1, 2]),
    // Sent back by an error, position 40 is again the first.
    ((6, 1, 0, 0, 1), (1, 40, 1), [1, 2, 3, 1, 2]),
    ((4, 0, 0, 1, 0), (1, 40, 4), [1, 2, 3, 1, 2]),
    // Handed over, the call keeps its place and its rank until the release.
    ((5, 1, 0, 0, 2), (1, 40, 5), [1, 2, 3, 1, 2]),
    ((6, 2, 0, 0, 1), (2, 1, 1), [1, 2, 3, 1, 2]),
    ((8, 1, 0, 0, 0), (1, 40, 0), [0, 1, 2, 1, 2]),
    // The same call at the same place is a new stay, behind those that are there.
    ((1, 1, 40, 0, 0), (1, 40, 1), [3, 1, 2, 1, 2]),
    ((3, 0, 0, 1, 0), (2, 1, 3), [3, 1, 2, 1, 2]),
    ((3, 0, 0, 1, 0), (3, 20, 3), [3, 1, 2, 1, 2]),
    // Line 70 moves up on its side; nobody came after position 40; after position 1 came position 20.
    ((8, 4, 0, 0, 0), (4, 90, 0), [3, 1, 2, 0, 1]),
    ((8, 1, 0, 0, 0), (1, 40, 0), [0, 1, 2, 0, 1]),
    ((5, 2, 0, 0, 2), (2, 1, 0), [0, 0, 1, 0, 1]),
];

fn longest_waiting_first(desk: &mut Desk) {
    desk.load(&[0; IMAGE_OCTETS]);
    for ((kind, call, place, choice, invoke), (given, at, state), ranks) in LONGEST_WAITING_FIRST {
        let (call, place, invoke) = (Call(call), Place(place), Invoke(invoke));
        let answer = desk.take_event(&Event { kind, call, place, choice, invoke, ..Event::default() });
        if !answer.starts_with(format!("0\t{given:032x}\t{at}\t{state}\t").as_bytes()) {
            desk.differ("request Q-4 serves another call");
        }
        // By the numbers of the document: 22 octets a place, the rank last.
        let image = desk.image();
        if image.len() != 2_112 || RANKED.map(|place| image[22 * (place - 1) + 21]) != ranks {
            desk.differ("request Q-4 has other ranks, or an image of another size");
        }
    }
}

pub fn run(desk: &mut Desk) {
    desk.begin("document, session", 0);
    desk.load(&[0; IMAGE_OCTETS]);
    for (line, expected) in SESSION {
        let answer = desk.take(line.as_bytes(), ANSWER_OCTETS).escape_ascii().to_string();
        demand(&answer, expected);
    }
    desk.begin("document, edges", 0);
    for (table, event, [number, place, rest @ ..]) in edges() {
        let call = if number == 0 { CALL.0 } else { 0 };
        let [state, message, invoke, error, started, stopped] = rest;
        let head = format!("{number}\t{call:032x}\t{place}\t{state}\t{message}\t0");
        demand_at(desk, &table, &event, &format!("{head}\t{invoke}\t{error}\t{started}\t{stopped}\t{NOTHING}"));
    }
    desk.begin("document, request Q-1", 0);
    for (place, state, (kind, invoke, timer), first, stopped, second) in ENDS {
        let expected = format!("0\t{:032x}\t{place}\t0\t{first}\t0\t{stopped}\t{second}", CALL.0);
        demand_at(desk, &held(place, state), &event(kind, invoke, timer), &expected);
    }
    desk.begin("document, request Q-3", 0);
    for (state, number) in TAKEN {
        for (kind, message) in REFUSED {
            let event = Event { connection: Connection(900), ..event(kind, 0, 0) };
            let expected = format!("{number}\t{:032x}\t0\t0\t{message}\t0\t0\t{NOTHING}", 0);
            for place in [1, 64, 65, 96] {
                demand_at(desk, &held(place, state), &event, &expected);
            }
        }
    }
    desk.begin("document, request Q-4", 0);
    longest_waiting_first(desk);
    let (lines, edges, ends, taken) = (SESSION.len(), edges().len(), ENDS.len(), TAKEN.len());
    println!(
        "document: session of {lines} lines, {edges} edges, {ends} ends of a stay by Q-1, {taken} states by Q-3, \
         session of {} events by Q-4",
        LONGEST_WAITING_FIRST.len()
    );
}

fn demand_at(desk: &mut Desk, table: &Table, event: &Event, expected: &str) {
    let mut image = [0; IMAGE_OCTETS];
    write_image(table, &mut image).expect("an image's length");
    desk.load(&image);
    let answer = desk.take_event(event).escape_ascii().to_string();
    demand(&answer, expected);
}

fn demand(answer: &str, expected: &str) {
    if answer != format!("{expected}\n").as_bytes().escape_ascii().to_string() {
        fail(&format!("the document expects \"{}\", the answer is \"{answer}\"", expected.escape_default()));
    }
}
