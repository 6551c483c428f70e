//! Demand 3 tried on the peer's own runs: the stays of a run, taken one after the other, give the same answers and
//! the same table, its ranks included.

use peer::{step, write_answer, Answer, Event, State, Table, ANSWER_OCTETS};

use crate::{fail, runs};

/// Accepted events with their answers; an index into them names an event.
type Run = Vec<(Event, Answer)>;

/// From the park or alert at a place to the event that frees it: the events' indices.
type Stay = Vec<usize>;

struct Stays {
    /// In the order in which they ended.
    ended: Vec<Stay>,
    /// In the order in which they began, since the ranks of the table tell that order.
    running: Vec<Stay>,
}

/// One false way to rearrange, for seeing that the comparison notices it.
#[derive(Clone, Copy, PartialEq)]
enum Slip {
    PickupsNotByName,
    ProposalsKept,
    RunningFirst,
    RunningByPlace,
    RunningBackwards,
    TwoEventsSwapped,
    EventLost,
    EventDoubled,
}

const SLIPS: [(Slip, &str); 8] = [
    (Slip::PickupsNotByName, "pickups not by name"),
    (Slip::ProposalsKept, "proposals kept"),
    (Slip::RunningFirst, "running stays first"),
    (Slip::RunningByPlace, "running stays in the order of their places"),
    (Slip::RunningBackwards, "the running stay that began last taken first"),
    (Slip::TwoEventsSwapped, "two events swapped"),
    (Slip::EventLost, "an event lost"),
    (Slip::EventDoubled, "an event doubled"),
];

pub fn run() {
    let (mut tried, mut accepted, mut ended, mut running) = (0, 0, 0, 0);
    let mut noticed = [0; SLIPS.len()];
    for runs::Run { seed, steps, table } in runs::all() {
        let done = steps.iter().filter(|step| step.answer.number == 0);
        let run: Run = done.map(|step| (step.event, step.answer)).collect();
        let stays = stays_of(&run);
        check(seed, &run, &stays, &table);
        for (count, (slip, _)) in noticed.iter_mut().zip(SLIPS) {
            *count += usize::from(!agrees(&run, &rearranged(&run, &stays, Some(slip)), &table));
        }
        tried += steps.len();
        accepted += run.len();
        ended += stays.ended.len();
        running += stays.running.len();
    }
    let runs = runs::RUNS;
    println!(
        "rearrangement: {runs} runs, {tried} events, {accepted} accepted, stays {ended} ended {running} running"
    );
    runs::demand_noticed(noticed.into_iter().zip(SLIPS.map(|(_, name)| name)));
}

fn stays_of(run: &Run) -> Stays {
    let mut ended = Vec::new();
    let mut places = vec![Stay::new(); Table::PLACES];
    for (index, (event, answer)) in run.iter().enumerate() {
        let stay = &mut places[usize::from(answer.place.0) - 1];
        let entering = matches!(event.kind, 1 | 2);
        if entering != stay.is_empty() {
            fail("an event lies outside of every stay, or a stay begins within another");
        }
        stay.push(index);
        if answer.state == State::Free {
            ended.push(std::mem::take(stay));
        }
    }
    let mut running: Vec<Stay> = places.into_iter().filter(|stay| !stay.is_empty()).collect();
    running.sort_by_key(|stay| stay[0]);
    Stays { ended, running }
}

/// The events in their new order, each as it asks there.
fn rearranged(run: &Run, stays: &Stays, slip: Option<Slip>) -> Vec<(usize, Event)> {
    let mut running = stays.running.clone();
    match slip {
        Some(Slip::RunningByPlace) => running.sort_by_key(|stay| run[stay[0]].1.place.0),
        Some(Slip::RunningBackwards) => running.reverse(),
        _ => {}
    }
    let mut parts = [&stays.ended, &running];
    if slip == Some(Slip::RunningFirst) {
        parts.reverse();
    }
    let order = parts.into_iter().flatten().flatten();
    let mut order: Vec<_> = order.map(|&index| (index, by_name(&run[index], slip))).collect();
    let middle = order.len() / 2;
    match slip {
        Some(Slip::TwoEventsSwapped) => order.swap(middle, middle + 1),
        Some(Slip::EventLost) => drop(order.remove(middle)),
        Some(Slip::EventDoubled) => order.insert(middle, order[middle]),
        _ => {}
    }
    order
}

/// The pickup by choice and the place given by rule depend on the other stays; asked by name, they do not.
fn by_name((event, answer): &(Event, Answer), slip: Option<Slip>) -> Event {
    match event.kind {
        1 | 2 if slip != Some(Slip::ProposalsKept) => Event { place: answer.place, ..*event },
        3 | 4 if slip != Some(Slip::PickupsNotByName) => Event { choice: 0, call: answer.call, ..*event },
        _ => *event,
    }
}

/// Whether the order, from the empty table, gives every event its answer, octet for octet, and ends in the table.
fn agrees(run: &Run, order: &[(usize, Event)], table: &Table) -> bool {
    let text = |answer: &Answer| {
        let mut line = [0; ANSWER_OCTETS];
        write_answer(answer, &mut line);
        line
    };
    let mut now = Table::empty();
    order.iter().all(|(index, event)| text(&step(&mut now, event)) == text(&run[*index].1)) && now == *table
}

fn check(seed: u64, run: &Run, stays: &Stays, table: &Table) {
    let order = rearranged(run, stays, None);
    let mut indices: Vec<_> = order.iter().map(|(index, _)| *index).collect();
    indices.sort_unstable();
    if indices.into_iter().ne(0..run.len()) {
        fail(&format!("rearrangement, seed {seed}: an event is lost or doubled"));
    }
    for stay in stays.ended.iter().chain(&stays.running) {
        if stay.iter().filter(|&&index| run[index].0.kind == 5).count() > 1 {
            fail(&format!("rearrangement, seed {seed}: two results accepted in one stay"));
        }
    }
    let starts = order.iter().filter(|(_, event)| matches!(event.kind, 1 | 2)).map(|(index, _)| *index);
    if !starts.skip(stays.ended.len()).is_sorted() {
        fail(&format!("rearrangement, seed {seed}: the running stays are not in the order of their starts"));
    }
    if !agrees(run, &order, table) {
        fail(&format!("rearrangement, seed {seed}: another answer or another table"));
    }
}
