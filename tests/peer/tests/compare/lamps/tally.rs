//! Counts of what the streams have tried, and the demand that nothing was left out.

use std::collections::BTreeMap;

use peer::{
    read_line, Answer, Asked, Event, Given, GpState, Indication, Lamps, Member, Notices, Place, Record, Reply,
    Request, Settled, Table,
};

use super::history::History;
use crate::tally::demand_sorts;

type Count<S> = BTreeMap<S, u64>;
/// What goes to the members.
type Sent = Option<Indication>;
/// Kind, timer of an expiry, and what is sent.
type Accepted = (u8, u8, Sent);
const NONE: Sent = None;
const ON: Sent = Some(Indication::On);
const OFF: Sent = Some(Indication::Off);

#[derive(Default)]
pub struct Tally {
    lines: u64,
    /// Accepted events by side (position or line), state before, kind, timer of an expiry, and what is sent.
    accepted: Count<(bool, u8, u8, u8, Sent)>,
    /// Refused events by number.
    refused: Count<u8>,
    /// Requests by side (position or line), and of how many members they stop the timer.
    requests: Count<(Indication, bool, &'static str)>,
    /// Replies that settle, by member.
    settled: Count<(Indication, u8)>,
    /// Two members, of which the second was the next to reply to the same request.
    orders: Count<(u8, u8)>,
    /// What there is to say of a reply, by what it names.
    replies: Count<(Indication, &'static str)>,
    /// Questions about each place and member.
    asked: Count<(u16, u8)>,
    /// What they were told, by side (position or line).
    states: Count<(bool, GpState)>,
    cases: Count<&'static str>,
}

/// How often each sort must have come.
const LEAST: u64 = 50;

/// By side and state before: all that "Events" accepts.
const ACCEPTED: [(bool, u8, &[Accepted]); 10] = [
    (true, 0, &[(1, 0, ON)]),
    (true, 1, &[(3, 0, NONE), (4, 0, NONE), (7, 0, OFF), (8, 0, OFF), (10, 3, OFF)]),
    (true, 3, &[(5, 0, OFF), (6, 0, OFF), (7, 0, OFF), (8, 0, OFF), (10, 3, OFF), (10, 6, OFF)]),
    (true, 4, &[(5, 0, OFF), (6, 0, NONE), (7, 0, OFF), (8, 0, OFF), (10, 3, OFF), (10, 9, NONE)]),
    (true, 5, &[(7, 0, NONE), (8, 0, NONE), (10, 3, NONE)]),
    (false, 0, &[(2, 0, ON)]),
    (false, 2, &[(3, 0, NONE), (4, 0, NONE), (7, 0, OFF), (8, 0, OFF), (9, 0, OFF)]),
    (false, 3, &[(5, 0, OFF), (6, 0, OFF), (7, 0, OFF), (8, 0, OFF), (10, 6, OFF)]),
    (false, 4, &[(5, 0, OFF), (6, 0, NONE), (7, 0, OFF), (8, 0, OFF), (10, 9, NONE)]),
    (false, 5, &[(7, 0, NONE), (8, 0, NONE)]),
];

const STOPPED: [&str; 3] = ["no timer stops", "the timers of some stop", "the timers of all stop"];

/// Of On as of Off. A refused one may be of more than one sort.
const REPLIES: [&str; 14] = [
    "settles, number 0",
    "settles, number 65535",
    "settles, another number",
    "pending but for the member: 0",
    "pending but for the member: 9",
    "pending but for the member: 255",
    "pending but for the member: another not in the group",
    "pending but for the member: one that has no such request",
    "pending but for the call",
    "pending but for the number",
    "pending but for On or Off",
    "too late, settled before",
    "too late, replaced before",
    "names nothing that is or was last",
];

/// No two places wait for a reply to the same On: before a call comes to the second, the first has had its Off.
const REPLIES_TO_OFF: [&str; 2] = ["matches at several places", "once more, and settles at the next place"];

const CASES: [&str; 22] = [
    "all positions taken",
    "all lines taken",
    "local pickup by choice 1",
    "local pickup by choice 2",
    "pickrequ by choice 1",
    "pickrequ by choice 2",
    "On numbered 65535",
    "On numbered 0",
    "Off numbered 65535",
    "Off numbered 0",
    "On at the place where the same call had its last Off",
    "Off for a call that is handed over",
    "Off for a call that is gone",
    "question about place 0",
    "question about place 97",
    "question about place 65535",
    "question about member 0",
    "question about member 9",
    "question about member 255",
    "reply that does not read",
    "question that does not read",
    "number that does not read",
];

fn add<S: Ord>(count: &mut Count<S>, sort: S) {
    *count.entry(sort).or_default() += 1;
}

fn is_position(place: Place) -> bool {
    usize::from(place.0) <= Table::POSITIONS
}

impl Tally {
    fn case(&mut self, name: &'static str) {
        add(&mut self.cases, name);
    }

    /// The records and the history are those before the line, the lamps those after it.
    pub fn note(
        &mut self,
        before: &[Record; Table::PLACES],
        lamps: &Lamps,
        history: &History,
        line: &[u8],
        asked: &Asked,
        given: &Given,
    ) {
        self.lines += 1;
        match (asked, given) {
            (Asked::Event(Ok(event)), Given::Answer(answer, notices)) => {
                self.note_event(before, history, event, answer, notices.as_deref());
            }
            (_, Given::Answer(answer, _)) => add(&mut self.refused, answer.number),
            (Asked::Reply(reply), Given::Settled(settled)) => self.note_reply(lamps, history, reply, settled),
            (Asked::State(place, member), Given::State(state)) => self.note_question(*place, *member, *state),
            _ => {}
        }
        let does_not_read = || read_line(&line[1..]).is_err();
        match asked {
            Asked::Reply(_) if does_not_read() => self.case("reply that does not read"),
            Asked::State(..) if does_not_read() => self.case("question that does not read"),
            Asked::Count(_) if does_not_read() => self.case("number that does not read"),
            _ => {}
        }
    }

    fn note_event(
        &mut self,
        before: &[Record; Table::PLACES],
        history: &History,
        event: &Event,
        answer: &Answer,
        notices: Option<&Notices>,
    ) {
        if answer.number != 0 {
            add(&mut self.refused, answer.number);
            match (event.kind, answer.number) {
                (1, 4) => self.case("all positions taken"),
                (2, 4) => self.case("all lines taken"),
                _ => {}
            }
            return;
        }
        let (position, index) = (is_position(answer.place), usize::from(answer.place.0) - 1);
        let timer = if event.kind == 10 { event.timer } else { 0 };
        let sent = notices.map(|notices| notices[0].request.indication);
        add(&mut self.accepted, (position, before[index].state as u8, event.kind, timer, sent));
        match (event.kind, event.choice) {
            (3, 1) => self.case("local pickup by choice 1"),
            (3, 2) => self.case("local pickup by choice 2"),
            (4, 1) => self.case("pickrequ by choice 1"),
            (4, 2) => self.case("pickrequ by choice 2"),
            _ => {}
        }
        let Some(notices) = notices else {
            return;
        };
        let Request { indication, call, invoke } = notices[0].request;
        let stopped = match notices.iter().filter(|notice| notice.replaced.is_some()).count() {
            0 => STOPPED[0],
            Lamps::MEMBERS => STOPPED[2],
            _ => STOPPED[1],
        };
        add(&mut self.requests, (indication, position, stopped));
        match (indication, invoke.0) {
            (Indication::On, 65_535) => self.case("On numbered 65535"),
            (Indication::On, 0) => self.case("On numbered 0"),
            (Indication::Off, 65_535) => self.case("Off numbered 65535"),
            (Indication::Off, 0) => self.case("Off numbered 0"),
            _ => {}
        }
        let had_off_here = || {
            let gone = history.gone(answer.place, Member(1)).map(|gone| gone.request);
            let last = notices[0].replaced.or(gone);
            last.is_some_and(|last| last.call == call && last.indication == Indication::Off)
        };
        match (indication, answer.state as u8) {
            (Indication::On, _) if had_off_here() => {
                self.case("On at the place where the same call had its last Off");
            }
            (Indication::Off, 5) => self.case("Off for a call that is handed over"),
            (Indication::Off, 0) => self.case("Off for a call that is gone"),
            _ => {}
        }
    }

    /// A refused reply has changed nothing, and a settled one has gone from one place.
    fn note_reply(&mut self, lamps: &Lamps, history: &History, reply: &Reply, settled: &Result<Settled, u8>) {
        let Reply { member, request } = *reply;
        let Request { indication, call, invoke } = request;
        let any_to = |member: Member, fits: &dyn Fn(&Request) -> bool| {
            let places = (1..=Table::PLACES as u16).map(Place);
            places.filter_map(|place| lamps.pending(place, member)).any(|other| fits(&other))
        };
        let is_to = |member| any_to(member, &|other| *other == request);
        let is_to_anyone = || (1..=Lamps::MEMBERS as u8).map(Member).any(is_to);
        let mut note = |sort| add(&mut self.replies, (indication, sort));
        match settled {
            Ok(Settled { place, .. }) => {
                note(match invoke.0 {
                    0 => "settles, number 0",
                    65_535 => "settles, number 65535",
                    _ => "settles, another number",
                });
                if is_to(member) {
                    note("matches at several places");
                }
                if history.last_settled == Some(*reply) {
                    note("once more, and settles at the next place");
                }
                add(&mut self.settled, (indication, member.0));
                let before = history.settled_at[usize::from(place.0) - 1];
                if let Some(before) = before.filter(|before| before.request == request && before.member != member) {
                    add(&mut self.orders, (before.member.0, member.0));
                }
            }
            Err(31) => {
                if is_to_anyone() {
                    note(match member.0 {
                        0 => "pending but for the member: 0",
                        9 => "pending but for the member: 9",
                        255 => "pending but for the member: 255",
                        _ => "pending but for the member: another not in the group",
                    });
                }
            }
            Err(_) => {
                let but_for_call = any_to(member, &|other| Request { call, ..*other } == request);
                let but_for_number = any_to(member, &|other| Request { invoke, ..*other } == request);
                let but_for_indication = any_to(member, &|other| Request { indication, ..*other } == request);
                let sorts = [
                    (is_to_anyone(), "pending but for the member: one that has no such request"),
                    (but_for_call, "pending but for the call"),
                    (but_for_number, "pending but for the number"),
                    (but_for_indication, "pending but for On or Off"),
                    (history.is_gone(reply, false), "too late, settled before"),
                    (history.is_gone(reply, true), "too late, replaced before"),
                ];
                if sorts.iter().all(|(is_of_sort, _)| !is_of_sort) {
                    note("names nothing that is or was last");
                }
                sorts.into_iter().filter(|(is_of_sort, _)| *is_of_sort).for_each(|(_, sort)| note(sort));
            }
        }
    }

    fn note_question(&mut self, place: Place, member: Member, state: GpState) {
        match place.0 {
            0 => self.case("question about place 0"),
            97 => self.case("question about place 97"),
            65_535 => self.case("question about place 65535"),
            _ => {}
        }
        match member.0 {
            0 => self.case("question about member 0"),
            9 => self.case("question about member 9"),
            255 => self.case("question about member 255"),
            _ => {}
        }
        if (1..=Table::PLACES).contains(&place.0.into()) && (1..=Lamps::MEMBERS).contains(&member.0.into()) {
            add(&mut self.asked, (place.0, member.0));
            add(&mut self.states, (is_position(place), state));
        }
    }

    /// Prints the counts, and fails where something possible came too seldom, or something impossible came.
    pub fn print_and_demand(&self) {
        const INDICATIONS: [Indication; 2] = [Indication::On, Indication::Off];
        const SIDES: [bool; 2] = [true, false];
        const STATES: [GpState; 3] = [GpState::Idle, GpState::NotifyOnRequ, GpState::NotifyOffRequ];
        let members = || 1..=Lamps::MEMBERS as u8;

        let (requests, settled) = (self.requests.values().sum::<u64>(), self.settled.values().sum::<u64>());
        println!("  {} lines, {requests} requests to each member, {settled} replies that settle one", self.lines);
        for ((indication, name), count) in &self.replies {
            println!("  {count:>8} replies to {indication:?}: {name}");
        }
        for (name, count) in &self.cases {
            println!("  {count:>8} {name}");
        }
        let accepted = ACCEPTED.iter().flat_map(|&(position, state, events)| {
            events.iter().map(move |&(kind, timer, sent)| (position, state, kind, timer, sent))
        });
        demand_sorts("accepted sorts (side, state, kind, timer, what is sent)", &self.accepted, accepted, LEAST);
        demand_sorts("refused events by number", &self.refused, (1..=12).chain(21..=24), LEAST);
        let requests = INDICATIONS.into_iter().flat_map(|indication| {
            SIDES.into_iter().flat_map(move |side| STOPPED.map(|stopped| (indication, side, stopped)))
        });
        demand_sorts("requests (On or Off, side, timers stopped)", &self.requests, requests, LEAST);
        let of_members =
            INDICATIONS.into_iter().flat_map(|indication| members().map(move |number| (indication, number)));
        demand_sorts("replies that settle (On or Off, member)", &self.settled, of_members, LEAST);
        let pairs = members().flat_map(|first| members().map(move |second| (first, second)));
        let orders = pairs.filter(|(first, second)| first != second);
        demand_sorts("members one after the other in replying", &self.orders, orders, LEAST);
        let replies = INDICATIONS.into_iter().flat_map(|indication| REPLIES.map(|sort| (indication, sort)));
        let replies = replies.chain(REPLIES_TO_OFF.map(|sort| (Indication::Off, sort)));
        demand_sorts("replies (what they name, sort)", &self.replies, replies, LEAST);
        let asked = (1..=Table::PLACES as u16).flat_map(|place| members().map(move |member| (place, member)));
        demand_sorts("questions (place, member)", &self.asked, asked, LEAST);
        let states = SIDES.into_iter().flat_map(|side| STATES.map(|state| (side, state)));
        demand_sorts("states told (side, state)", &self.states, states, LEAST);
        demand_sorts("other cases", &self.cases, CASES.into_iter(), LEAST);
    }
}
