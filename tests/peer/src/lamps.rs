//! The lamps of the pickup group (request Q-5): the served endpoint of H.450.5, clause 7.6, for eight members.
//!
//! Each member is kept by itself, with all that it was sent, and as if the others were not there.

use crate::machine::{step, Answer, Event};
use crate::table::{refusal, Call, Invoke, Place, State, Table};

/// A member's number, 1 to 8; a reply or a question may name any other number too.
#[derive(Clone, Copy, PartialEq, Eq, PartialOrd, Ord, Debug, Default)]
pub struct Member(pub u8);

/// groupIndicationOn or groupIndicationOff.
#[derive(Clone, Copy, PartialEq, Eq, PartialOrd, Ord, Debug)]
pub enum Indication {
    On,
    Off,
}

impl Indication {
    /// The timer that runs until the member replies: 4 for T4, 5 for T5.
    pub fn timer(self) -> u8 {
        match self {
            Indication::On => 4,
            Indication::Off => 5,
        }
    }
}

/// What a member is asked, and what its reply has to name.
#[derive(Clone, Copy, PartialEq, Eq, Debug)]
pub struct Request {
    pub indication: Indication,
    pub call: Call,
    /// The member's own number of it.
    pub invoke: Invoke,
}

/// Return Result, Return Error, Reject, or the expiry of T4 or T5. Nothing depends on which of them it is.
#[derive(Clone, Copy, PartialEq, Eq, Debug)]
pub struct Reply {
    pub member: Member,
    pub request: Request,
}

/// Where a reply found its request, and the timer that it stops.
#[derive(Clone, Copy, PartialEq, Eq, Debug)]
pub struct Settled {
    pub place: Place,
    pub stopped: u8,
}

/// A request on its way to one member.
#[derive(Clone, Copy, PartialEq, Eq, Debug)]
pub struct Notice {
    pub place: Place,
    pub request: Request,
    /// The request that was pending there until now, if one was.
    pub replaced: Option<Request>,
}

impl Notice {
    pub fn started(&self) -> u8 {
        self.request.indication.timer()
    }

    /// The timer of the replaced request; 0 for none.
    pub fn stopped(&self) -> u8 {
        self.replaced.map_or(0, |request| request.indication.timer())
    }
}

/// What goes to the members 1 to 8.
pub type Notices = [Notice; Lamps::MEMBERS];

#[derive(Clone, Copy, PartialEq, Eq, PartialOrd, Ord, Debug)]
pub enum GpState {
    Idle,
    NotifyOnRequ,
    NotifyOffRequ,
}

impl GpState {
    pub fn name(self) -> &'static str {
        match self {
            GpState::Idle => "GP-Idle",
            GpState::NotifyOnRequ => "GP-NotifyOnRequ",
            GpState::NotifyOffRequ => "GP-NotifyOffRequ",
        }
    }

    /// The running timer: 4 for T4, 5 for T5, 0 for none.
    pub fn timer(self) -> u8 {
        match self {
            GpState::Idle => 0,
            GpState::NotifyOnRequ => Indication::On.timer(),
            GpState::NotifyOffRequ => Indication::Off.timer(),
        }
    }
}

/// One place as one member knows it.
#[derive(Clone, Copy, PartialEq, Eq, Debug)]
struct Lamp {
    /// Nothing is GP-Idle; otherwise the indication tells the state, and the timer.
    pending: Option<Request>,
    /// This stay's On has been sent, and its Off has not. Whether the member replied, or how, has no part in that.
    lit: bool,
}

impl Lamp {
    const DARK: Lamp = Lamp { pending: None, lit: false };
}

/// All that is kept of one member.
#[derive(Clone, PartialEq, Eq, Debug)]
struct Phone {
    lamps: [Lamp; Table::PLACES],
    /// The number of the last request to this member, at whatever place.
    count: Invoke,
}

impl Phone {
    const NEW: Phone = Phone { lamps: [Lamp::DARK; Table::PLACES], count: Invoke(0) };

    /// What the member is sent because of an event that was answered so.
    fn follow(&mut self, event: &Event, answer: &Answer) -> Option<Notice> {
        if answer.number != 0 {
            return None;
        }
        let lamp = &mut self.lamps[usize::from(answer.place.0) - 1];
        let begins = matches!(event.kind, 1 | 2);
        let is_over = event.kind == 5 || answer.state == State::Free;
        let indication = if begins {
            Indication::On
        } else if is_over && lamp.lit {
            Indication::Off
        } else {
            return None;
        };
        self.count = Invoke(self.count.0.wrapping_add(1));
        let request = Request { indication, call: answer.call, invoke: self.count };
        let replaced = lamp.pending.replace(request);
        lamp.lit = begins;
        Some(Notice { place: answer.place, request, replaced })
    }

    /// Ends the wait for the reply, at the lowest of the places where exactly this request is pending.
    fn settle(&mut self, request: &Request) -> Option<Settled> {
        let index = self.lamps.iter().position(|lamp| lamp.pending.as_ref() == Some(request))?;
        self.lamps[index].pending = None;
        Some(Settled { place: Place(index as u16 + 1), stopped: request.indication.timer() })
    }
}

#[derive(Clone, PartialEq, Eq, Debug)]
pub struct Lamps {
    /// Member 1 first.
    phones: [Phone; Lamps::MEMBERS],
}

impl Lamps {
    pub const MEMBERS: usize = 8;

    /// No request was ever sent.
    pub const fn dark() -> Lamps {
        Lamps { phones: [Phone::NEW; Lamps::MEMBERS] }
    }

    /// Where a member stands in an array of the eight.
    fn index(member: Member) -> Option<usize> {
        usize::from(member.0).checked_sub(1).filter(|&index| index < Lamps::MEMBERS)
    }

    /// What the members are sent because of an event that was answered so: all of them something, or none.
    pub fn follow(&mut self, event: &Event, answer: &Answer) -> Option<Notices> {
        let notices = self.phones.each_mut().map(|phone| phone.follow(event, answer));
        notices[0]?;
        Some(notices.map(|notice| notice.expect("every member has seen the same stays")))
    }

    /// A refusal changes nothing.
    pub fn reply(&mut self, reply: &Reply) -> Result<Settled, u8> {
        let index = Lamps::index(reply.member).ok_or(refusal::MEMBER)?;
        self.phones[index].settle(&reply.request).ok_or(refusal::NOT_PENDING)
    }

    /// The request that waits for the member's reply; none where there is no such place or member.
    pub fn pending(&self, place: Place, member: Member) -> Option<Request> {
        let phone = &self.phones[Lamps::index(member)?];
        phone.lamps.get(usize::from(place.0).checked_sub(1)?)?.pending
    }

    pub fn state(&self, place: Place, member: Member) -> GpState {
        match self.pending(place, member).map(|request| request.indication) {
            None => GpState::Idle,
            Some(Indication::On) => GpState::NotifyOnRequ,
            Some(Indication::Off) => GpState::NotifyOffRequ,
        }
    }

    /// For tests: as if this were the number last given to every member.
    pub fn set_counts(&mut self, count: Invoke) {
        for phone in &mut self.phones {
            phone.count = count;
        }
    }
}

/// The call table with the lamps beside it.
#[derive(Clone, PartialEq, Eq, Debug)]
pub struct Served {
    pub table: Table,
    pub lamps: Lamps,
}

impl Served {
    /// The empty table, and no request ever sent.
    pub const fn empty() -> Served {
        Served { table: Table::empty(), lamps: Lamps::dark() }
    }

    /// Takes one event. The lamps are shown its answer, and never the table.
    pub fn step(&mut self, event: &Event) -> (Answer, Option<Notices>) {
        let answer = step(&mut self.table, event);
        (answer, self.lamps.follow(event, &answer))
    }
}

/// Each test tries the sentence of the request that stands above it.
#[cfg(test)]
mod tests {
    use super::*;
    use crate::table::Connection;
    use crate::trial::{Follower, Rng};

    const PARK: Event = event(1, 0, 0);
    const ALERT: Event = event(2, 0, 0);
    const RELEASE: Event = event(8, 0, 0);

    /// The fields that matter in these tests; the rest is filled in where it does.
    const fn event(kind: u8, invoke: u16, timer: u8) -> Event {
        let (invoke, connection) = (Invoke(invoke), Connection(900));
        Event { kind, call: Call(1), place: Place(0), choice: 0, connection, invoke, timer }
    }

    fn at(event: Event, call: u128, place: u16) -> Event {
        Event { call: Call(call), place: Place(place), ..event }
    }

    fn on(call: u128, invoke: u16) -> Request {
        Request { indication: Indication::On, call: Call(call), invoke: Invoke(invoke) }
    }

    fn off(call: u128, invoke: u16) -> Request {
        Request { indication: Indication::Off, ..on(call, invoke) }
    }

    fn members() -> impl Iterator<Item = Member> {
        (1..=8).map(Member)
    }

    impl Served {
        /// Takes an event that must be accepted.
        fn accept(&mut self, event: Event) -> Option<Notices> {
            let (answer, notices) = self.step(&event);
            assert_eq!(answer.number, 0, "{event:?}");
            notices
        }

        fn reply(&mut self, member: u8, request: Request) -> Result<(u16, u8), u8> {
            let settled = self.lamps.reply(&Reply { member: Member(member), request });
            settled.map(|Settled { place, stopped }| (place.0, stopped))
        }
    }

    /// "An accepted park or alert sends groupIndicationOn to each member."
    #[test]
    fn on_goes_to_each_member() {
        let mut served = Served::empty();
        let first = Notice { place: Place(17), request: on(1, 1), replaced: None };
        let second = Notice { place: Place(96), request: on(2, 2), replaced: None };
        assert_eq!(served.accept(at(PARK, 1, 17)), Some([first; 8]));
        assert_eq!(served.accept(at(ALERT, 2, 96)), Some([second; 8]));
        let refused = served.step(&at(ALERT, 1, 65));
        assert_eq!((refused.0.number, refused.1), (refusal::CALL_PRESENT, None));
        for place in 0..=97 {
            let state = if matches!(place, 17 | 96) { GpState::NotifyOnRequ } else { GpState::Idle };
            for member in members() {
                assert_eq!(served.lamps.state(Place(place), member), state, "{place} {member:?}");
            }
        }
    }

    /// A stay, and which of its events sends Off.
    const STAYS: [(&[Event], Option<usize>); 21] = [
        (&[PARK, event(3, 0, 0), event(5, 1, 0)], Some(2)),
        (&[PARK, event(4, 0, 0), event(5, 1, 0), RELEASE], Some(2)),
        (&[PARK, event(4, 0, 0), event(5, 1, 0), event(7, 1, 0)], Some(2)),
        (&[PARK, event(4, 0, 0), event(5, 1, 0), event(10, 0, 3)], Some(2)),
        (&[PARK, event(4, 0, 0), event(6, 1, 0), event(4, 0, 0), event(5, 2, 0), RELEASE], Some(4)),
        (&[PARK, event(4, 0, 0), event(10, 0, 9), event(3, 0, 0), event(6, 2, 0)], Some(4)),
        (&[PARK, event(4, 0, 0), event(7, 1, 0)], Some(2)),
        (&[PARK, event(4, 0, 0), event(10, 0, 3)], Some(2)),
        (&[PARK, event(3, 0, 0), event(10, 0, 3)], Some(2)),
        (&[PARK, event(3, 0, 0), event(10, 0, 6)], Some(2)),
        (&[PARK, event(10, 0, 3)], Some(1)),
        (&[PARK, RELEASE], Some(1)),
        (&[PARK, event(4, 0, 0)], None),
        (&[ALERT, event(3, 0, 0), event(5, 1, 0)], Some(2)),
        (&[ALERT, event(4, 0, 0), event(5, 1, 0), RELEASE], Some(2)),
        (&[ALERT, event(4, 0, 0), event(6, 1, 0), event(9, 0, 0)], Some(3)),
        (&[ALERT, event(4, 0, 0), event(10, 0, 9), event(7, 0, 0)], Some(3)),
        (&[ALERT, event(3, 0, 0), event(10, 0, 6)], Some(2)),
        (&[ALERT, event(3, 0, 0), event(7, 1, 0)], Some(2)),
        (&[ALERT, event(9, 0, 0)], Some(1)),
        (&[ALERT, event(3, 0, 0)], None),
    ];

    /// "Off is sent once in a stay: at an accepted pickup result or, house rule, at any other end."
    #[test]
    fn off_is_sent_once_in_a_stay() {
        for (stay, expected) in STAYS {
            let mut served = Served::empty();
            for (nth, &event) in stay.iter().enumerate() {
                let sent = served.accept(event).map(|notices| notices.map(|notice| notice.request));
                let wanted = match nth {
                    0 => Some([on(1, 1); 8]),
                    _ if Some(nth) == expected => Some([off(1, 2); 8]),
                    _ => None,
                };
                assert_eq!(sent, wanted, "event {nth} of {stay:?}");
            }
        }
    }

    /// "Off replaces a pending On and stops T4; On for a new stay replaces a pending Off and stops T5."
    #[test]
    fn a_request_replaces_the_one_that_is_pending_there() {
        let mut served = Served::empty();
        served.accept(at(PARK, 1, 17));
        served.accept(at(PARK, 2, 18));
        assert_eq!(served.reply(3, on(1, 1)), Ok((17, 4)));
        let notices = served.accept(at(RELEASE, 1, 0)).unwrap();
        assert_eq!(notices.map(|notice| notice.stopped()), [4, 4, 0, 4, 4, 4, 4, 4]);
        assert_eq!(notices.map(|notice| notice.started()), [5; 8]);
        assert_eq!(served.reply(1, on(1, 1)), Err(refusal::NOT_PENDING));
        assert_eq!(served.reply(8, off(1, 3)), Ok((17, 5)));
        let notices = served.accept(at(PARK, 3, 17)).unwrap();
        assert_eq!(notices.map(|notice| notice.stopped()), [5, 5, 5, 5, 5, 5, 5, 0]);
        assert_eq!(notices.map(|notice| notice.started()), [4; 8]);
        assert_eq!(served.reply(1, off(1, 3)), Err(refusal::NOT_PENDING));
        assert!(members().all(|member| served.lamps.pending(Place(17), member) == Some(on(3, 4))));
        assert!(members().all(|member| served.lamps.pending(Place(18), member) == Some(on(2, 2))));
    }

    /// "Requests to one member are numbered on over all places from 1, with 0 after 65,535."
    #[test]
    fn numbers_run_on_over_all_places() {
        let mut served = Served::empty();
        let mut expected = (1..=65_535).chain(0..=9_000);
        for nth in 0..37_000 {
            let (enter, place) = if nth % 2 == 0 { (PARK, nth % 64 + 1) } else { (ALERT, nth % 32 + 65) };
            for event in [at(enter, nth.into(), place), at(RELEASE, nth.into(), 0)] {
                let numbers = served.accept(event).unwrap().map(|notice| notice.request.invoke.0);
                assert_eq!(numbers, [expected.next().unwrap(); 8]);
            }
        }
        let mut counted = Served::empty();
        counted.lamps.set_counts(Invoke(65_535));
        assert_eq!(counted.accept(PARK).map(|notices| notices[7].request), Some(on(1, 0)));
    }

    /// "They settle the pending request with all four, at the lowest place if two match."
    #[test]
    fn a_reply_settles_what_has_all_four() {
        let mut served = Served::empty();
        for place in [20, 90, 3] {
            served.lamps.set_counts(Invoke(6));
            served.accept(at(if place > 64 { ALERT } else { PARK }, 1, place));
            served.accept(at(RELEASE, 1, 0));
        }
        for wrong in [on(1, 8), off(2, 8), off(1, 7), off(1, 9)] {
            assert_eq!(served.reply(5, wrong), Err(refusal::NOT_PENDING));
        }
        for place in [3, 20, 90] {
            assert_eq!(served.lamps.state(Place(place), Member(5)), GpState::NotifyOffRequ);
            assert_eq!(served.reply(5, off(1, 8)), Ok((place, 5)));
            assert_eq!(served.lamps.state(Place(place), Member(5)), GpState::Idle);
            assert_eq!(served.lamps.state(Place(place), Member(6)), GpState::NotifyOffRequ);
        }
        assert_eq!(served.reply(5, off(1, 8)), Err(refusal::NOT_PENDING));
    }

    /// "Refusals: 31 member not 1 to 8, 32 no such request pending, checked in that order."
    #[test]
    fn a_refused_reply_changes_nothing() {
        let mut served = Served::empty();
        served.accept(PARK);
        let before = served.clone();
        for member in (9..=255).chain([0]) {
            assert_eq!(served.reply(member, on(1, 1)), Err(31));
            assert_eq!(served.reply(member, off(1, 1)), Err(31));
        }
        assert_eq!(served.reply(8, off(1, 1)), Err(32));
        assert_eq!(served, before);
    }

    /// "... the call table, whose answers the lamps never alter."
    #[test]
    fn the_table_is_as_it_is_without_lamps() {
        let (mut served, mut alone) = (Served::empty(), Table::empty());
        let (mut follower, mut rng) = (Follower::new(5, 40), Rng::new(5));
        for _ in 0..20_000 {
            let event = follower.event(&alone);
            assert_eq!(served.step(&event).0, step(&mut alone, &event));
            let (place, member) = (Place(rng.below(97) as u16), Member(rng.octet() % 9));
            if let Some(request) = served.lamps.pending(place, member) {
                assert!(served.lamps.reply(&Reply { member, request }).is_ok());
            }
            assert_eq!(served.table, alone);
        }
    }
}
