//! Random lines for the program with the lamps: events that follow the table, replies that follow the requests, and
//! questions. One seed, one stream.

use peer::trial::{line_of, Follower, Rng};
use peer::{
    Asked, Call, Event, Given, Indication, Invoke, Lamps, Member, Notice, Place, Reply, Request, Served, Side,
    State, Table,
};

use super::history::{Gone, History};
use super::lines_of;
use super::tally::Tally;
use crate::damage;

/// With so few calls the same one is often at two places, one after the other.
const FEW_CALLS: [u128; 4] = [0, 1, 1 << 127, u128::MAX];

/// How the lines are mixed, by the seed.
struct Habits {
    few_calls: bool,
    /// In percent of the lines, as all that follows.
    replies: usize,
    questions: usize,
    counts: usize,
    damaged: usize,
}

pub struct Stream<'a> {
    text: Vec<u8>,
    habits: Habits,
    rng: Rng,
    follower: Follower,
    /// The peer, which goes along.
    served: Served,
    history: History,
    /// What member 1 was sent last.
    last: Option<Notice>,
    tally: &'a mut Tally,
}

impl Stream<'_> {
    /// Ends with a question about each place and member.
    pub fn random(seed: u64, tally: &mut Tally) -> Vec<u8> {
        let nth = seed as usize;
        let fill = [1, 3, 10, 30, 60, 96][nth % 6];
        let habits = Habits {
            replies: [0, 15, 50][nth / 6 % 3],
            counts: [0, 1, 6][nth / 18 % 3],
            few_calls: nth / 54 % 2 == 1,
            questions: 5,
            damaged: 3,
        };
        let mut stream = Stream {
            text: Vec::new(),
            habits,
            rng: Rng::new(seed),
            follower: Follower::new(seed + 1_000, fill),
            served: Served::empty(),
            history: History::default(),
            last: None,
            tally,
        };
        for _ in 0..500 + stream.rng.below(4_500) {
            stream.some_lines();
        }
        stream.ask_all();
        stream.text
    }

    fn some_lines(&mut self) {
        let Habits { replies, questions, counts, .. } = self.habits;
        match self.rng.below(100) {
            part if part < replies => self.replies(),
            part if part < replies + questions => self.ask_anything(),
            part if part < replies + questions + counts => match self.rng.percent(30) {
                true => self.one_request_at_several_places(),
                false => self.set_count(),
            },
            _ => self.event(),
        }
    }

    fn event(&mut self) {
        let mut event = self.follower.event(&self.served.table);
        if self.habits.few_calls && matches!(event.kind, 1 | 2) {
            event.call = Call(self.rng.one_of(&FEW_CALLS));
        }
        self.put(None, &event);
    }

    fn replies(&mut self) {
        if self.rng.percent(8) {
            self.several_reply();
        } else if let Some(reply) = self.some_reply() {
            self.reply(&reply);
            if self.rng.percent(30) {
                self.ask_about(&reply);
            }
        }
        if self.rng.below(3_000) == 0 {
            self.ask_all();
        }
    }

    /// Members in any order, most often all of them, reply to the last request, whatever has become of it.
    fn several_reply(&mut self) {
        let Some(Notice { request, .. }) = self.last else {
            return;
        };
        let some = 1 + self.rng.below(Lamps::MEMBERS);
        for member in self.members_in_any_order().into_iter().take(self.rng.one_of(&[Lamps::MEMBERS, some])) {
            self.reply(&Reply { member, request });
        }
    }

    fn members_in_any_order(&mut self) -> [Member; Lamps::MEMBERS] {
        let mut members = [1, 2, 3, 4, 5, 6, 7, 8].map(Member);
        self.rng.shuffle(&mut members);
        members
    }

    /// Right, or with one of the four wrong, or too late, or made of parts that do not belong together.
    fn some_reply(&mut self) -> Option<Reply> {
        let (right, other) = (self.pending()?, self.pending()?);
        let late = self.late().unwrap_or(right);
        let rng = &mut self.rng;
        let Reply { member, request } = right;
        let of_request = |request| Reply { member, request };
        let of_member = |number| Reply { member: Member(number), request };
        Some(match rng.below(24) {
            0..=9 => right,
            10 | 11 => {
                let indication = match request.indication {
                    Indication::On => Indication::Off,
                    Indication::Off => Indication::On,
                };
                of_request(Request { indication, ..request })
            }
            12 => of_request(Request { call: Call(request.call.0 ^ 1 << rng.below(128)), ..request }),
            13 => of_request(Request { call: other.request.call, ..request }),
            14 => of_request(Request { invoke: Invoke(request.invoke.0 ^ 1 << rng.below(16)), ..request }),
            15 => of_request(Request { invoke: other.request.invoke, ..request }),
            16 | 17 => of_member(1 + rng.below(Lamps::MEMBERS) as u8),
            18 => of_member(rng.one_of(&[0, 9, 255])),
            // Whoever looks at some bits of the number only takes these for the right one.
            19 => of_member(member.0 | 8 << rng.below(5)),
            20 | 21 => late,
            22 => self.history.last_settled.unwrap_or(right),
            _ => {
                Reply { member: other.member, request: Request { indication: late.request.indication, ..request } }
            }
        })
    }

    /// A reply that is waited for: the first from anywhere on.
    fn pending(&mut self) -> Option<Reply> {
        let served = &self.served;
        from_anywhere(&mut self.rng, |place, member| {
            served.lamps.pending(place, member).map(|request| Reply { member, request })
        })
    }

    /// A reply to a request that has been settled or replaced.
    fn late(&mut self) -> Option<Reply> {
        let history = &self.history;
        from_anywhere(&mut self.rng, |place, member| {
            history.gone(place, member).map(|Gone { request, .. }| Reply { member, request })
        })
    }

    /// Releases one call at places that it takes one after the other, each time with the same numbers, so that a reply
    /// to its Off matches at all of them.
    fn one_request_at_several_places(&mut self) {
        let records = self.served.table.records();
        let any = u128::from(self.rng.word());
        let call = Call(if self.habits.few_calls { self.rng.one_of(&FEW_CALLS) } else { any });
        let is_held = records.iter().any(|record| record.call == call && record.state != State::Free);
        let is_free = |index: &usize| records[*index].state == State::Free;
        let mut free: Vec<usize> = (0..Table::PLACES).filter(is_free).collect();
        if is_held || free.len() < 3 {
            return;
        }
        self.rng.shuffle(&mut free);
        let count = self.some_count();
        for &index in &free[..2 + self.rng.below(2)] {
            let kind = if Side::of(index) == Side::Position { 1 } else { 2 };
            let event = Event { kind, call, place: Place(index as u16 + 1), invoke: count, ..Event::default() };
            self.put_whole(Some(b'n'), &event);
            self.put_whole(None, &event);
            if self.rng.percent(50) {
                self.put_whole(None, &Event { kind: 8, ..event });
            } else {
                self.put_whole(None, &Event { kind: 3, ..event });
                self.put_whole(None, &Event { kind: 5, invoke: Invoke(1), ..event });
            }
        }
        let request = Request { indication: Indication::Off, call, invoke: Invoke(count.0.wrapping_add(2)) };
        for member in self.members_in_any_order().into_iter().take(self.rng.below(Lamps::MEMBERS)) {
            for _ in 0..1 + self.rng.below(4) {
                self.reply(&Reply { member, request });
            }
        }
    }

    /// Near the end of the numbers, since no stream can hold requests enough to come there (each needs a line of 45
    /// octets or more), or a little before the last one, so that numbers come twice.
    fn some_count(&mut self) -> Invoke {
        let last = self.last.map_or(0, |notice| notice.request.invoke.0);
        let back = last.wrapping_sub(1 + self.rng.below(4) as u16);
        let any = self.rng.number();
        Invoke(self.rng.one_of(&[0, 1, 65_532, 65_533, 65_534, 65_535, back, back, back, any]))
    }

    fn set_count(&mut self) {
        let any = self.follower.event(&self.served.table);
        let invoke = self.some_count();
        self.put(Some(b'n'), &Event { invoke, ..any });
    }

    fn reply(&mut self, reply: &Reply) {
        let Reply { member, request: Request { indication, call, invoke } } = *reply;
        let any = self.follower.event(&self.served.table);
        let kind = match indication {
            Indication::On => 1,
            Indication::Off => self.rng.one_of(&[0, 2, 3, 10, 255]),
        };
        self.put(Some(b'r'), &Event { kind, call, choice: member.0, invoke, ..any });
    }

    /// Where a reply has been settled, or might have been.
    fn ask_about(&mut self, reply: &Reply) {
        let pending = |place: &u16| self.served.lamps.pending(Place(*place), reply.member) == Some(reply.request);
        let place = (1..=Table::PLACES as u16).find(pending).or(self.history.last_place);
        self.ask(place.unwrap_or(1), reply.member.0);
    }

    fn ask_anything(&mut self) {
        let (near, octet) = (1 + self.rng.below(Table::PLACES) as u16, self.rng.octet());
        let last = self.last.map_or(near, |notice| notice.place.0);
        let number = self.rng.number();
        let place = self.rng.one_of(&[near, near, near, last, last, last, 0, 97, 65_535, number]);
        let member = 1 + self.rng.below(Lamps::MEMBERS) as u8;
        let member = self.rng.one_of(&[member, member, member, member, member, 0, 9, 255, octet]);
        self.ask(place, member);
    }

    fn ask(&mut self, place: u16, member: u8) {
        let any = self.follower.event(&self.served.table);
        self.put(Some(b'g'), &Event { place: Place(place), choice: member, ..any });
    }

    fn ask_all(&mut self) {
        for place in 0..=Table::PLACES as u16 + 1 {
            for choice in 0..=Lamps::MEMBERS as u8 + 1 {
                self.put_whole(Some(b'g'), &Event { place: Place(place), choice, ..Event::default() });
            }
        }
    }

    fn put(&mut self, letter: Option<u8>, event: &Event) {
        if self.rng.percent(self.habits.damaged) {
            let damaged = damage::random(&mut self.rng, event);
            self.put_text(letter, &damaged);
        } else {
            self.put_whole(letter, event);
        }
    }

    fn put_whole(&mut self, letter: Option<u8>, event: &Event) {
        self.put_text(letter, &line_of(event));
    }

    /// Damage may contain a line feed, and then makes two lines.
    fn put_text(&mut self, letter: Option<u8>, text: &[u8]) {
        let start = self.text.len();
        self.text.extend(letter);
        self.text.extend(text);
        self.text.push(b'\n');
        let lines: Vec<Vec<u8>> = lines_of(&self.text[start..]).map(<[u8]>::to_vec).collect();
        for line in lines {
            self.take(&line);
        }
    }

    fn take(&mut self, line: &[u8]) {
        let asked = Asked::read(line);
        let before = *self.served.table.records();
        let given = self.served.take(&asked);
        self.tally.note(&before, &self.served.lamps, &self.history, line, &asked, &given);
        self.history.note(&asked, &given);
        if let Given::Answer(_, Some(notices)) = given {
            self.last = Some(notices[0]);
        }
    }
}

/// The first place and member, from anywhere on, of which there is something to tell.
fn from_anywhere<T>(rng: &mut Rng, told: impl Fn(Place, Member) -> Option<T>) -> Option<T> {
    let all = Table::PLACES * Lamps::MEMBERS;
    let start = rng.below(all);
    (start..start + all).find_map(|nth| {
        let (index, member) = (nth % all / Lamps::MEMBERS, nth % Lamps::MEMBERS);
        told(Place(index as u16 + 1), Member(member as u8 + 1))
    })
}
