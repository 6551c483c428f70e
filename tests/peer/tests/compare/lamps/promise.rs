//! What request Q-5 promises, tried on what the peer prints for whole streams: each member has had exactly one On for
//! every stay begun and one Off for every stay ended or handed over, in all and of each call; numbers run on; and the
//! timers that are started and stopped leave running exactly those that belong to the states.
//!
//! All is told from the printed lines. Of the input only this is looked at: the member that replies, the place and
//! member that are asked about, and the number that is set.

use std::collections::{BTreeMap, BTreeSet};

use peer::{Asked, Indication, Invoke, Lamps, Member, Place, Table};

use super::lines_of;
use crate::{fail, runs};

/// What was printed for one line.
#[derive(Clone, Copy, PartialEq)]
enum Turn {
    /// An answer, and what goes to the members.
    Answer {
        number: u16,
        call: u128,
        place: usize,
        state: u16,
        sent: Option<Sent>,
    },
    /// A reply that settled a request.
    Settled {
        place: usize,
        member: usize,
        timer: u8,
    },
    State {
        place: usize,
        member: usize,
        timer: u8,
    },
    Count(Invoke),
    /// A reply that was refused.
    Nothing,
}

#[derive(Clone, Copy, PartialEq)]
struct Sent {
    indication: Indication,
    call: u128,
    place: usize,
    number: Invoke,
    stopped: [u8; Lamps::MEMBERS],
    started: [u8; Lamps::MEMBERS],
}

/// What was printed for a stream, or nothing where it has not the form that it should have.
fn turns_of(text: &[u8], printed: &[u8]) -> Option<Vec<Turn>> {
    let mut printed = lines_of(printed).map(|line| std::str::from_utf8(line).unwrap_or_default()).peekable();
    let mut turns = Vec::new();
    for line in lines_of(text) {
        turns.push(match Asked::read(line) {
            Asked::Event(_) => {
                let answer: Vec<&str> = printed.next()?.split('\t').collect();
                let sent = printed.next_if(|line| line.starts_with("on\t") || line.starts_with("off\t"));
                Turn::Answer {
                    number: answer[0].parse().ok()?,
                    call: u128::from_str_radix(answer.get(1)?, 16).ok()?,
                    place: answer.get(2)?.parse().ok()?,
                    state: answer.get(3)?.parse().ok()?,
                    sent: sent.map_or(Some(None), |line| sent_by(line).map(Some))?,
                }
            }
            Asked::Reply(reply) => match printed.next()?.split('\t').collect::<Vec<_>>()[..] {
                ["reply", "0", place, timer] => {
                    let (place, timer) = (place.parse().ok()?, timer.parse().ok()?);
                    Turn::Settled { place, member: reply.member.0.into(), timer }
                }
                ["reply", "31" | "32", "0", "0"] => Turn::Nothing,
                _ => return None,
            },
            Asked::State(Place(place), Member(member)) => {
                let timer = match printed.next()? {
                    "gp\tGP-Idle\t0" => 0,
                    "gp\tGP-NotifyOnRequ\t4" => 4,
                    "gp\tGP-NotifyOffRequ\t5" => 5,
                    _ => return None,
                };
                Turn::State { place: place.into(), member: member.into(), timer }
            }
            Asked::Count(count) => Turn::Count(count),
        });
    }
    printed.next().is_none().then_some(turns)
}

fn sent_by(line: &str) -> Option<Sent> {
    let [indication, call, place, number, stopped, started] = line.split('\t').collect::<Vec<_>>()[..] else {
        return None;
    };
    let timers = |digits: &str| digits.bytes().map(|digit| digit - b'0').collect::<Vec<_>>().try_into().ok();
    Some(Sent {
        indication: if indication == "on" { Indication::On } else { Indication::Off },
        call: u128::from_str_radix(call, 16).ok()?,
        place: place.parse().ok()?,
        number: Invoke(number.parse().ok()?),
        stopped: timers(stopped)?,
        started: timers(started)?,
    })
}

/// Stays, and what each member has been sent because of them.
#[derive(Clone, Copy, Default)]
struct Account {
    begun: u64,
    ended_or_handed_over: u64,
    on: [u64; Lamps::MEMBERS],
    off: [u64; Lamps::MEMBERS],
}

impl Account {
    fn adds_up(&self) -> bool {
        self.on == [self.begun; Lamps::MEMBERS] && self.off == [self.ended_or_handed_over; Lamps::MEMBERS]
    }
}

/// The parts of the promise.
#[derive(Clone, Copy, PartialEq, Eq, PartialOrd, Ord, Debug)]
enum Part {
    /// As many On and Off as there are stays for them.
    Accounts,
    /// A timer that stops has run, and what runs belongs to the state.
    Timers,
    Numbers,
}

/// All that is held against the promise, from the start of a stream.
struct Book {
    /// What has not been kept.
    broken: BTreeSet<Part>,
    in_all: Account,
    by_call: BTreeMap<u128, Account>,
    /// By place: whether there is a call, and if so whether it has been handed over.
    stays: [Option<bool>; Table::PLACES],
    /// By place and member; 0 where none runs.
    running: [[u8; Lamps::MEMBERS]; Table::PLACES],
    /// Of the last request.
    number: Invoke,
}

impl Book {
    fn new() -> Book {
        Book {
            broken: BTreeSet::new(),
            in_all: Account::default(),
            by_call: BTreeMap::new(),
            stays: [None; Table::PLACES],
            running: [[0; Lamps::MEMBERS]; Table::PLACES],
            number: Invoke(0),
        }
    }

    fn demand(&mut self, part: Part, is_kept: bool) {
        if !is_kept {
            self.broken.insert(part);
        }
    }

    /// On the account of all calls and on that of this one.
    fn on_both(&mut self, call: u128, change: impl Fn(&mut Account)) {
        change(&mut self.in_all);
        change(self.by_call.entry(call).or_default());
    }

    fn take(&mut self, turn: &Turn) {
        match *turn {
            Turn::Answer { number, call, place, state, sent } => {
                if number == 0 {
                    self.note_stay(call, place, state);
                }
                if let Some(sent) = sent {
                    self.note_sent(&sent);
                }
                // No other call's account can have changed.
                let calls = [Some(call), sent.map(|sent| sent.call)];
                let mut accounts = calls.iter().flatten().filter_map(|call| self.by_call.get(call));
                let add_up = self.in_all.adds_up() && accounts.all(Account::adds_up);
                self.demand(Part::Accounts, add_up);
            }
            Turn::Settled { place, member, timer } => {
                let running = std::mem::replace(&mut self.running[place - 1][member - 1], 0);
                self.demand(Part::Timers, timer != 0 && timer == running);
            }
            Turn::State { place, member, timer } => {
                let members = place.checked_sub(1).and_then(|index| self.running.get(index));
                let running = members.and_then(|members| members.get(member.checked_sub(1)?)).copied();
                self.demand(Part::Timers, timer == running.unwrap_or(0));
            }
            Turn::Count(number) => self.number = number,
            Turn::Nothing => {}
        }
    }

    fn note_stay(&mut self, call: u128, place: usize, state: u16) {
        let before = self.stays[place - 1];
        let handed_over = before == Some(true) || state == 5;
        self.stays[place - 1] = (state != 0).then_some(handed_over);
        if before.is_none() {
            self.on_both(call, |account| account.begun += 1);
        }
        if before != Some(true) && (handed_over || state == 0) {
            self.on_both(call, |account| account.ended_or_handed_over += 1);
        }
    }

    fn note_sent(&mut self, sent: &Sent) {
        let last = std::mem::replace(&mut self.number, sent.number);
        self.demand(Part::Numbers, sent.number.0 == last.0.wrapping_add(1));
        let running = std::mem::replace(&mut self.running[sent.place - 1], sent.started);
        self.demand(Part::Timers, sent.stopped == running);
        self.on_both(sent.call, |account| {
            let (members, timer) = match sent.indication {
                Indication::On => (&mut account.on, 4),
                Indication::Off => (&mut account.off, 5),
            };
            for (had, &started) in members.iter_mut().zip(&sent.started) {
                *had += u64::from(started == timer);
            }
        });
    }
}

/// Changes what a program prints that has one slip, for seeing that the check notices it.
type Slip = fn(&mut Turn);

/// Each with the part of the promise that it breaks, whatever else it does.
const SLIPS: [(Slip, Part, &str); 14] = [
    (no_on_for_alert, Part::Accounts, "no On for an alert"),
    (no_off_at_handing_over, Part::Accounts, "no Off when a call is handed over"),
    (no_off_at_end, Part::Accounts, "no Off when a stay ends in another way"),
    (off_again_at_release, Part::Accounts, "Off again when a call that was handed over is released"),
    (off_at_request, Part::Accounts, "Off when a pickup is asked for"),
    (off_when_turned_down, Part::Accounts, "Off when a pickup is turned down"),
    (on_when_refused, Part::Accounts, "On when a park or alert is refused"),
    (to_seven_members, Part::Accounts, "member 8 left out"),
    (of_another_call, Part::Accounts, "Off sent for another call"),
    (timer_of_on, Part::Timers, "T4 started by Off"),
    (runs_on_at_on, Part::Timers, "T5 runs on when On replaces Off"),
    (runs_on_at_reply, Part::Timers, "the timer runs on when the member replies"),
    (stops_other_timer, Part::Timers, "the reply stops the other timer"),
    (number_given_again, Part::Numbers, "the number of one request given again"),
];

#[derive(Default)]
pub struct Promise {
    in_all: Account,
    calls: usize,
    noticed: [usize; SLIPS.len()],
}

impl Promise {
    pub fn check(&mut self, name: &str, text: &[u8], printed: &[u8]) {
        let Some(turns) = turns_of(text, printed) else {
            fail(&format!("lamps, {name}: a printed line has another form"));
        };
        let mut book = Book::new();
        for (number, turn) in (1..).zip(&turns) {
            book.take(turn);
            if !book.broken.is_empty() {
                fail(&format!("lamps, {name}, line {number}: broken promise {:?}", book.broken));
            }
        }
        if !book.by_call.values().all(Account::adds_up) {
            fail(&format!("lamps, {name}: the account of a call does not add up"));
        }
        self.in_all.begun += book.in_all.begun;
        self.in_all.ended_or_handed_over += book.in_all.ended_or_handed_over;
        self.calls += book.by_call.len();
        for (count, (slip, part, name_of_slip)) in self.noticed.iter_mut().zip(SLIPS) {
            let mut slipped = turns.clone();
            slipped.iter_mut().for_each(slip);
            if slipped == turns {
                continue;
            }
            let mut book = Book::new();
            slipped.iter().for_each(|turn| book.take(turn));
            if !book.broken.contains(&part) {
                fail(&format!("lamps, {name}: the slip is not noticed: {name_of_slip}"));
            }
            *count += 1;
        }
    }

    pub fn print_and_demand(&self) {
        let Account { begun, ended_or_handed_over, .. } = self.in_all;
        println!(
            "promise: each of {} members has had one On for each of {begun} stays begun, and one Off for each of \
             {ended_or_handed_over} ended or handed over, of {} calls",
            Lamps::MEMBERS,
            self.calls
        );
        runs::demand_noticed(self.noticed.into_iter().zip(SLIPS.map(|(.., name)| name)));
    }
}

fn no_on_for_alert(turn: &mut Turn) {
    if let Turn::Answer { state: 2, sent, .. } = turn {
        *sent = None;
    }
}

fn no_off_at_handing_over(turn: &mut Turn) {
    if let Turn::Answer { state: 5, sent, .. } = turn {
        *sent = None;
    }
}

fn no_off_at_end(turn: &mut Turn) {
    if let Turn::Answer { state: 0, sent, .. } = turn {
        *sent = None;
    }
}

/// Any other end of a stay sends Off already.
fn off_again_at_release(turn: &mut Turn) {
    send_off(turn, &[0]);
}

fn off_at_request(turn: &mut Turn) {
    send_off(turn, &[3, 4]);
}

/// A stay that begins sends On already.
fn off_when_turned_down(turn: &mut Turn) {
    send_off(turn, &[1, 2]);
}

fn send_off(turn: &mut Turn, states: &[u16]) {
    if let Turn::Answer { number: 0, call, place, state, sent: sent @ None } = turn {
        if states.contains(state) {
            *sent = Some(request(Indication::Off, *call, *place));
        }
    }
}

fn on_when_refused(turn: &mut Turn) {
    if let Turn::Answer { number: 3 | 4, call, sent, .. } = turn {
        *sent = Some(request(Indication::On, *call, 1));
    }
}

fn request(indication: Indication, call: u128, place: usize) -> Sent {
    let (stopped, started) = ([0; Lamps::MEMBERS], [indication.timer(); Lamps::MEMBERS]);
    Sent { indication, call, place, number: Invoke(1), stopped, started }
}

fn to_seven_members(turn: &mut Turn) {
    if let Turn::Answer { sent: Some(sent), .. } = turn {
        sent.started[7] = 0;
    }
}

fn of_another_call(turn: &mut Turn) {
    if let Turn::Answer { sent: Some(sent @ Sent { indication: Indication::Off, .. }), .. } = turn {
        sent.call ^= 1;
    }
}

fn timer_of_on(turn: &mut Turn) {
    if let Turn::Answer { sent: Some(sent), .. } = turn {
        sent.started = [4; Lamps::MEMBERS];
    }
}

fn runs_on_at_on(turn: &mut Turn) {
    if let Turn::Answer { sent: Some(sent @ Sent { indication: Indication::On, .. }), .. } = turn {
        sent.stopped = [0; Lamps::MEMBERS];
    }
}

fn runs_on_at_reply(turn: &mut Turn) {
    if let Turn::Settled { .. } = turn {
        *turn = Turn::Nothing;
    }
}

fn stops_other_timer(turn: &mut Turn) {
    if let Turn::Settled { timer, .. } = turn {
        *timer = 9 - *timer;
    }
}

fn number_given_again(turn: &mut Turn) {
    if let Turn::Answer { sent: Some(sent), .. } = turn {
        sent.number.0 -= u16::from(sent.number.0 == 7);
    }
}
