//! Random events that follow a table, and random sound tables, for tests and benchmarks. One seed, one run.

use crate::lines::{write_event, LINE_OCTETS};
use crate::machine::Event;
use crate::table::{Call, Connection, Invoke, Place, Rank, Record, Side, State, Table};

/// Splitmix64.
pub struct Rng(u64);

impl Rng {
    pub fn new(seed: u64) -> Rng {
        Rng(seed)
    }

    pub fn word(&mut self) -> u64 {
        self.0 = self.0.wrapping_add(0x9e37_79b9_7f4a_7c15);
        let mixed = (self.0 ^ (self.0 >> 30)).wrapping_mul(0xbf58_476d_1ce4_e5b9);
        let mixed = (mixed ^ (mixed >> 27)).wrapping_mul(0x94d0_49bb_1331_11eb);
        mixed ^ (mixed >> 31)
    }

    /// A number below the bound, which is at most 2^32.
    pub fn below(&mut self, bound: usize) -> usize {
        (((self.word() >> 32) * bound as u64) >> 32) as usize
    }

    pub fn percent(&mut self, percent: usize) -> bool {
        self.below(100) < percent
    }

    pub fn one_of<T: Copy>(&mut self, choices: &[T]) -> T {
        choices[self.below(choices.len())]
    }

    pub fn octet(&mut self) -> u8 {
        self.word() as u8
    }

    pub fn number(&mut self) -> u16 {
        self.word() as u16
    }

    /// Any order of the items is as likely as any other.
    pub fn shuffle<T>(&mut self, items: &mut [T]) {
        for last in (1..items.len()).rev() {
            items.swap(last, self.below(last + 1));
        }
    }

    fn call(&mut self) -> Call {
        Call(u128::from(self.word()) << 64 | u128::from(self.word()))
    }
}

const KINDS: [u8; 14] = [0, 1, 2, 3, 4, 5, 6, 7, 8, 9, 10, 11, 12, 255];
const CHOICES: [u8; 6] = [0, 1, 2, 3, 4, 255];
const TIMERS: [u8; 12] = [0, 1, 2, 3, 4, 5, 6, 7, 8, 9, 10, 255];

/// Makes events of which most concern a call in the table, and keeps the table filled to about `fill` places.
pub struct Follower {
    pub rng: Rng,
    fill: usize,
    /// Calls of one family share 15 octets with it, so that only a comparison of all 16 tells them apart.
    family: Call,
    /// Calls met on the way with their invoke numbers: the source of answers that come too late.
    met: [(Call, Invoke); 8],
}

impl Follower {
    pub fn new(seed: u64, fill: usize) -> Follower {
        let mut rng = Rng::new(seed);
        let family = rng.call();
        Follower { rng, fill, family, met: [(family, Invoke(1)); 8] }
    }

    pub fn event(&mut self, table: &Table) -> Event {
        let taken = table.records().iter().filter(|record| record.state != State::Free).count();
        let entering = if taken < self.fill { 55 } else { 6 };
        let any = self.any_event();
        match self.rng.below(100) {
            part if part < entering => self.entering(table, any),
            part if part < entering + 4 => any,
            part if part < entering + 8 => self.late(any),
            part if part < entering + 14 => {
                Event { kind: self.rng.one_of(&[3, 4]), choice: self.rng.one_of(&[1, 2]), ..any }
            }
            _ => self.for_live_call(table, any),
        }
    }

    /// Fields that the kind does not name keep these values, since they must not matter.
    fn any_event(&mut self) -> Event {
        let rng = &mut self.rng;
        let (number, near) = (rng.number(), rng.below(98) as u16);
        Event {
            kind: rng.one_of(&KINDS),
            call: self.met[rng.below(self.met.len())].0,
            place: Place(rng.one_of(&[0, 64, 65, 96, 97, 65_535, number, near, near, near])),
            choice: rng.one_of(&CHOICES),
            connection: Connection(rng.one_of(&[0, 65_535, 900, number])),
            invoke: Invoke(rng.one_of(&[0, 1, 65_535, number])),
            timer: rng.one_of(&TIMERS),
        }
    }

    fn entering(&mut self, table: &Table, any: Event) -> Event {
        let rng = &mut self.rng;
        let call = match rng.below(16) {
            0..=3 => Call(self.family.0 ^ u128::from(rng.octet())),
            4..=7 => Call(self.family.0 ^ u128::from(rng.octet()) << 120),
            8 => Call(rng.below(3) as u128),
            9 => Call(u128::MAX),
            10 => any.call,
            11 => table.records()[rng.below(Table::PLACES)].call,
            _ => rng.call(),
        };
        Event { kind: rng.one_of(&[1, 1, 2]), call, ..any }
    }

    fn late(&mut self, any: Event) -> Event {
        let (call, invoke) = self.met[self.rng.below(self.met.len())];
        Event { kind: self.rng.one_of(&[5, 5, 6, 7]), call, invoke, ..any }
    }

    fn for_live_call(&mut self, table: &Table, any: Event) -> Event {
        let rng = &mut self.rng;
        let start = rng.below(Table::PLACES);
        let mut around = table.records()[start..].iter().chain(&table.records()[..start]);
        let Some(record) = around.find(|record| record.state != State::Free) else {
            return any;
        };
        if rng.percent(10) {
            self.met[rng.below(8)] = (record.call, record.count);
        }
        let (kinds, timers): (&[u8], &[u8]) = match record.state {
            State::CpWaitForPickup => (&[3, 3, 4, 4, 4, 7, 8, 10], &[3]),
            State::WaitForPickup => (&[3, 3, 4, 4, 4, 7, 8, 9], &[3]),
            State::CpickupRequested => (&[5, 5, 6, 7, 8, 10], &[3, 6]),
            State::CpickupRemoteRequested => (&[5, 5, 6, 6, 7, 8, 10], &[3, 9, 9]),
            State::HandedOver | State::Free => (&[7, 8, 10], &[3]),
        };
        let count = record.count.0;
        let wrong_counts = [count.wrapping_sub(1), count.wrapping_add(1), any.invoke.0];
        Event {
            kind: if rng.percent(88) { rng.one_of(kinds) } else { any.kind },
            call: record.call,
            choice: if rng.percent(90) { 0 } else { any.choice },
            invoke: Invoke(if rng.percent(80) { count } else { rng.one_of(&wrong_counts) }),
            timer: if rng.percent(85) { rng.one_of(timers) } else { any.timer },
            ..any
        }
    }
}

/// The event as a line without a line feed.
pub fn line_of(event: &Event) -> Vec<u8> {
    let mut line = vec![0; LINE_OCTETS];
    let length = write_event(event, &mut line);
    line.truncate(length);
    line
}

/// A sound table with about `fill` places taken, with neighbouring calls, many counts close to their wrap, and ranks
/// that have nothing to do with the places.
pub fn sound_table(rng: &mut Rng, fill: usize) -> Table {
    let family = rng.call();
    let mut records = [Record::FREE; Table::PLACES];
    for (index, record) in records.iter_mut().enumerate() {
        if rng.below(Table::PLACES) >= fill {
            continue;
        }
        record.state = match rng.below(4) {
            0 => State::CpickupRequested,
            1 => State::CpickupRemoteRequested,
            2 => State::HandedOver,
            _ => Side::of(index).waiting(),
        };
        record.call = Call(family.0 ^ (index as u128 + 1) << rng.one_of(&[0, 120]));
        record.count = Invoke(rng.one_of(&[0, 1, 65_533, 65_534, 65_535, 65_535]));
        if record.state == State::CpickupRemoteRequested {
            record.connection = Connection(rng.one_of(&[0, 65_535, 900]));
        }
    }
    for side in [Side::Position, Side::Line] {
        let mut taken: Vec<&mut Record> =
            records[side.indices()].iter_mut().filter(|record| record.state != State::Free).collect();
        rng.shuffle(&mut taken);
        for (record, rank) in taken.into_iter().zip(1..) {
            record.rank = Rank(rank);
        }
    }
    Table::from_records(records).expect("each record is sound, the calls differ, and so do the ranks of a side")
}
