//! Places, records and the table ("Places and records", and the ranks of request Q-4).

/// The numbers of "Refusal numbers" and of requests. 26 is missing: no answer carries it.
pub mod refusal {
    pub const KIND: u8 = 1;
    pub const CHOICE_OR_TIMER: u8 = 2;
    pub const CALL_PRESENT: u8 = 3;
    pub const NO_FREE_PLACE: u8 = 4;
    pub const CALL_ABSENT: u8 = 5;
    pub const NOTHING_WAITS: u8 = 6;
    pub const PICKUP_REQUESTED: u8 = 7;
    pub const STATE: u8 = 8;
    pub const INVOKE: u8 = 9;
    pub const TIMER_STOPPED: u8 = 10;
    pub const REMOTE_PICKUP_REQUESTED: u8 = 11;
    pub const HANDED_OVER: u8 = 12;
    pub const LINE_LENGTH: u8 = 21;
    pub const FIELD_COUNT: u8 = 22;
    pub const NUMBER_FIELD: u8 = 23;
    pub const CALL_FIELD: u8 = 24;
    pub const TABLE: u8 = 25;
    pub const MEMBER: u8 = 31;
    pub const NOT_PENDING: u8 = 32;
    pub const NO_STEP: u8 = 33;
}

/// The 16 octets of an H.225.0 CallIdentifier, first octet highest.
#[derive(Clone, Copy, PartialEq, Eq, Debug, Default)]
pub struct Call(pub u128);

/// A place's number, 1 to 96; an event may propose any other number too.
#[derive(Clone, Copy, PartialEq, Eq, Debug, Default)]
pub struct Place(pub u16);

/// The picker's connection.
#[derive(Clone, Copy, PartialEq, Eq, Debug, Default)]
pub struct Connection(pub u16);

/// An invoke number, and the count of those given out.
#[derive(Clone, Copy, PartialEq, Eq, Debug, Default)]
pub struct Invoke(pub u16);

/// When a call came among those that hold a place of its side: the first has 1, a free place has 0.
#[derive(Clone, Copy, PartialEq, Eq, PartialOrd, Ord, Debug, Default)]
pub struct Rank(pub u8);

#[derive(Clone, Copy, PartialEq, Eq, Debug, Default)]
#[repr(u8)]
pub enum State {
    #[default]
    Free,
    CpWaitForPickup,
    WaitForPickup,
    CpickupRequested,
    CpickupRemoteRequested,
    HandedOver,
}

impl State {
    pub fn from_number(number: u8) -> Option<State> {
        use State::*;
        let all = [Free, CpWaitForPickup, WaitForPickup, CpickupRequested, CpickupRemoteRequested, HandedOver];
        all.get(usize::from(number)).copied()
    }
}

#[derive(Clone, Copy, PartialEq, Eq, Debug)]
pub enum Side {
    Position,
    Line,
}

impl Side {
    /// The side on which the record with this index lies; place 1 has index 0.
    pub fn of(index: usize) -> Side {
        if index < Table::POSITIONS {
            Side::Position
        } else {
            Side::Line
        }
    }

    pub fn indices(self) -> std::ops::Range<usize> {
        match self {
            Side::Position => 0..Table::POSITIONS,
            Side::Line => Table::POSITIONS..Table::PLACES,
        }
    }

    /// The state in which a call of this side waits for a pickup.
    pub fn waiting(self) -> State {
        match self {
            Side::Position => State::CpWaitForPickup,
            Side::Line => State::WaitForPickup,
        }
    }

    /// The running timers: 1 for T3, 2 for T6, 4 for T9. A state that the side does not know has none.
    pub fn timers(self, state: State) -> u8 {
        const SETS: [[u8; 6]; 2] = [[0, 1, 0, 3, 5, 1], [0, 0, 0, 2, 4, 0]];
        SETS[self as usize][state as usize]
    }
}

#[derive(Clone, Copy, PartialEq, Eq, Debug, Default)]
pub struct Record {
    pub state: State,
    pub call: Call,
    pub connection: Connection,
    pub count: Invoke,
    pub rank: Rank,
}

impl Record {
    pub const FREE: Record =
        Record { state: State::Free, call: Call(0), connection: Connection(0), count: Invoke(0), rank: Rank(0) };

    /// The first three parts of "A table is sound when", with a rank exactly where there is a call; what concerns the
    /// records together is looked at elsewhere.
    fn is_sound_at(&self, side: Side) -> bool {
        let state_of_other_side = match side {
            Side::Position => State::WaitForPickup,
            Side::Line => State::CpWaitForPickup,
        };
        let state_fits = self.state != state_of_other_side;
        let zeros_fit = self.state != State::Free || (self.call.0 == 0 && self.count.0 == 0);
        let connection_fits = self.state == State::CpickupRemoteRequested || self.connection.0 == 0;
        let rank_fits = (self.state == State::Free) == (self.rank.0 == 0);
        state_fits & zeros_fit & connection_fits & rank_fits
    }
}

/// A sound table: whatever makes one from outside checks the records, and only `step` changes them.
#[derive(Clone, PartialEq, Eq, Debug)]
pub struct Table {
    pub(crate) records: [Record; Table::PLACES],
}

#[derive(Clone, Copy, PartialEq, Eq, Debug, Default)]
pub struct Status {
    pub free_positions: u32,
    pub free_lines: u32,
    pub waiting_calls: u32,
    pub running_timers: u32,
}

impl Table {
    pub const POSITIONS: usize = 64;
    pub const LINES: usize = 32;
    pub const PLACES: usize = Table::POSITIONS + Table::LINES;

    pub const fn empty() -> Table {
        Table { records: [Record::FREE; Table::PLACES] }
    }

    /// Refuses records that make no sound table.
    pub fn from_records(records: [Record; Table::PLACES]) -> Result<Table, u8> {
        let table = Table { records };
        table.check()?;
        Ok(table)
    }

    /// "A table is sound when", with the rank rule of Q-4.
    pub(crate) fn check(&self) -> Result<(), u8> {
        let sides_sound = [Side::Position, Side::Line].into_iter().all(|side| {
            let records = &self.records[side.indices()];
            records.iter().all(|record| record.is_sound_at(side)) && ranks_without_gap(records)
        });
        match sides_sound && calls_differ(&self.records) {
            true => Ok(()),
            false => Err(refusal::TABLE),
        }
    }

    pub fn records(&self) -> &[Record; Table::PLACES] {
        &self.records
    }

    pub(crate) fn find(&self, call: Call) -> Option<usize> {
        self.records.iter().position(|record| record.call == call && record.state != State::Free)
    }

    pub(crate) fn lowest_free(&self, side: Side) -> Option<usize> {
        side.indices().find(|&index| self.records[index].state == State::Free)
    }

    /// The place of the side whose call came first of those that wait there.
    pub(crate) fn longest_waiting(&self, side: Side) -> Option<usize> {
        let waiting = side.indices().filter(|&index| self.records[index].state == side.waiting());
        waiting.min_by_key(|&index| self.records[index].rank)
    }

    /// The rank of the next call that comes to the side: all that are there came before it.
    pub(crate) fn next_rank(&self, side: Side) -> Rank {
        let records = &self.records[side.indices()];
        Rank(1 + records.iter().filter(|record| record.state != State::Free).count() as u8)
    }

    /// Closes the gap that a call of this rank leaves on its side.
    pub(crate) fn drop_ranks_above(&mut self, gone: Rank, side: Side) {
        for record in &mut self.records[side.indices()] {
            record.rank.0 -= u8::from(record.rank > gone);
        }
    }

    /// "Lines, image, status". The 25 of an unsound table comes from `from_records`.
    pub fn status(&self) -> Status {
        let mut status = Status::default();
        for (index, record) in self.records.iter().enumerate() {
            let side = Side::of(index);
            match (record.state, side) {
                (State::Free, Side::Position) => status.free_positions += 1,
                (State::Free, Side::Line) => status.free_lines += 1,
                (state, side) if state == side.waiting() => status.waiting_calls += 1,
                _ => {}
            }
            status.running_timers += side.timers(record.state).count_ones();
        }
        status
    }
}

/// Whether a side's n calls have all of the ranks 1 to n. It is called where each call has a rank above 0 and nothing
/// else has one: then n calls, among which all n ranks are seen, have each of them once.
fn ranks_without_gap(records: &[Record]) -> bool {
    let mut seen = [false; 256];
    let mut calls = 0;
    for record in records {
        seen[usize::from(record.rank.0)] = true;
        calls += usize::from(record.state != State::Free);
    }
    seen[1..=calls].iter().all(|&seen| seen)
}

/// Whether no two occupied places hold the same call. Sorting brings equal calls side by side.
fn calls_differ(records: &[Record; Table::PLACES]) -> bool {
    let mut calls = [0; Table::PLACES];
    let mut taken = 0;
    for record in records {
        // Written always, counted only if taken: no branch that a mixed table would make hard to foresee.
        calls[taken] = record.call.0;
        taken += usize::from(record.state != State::Free);
    }
    let calls = &mut calls[..taken];
    calls.sort_unstable();
    calls.windows(2).all(|pair| pair[0] != pair[1])
}
