//! One event, one answer ("Events" and "Refusal numbers", and requests ).

use crate::table::{refusal, Call, Connection, Invoke, Place, Record, Side, State, Table};

#[derive(Clone, Copy, PartialEq, Eq, Debug, Default)]
pub struct Event {
    pub kind: u8,
    pub call: Call,
    pub place: Place,
    pub choice: u8,
    pub connection: Connection,
    pub invoke: Invoke,
    pub timer: u8,
}

#[derive(Clone, Copy, PartialEq, Eq, Debug, Default)]
#[repr(u8)]
pub enum MessageNumber {
    #[default]
    None,
    CpSetupResult,
    CpSetupError,
    ConnectWithPickup,
    FacilityWithPickup,
    PickrequResult,
    PickrequError,
    ReleaseComplete,
}

#[derive(Clone, Copy, PartialEq, Eq, Debug, Default)]
#[repr(u8)]
pub enum ErrorNumber {
    #[default]
    None,
    Undefined,
    CallAlreadyPickedUp,
}

/// One message with what it carries.
#[derive(Clone, Copy, PartialEq, Eq, Debug, Default)]
pub struct Message {
    pub number: MessageNumber,
    pub connection: Connection,
    pub invoke: Invoke,
    pub error: ErrorNumber,
}

#[derive(Clone, Copy, PartialEq, Eq, Debug, Default)]
pub struct Answer {
    pub number: u8,
    pub call: Call,
    pub place: Place,
    pub state: State,
    /// In the order in which they are sent; where there is only one, it is the first.
    pub messages: [Message; 2],
    pub started: u8,
    pub stopped: u8,
}

/// Takes one event. A refused event leaves the table as it was.
pub fn step(table: &mut Table, event: &Event) -> Answer {
    let done = match event.kind {
        1 => enter(table, event, Side::Position, MessageNumber::CpSetupResult),
        2 => enter(table, event, Side::Line, MessageNumber::None),
        3 | 4 => pick_up(table, event),
        5 | 6 => answer_to_pickup(table, event),
        7 | 8 => release_complete(table, event),
        9 => answered(table, event),
        10 => expiry(table, event),
        _ => Err(refusal::KIND),
    };
    done.unwrap_or_else(|number| refused(event, number))
}

/// What an answer holds beside its number when the event is refused.
fn refused(event: &Event, number: u8) -> Answer {
    let message = match (event.kind, number) {
        (1, refusal::CALL_PRESENT | refusal::NO_FREE_PLACE) => {
            Message { number: MessageNumber::CpSetupError, error: ErrorNumber::Undefined, ..Message::default() }
        }
        (4, refusal::CHOICE_OR_TIMER | refusal::CALL_ABSENT | refusal::NOTHING_WAITS) => {
            pickrequ_error(event.connection, ErrorNumber::Undefined)
        }
        // Why the call is taken is told by the number alone; the wire has one error for all three.
        (4, refusal::PICKUP_REQUESTED | refusal::REMOTE_PICKUP_REQUESTED | refusal::HANDED_OVER) => {
            pickrequ_error(event.connection, ErrorNumber::CallAlreadyPickedUp)
        }
        _ => Message::default(),
    };
    Answer { number, messages: [message, Message::default()], ..Answer::default() }
}

fn pickrequ_error(connection: Connection, error: ErrorNumber) -> Message {
    Message { number: MessageNumber::PickrequError, connection, error, ..Message::default() }
}

/// A message of an accepted event: the picker's connection is the one before the event, the count that after it.
fn message(number: MessageNumber, before: &Record, after: &Record) -> Message {
    let bare = Message { number, ..Message::default() };
    match number {
        MessageNumber::ConnectWithPickup | MessageNumber::FacilityWithPickup => {
            Message { invoke: after.count, ..bare }
        }
        MessageNumber::PickrequResult => Message { connection: before.connection, ..bare },
        MessageNumber::PickrequError => pickrequ_error(before.connection, ErrorNumber::Undefined),
        _ => bare,
    }
}

/// Puts a record in its place. Every accepted event ends here, so the fields of its answer have one source.
fn replace(table: &mut Table, index: usize, after: Record, messages: [MessageNumber; 2]) -> Answer {
    let before = std::mem::replace(&mut table.records[index], after);
    let stay = if before.state == State::Free { &after } else { &before };
    let (was, is) = (Side::of(index).timers(before.state), Side::of(index).timers(after.state));
    Answer {
        number: 0,
        call: stay.call,
        place: Place(index as u16 + 1),
        state: after.state,
        messages: messages.map(|number| message(number, &before, &after)),
        started: is & !was,
        stopped: was & !is,
    }
}

/// The call is held after the event: one message at the most.
fn hold(table: &mut Table, index: usize, after: Record, message: MessageNumber) -> Answer {
    replace(table, index, after, [message, MessageNumber::None])
}

/// The call is gone. A picker who waited for it is told after all else, and whoever came after it moves up.
fn free(table: &mut Table, index: usize, message: MessageNumber) -> Answer {
    let Record { state, rank, .. } = table.records[index];
    let picker_waits = state == State::CpickupRemoteRequested;
    let messages = match (picker_waits, message) {
        (false, _) => [message, MessageNumber::None],
        (true, MessageNumber::None) => [MessageNumber::PickrequError, MessageNumber::None],
        (true, _) => [message, MessageNumber::PickrequError],
    };
    let answer = replace(table, index, Record::FREE, messages);
    table.drop_ranks_above(rank, Side::of(index));
    answer
}

/// Ends a remote pickup that failed: the call waits again, with the rank that it had, and its picker is told.
fn wait_again(table: &mut Table, index: usize) -> Answer {
    let state = Side::of(index).waiting();
    let after = Record { state, connection: Connection(0), ..table.records[index] };
    hold(table, index, after, MessageNumber::PickrequError)
}

/// Kinds 1 and 2.
fn enter(table: &mut Table, event: &Event, side: Side, message: MessageNumber) -> Result<Answer, u8> {
    if table.find(event.call).is_some() {
        return Err(refusal::CALL_PRESENT);
    }
    let proposed = usize::from(event.place.0).checked_sub(1);
    let index = proposed
        .filter(|index| side.indices().contains(index) && table.records[*index].state == State::Free)
        .or_else(|| table.lowest_free(side))
        .ok_or(refusal::NO_FREE_PLACE)?;
    let rank = table.next_rank(side);
    let after = Record { state: side.waiting(), call: event.call, rank, ..Record::FREE };
    Ok(hold(table, index, after, message))
}

/// Kinds 3 and 4. A call that does not wait can only have been asked for by name.
fn pick_up(table: &mut Table, event: &Event) -> Result<Answer, u8> {
    let longest_waiting = |side: Side| table.longest_waiting(side).ok_or(refusal::NOTHING_WAITS);
    let index = match event.choice {
        0 => present(table, event)?,
        1 => longest_waiting(Side::Position)?,
        2 => longest_waiting(Side::Line)?,
        _ => return Err(refusal::CHOICE_OR_TIMER),
    };
    let record = table.records[index];
    match record.state {
        State::CpickupRequested => return Err(refusal::PICKUP_REQUESTED),
        State::CpickupRemoteRequested => return Err(refusal::REMOTE_PICKUP_REQUESTED),
        State::HandedOver => return Err(refusal::HANDED_OVER),
        State::Free | State::CpWaitForPickup | State::WaitForPickup => {}
    }
    let count = Invoke(record.count.0.wrapping_add(1));
    let (state, connection, message) = match event.kind {
        3 => (State::CpickupRequested, Connection(0), MessageNumber::ConnectWithPickup),
        _ => (State::CpickupRemoteRequested, event.connection, MessageNumber::FacilityWithPickup),
    };
    Ok(hold(table, index, Record { state, connection, count, ..record }, message))
}

/// Kinds 5 and 6. The call finds the place, never the position: a place may have been used again.
fn answer_to_pickup(table: &mut Table, event: &Event) -> Result<Answer, u8> {
    let index = present(table, event)?;
    let record = table.records[index];
    let remote = match record.state {
        State::CpickupRequested => false,
        State::CpickupRemoteRequested => true,
        _ => return Err(refusal::STATE),
    };
    if event.invoke != record.count {
        return Err(refusal::INVOKE);
    }
    Ok(match (event.kind, remote) {
        (5, false) => free(table, index, MessageNumber::None),
        (5, true) => {
            let after = Record { state: State::HandedOver, connection: Connection(0), ..record };
            hold(table, index, after, MessageNumber::PickrequResult)
        }
        (_, false) => free(table, index, MessageNumber::ReleaseComplete),
        (_, true) => wait_again(table, index),
    })
}

/// Kinds 7 and 8: the call is gone, whatever its state, and whatever the error inside the release has to say.
fn release_complete(table: &mut Table, event: &Event) -> Result<Answer, u8> {
    let index = present(table, event)?;
    Ok(free(table, index, MessageNumber::None))
}

/// Kind 9.
fn answered(table: &mut Table, event: &Event) -> Result<Answer, u8> {
    let index = present(table, event)?;
    match table.records[index].state {
        State::WaitForPickup => Ok(free(table, index, MessageNumber::None)),
        _ => Err(refusal::STATE),
    }
}

/// Kind 10. T9 runs only in state 4, so its expiry needs no further look at the state.
fn expiry(table: &mut Table, event: &Event) -> Result<Answer, u8> {
    let bit = match event.timer {
        3 => 1,
        6 => 2,
        9 => 4,
        _ => return Err(refusal::CHOICE_OR_TIMER),
    };
    let index = present(table, event)?;
    if Side::of(index).timers(table.records[index].state) & bit == 0 {
        return Err(refusal::TIMER_STOPPED);
    }
    Ok(match event.timer {
        9 => wait_again(table, index),
        _ => free(table, index, MessageNumber::ReleaseComplete),
    })
}

fn present(table: &Table, event: &Event) -> Result<usize, u8> {
    table.find(event.call).ok_or(refusal::CALL_ABSENT)
}
