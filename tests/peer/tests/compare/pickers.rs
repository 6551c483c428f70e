//! What request Q-1 is for, tried on the peer's own runs: whoever asks for a call from elsewhere is told once how that
//! ended, with the error that request Q-3 keeps for it, and is told nothing else.

use peer::{Answer, Connection, ErrorNumber, Invoke, Message, MessageNumber, State, Table};

use crate::document::TAKEN;
use crate::fail;
use crate::runs::{self, Step};

/// The messages of a program that has one slip, for seeing that the check notices it; most are those of the step.
type Slip = fn(&Step) -> [Message; 2];

const SLIPS: [(Slip, &str); 8] = [
    (release_untold, "a release in state 4 without a message, as before Q-1"),
    (second_dropped, "the second message dropped"),
    (told_in_state_5, "a message to the picker in state 5"),
    (told_twice, "the message to the picker sent twice"),
    (other_connection, "the message sent on another connection"),
    (result_for_error, "a result where the pickup failed"),
    (undefined_with_12, "error 1 where the call is handed over already"),
    (taken_for_all, "error 2 for every error"),
];

pub fn run() {
    let (mut tried, mut told, mut told_second) = (0, 0, 0);
    let mut noticed = [0; SLIPS.len()];
    for run in runs::all() {
        if !each_told_once(&run.steps, |step| step.answer.messages) {
            fail(&format!("pickers, seed {}: one is not told once and rightly, or another is told", run.seed));
        }
        for (count, (slip, name)) in noticed.iter_mut().zip(SLIPS) {
            let changed = run.steps.iter().any(|step| slip(step) != step.answer.messages);
            if changed && each_told_once(&run.steps, slip) {
                fail(&format!("pickers, seed {}: the slip is not noticed: {name}", run.seed));
            }
            *count += usize::from(changed);
        }
        for step in &run.steps {
            let [first, second] = step.answer.messages.map(|message| usize::from(is_for_picker(&message)));
            told += first + second;
            told_second += second;
        }
        tried += run.steps.len();
    }
    let runs = runs::RUNS;
    println!("pickers: {runs} runs, {tried} events, {told} messages to pickers, {told_second} of them second");
    runs::demand_noticed(noticed.into_iter().zip(SLIPS.map(|(_, name)| name)));
}

fn is_for_picker(message: &Message) -> bool {
    matches!(message.number, MessageNumber::PickrequResult | MessageNumber::PickrequError)
}

/// Whether every pickrequ is replied to once on the connection that it came on, and nothing else goes to a picker. The
/// reply to a refused one is an error at once, which says whether the call is taken. Any other has its reply when the
/// place leaves state 4: a result where the call is handed over, otherwise an error.
fn each_told_once(steps: &[Step], messages_of: impl Fn(&Step) -> [Message; 2]) -> bool {
    let mut waiting: [Option<Connection>; Table::PLACES] = [None; Table::PLACES];
    steps.iter().all(|step| {
        let Step { event, answer, .. } = step;
        let picker = Some(event.connection);
        let owed = match answer.number {
            0 => {
                let waits = picker.filter(|_| answer.state == State::CpickupRemoteRequested);
                std::mem::replace(&mut waiting[usize::from(answer.place.0) - 1], waits)
            }
            _ => picker.filter(|_| event.kind == 4),
        };
        let (number, error) = match answer.state {
            State::HandedOver => (MessageNumber::PickrequResult, ErrorNumber::None),
            _ if is_taken(answer) => (MessageNumber::PickrequError, ErrorNumber::CallAlreadyPickedUp),
            _ => (MessageNumber::PickrequError, ErrorNumber::Undefined),
        };
        let reply = owed.map(|connection| Message { number, connection, invoke: Invoke(0), error });
        messages_of(step).into_iter().filter(is_for_picker).eq(reply)
    })
}

fn is_taken(answer: &Answer) -> bool {
    TAKEN.iter().any(|(_, number)| *number == answer.number)
}

/// Document 01 told the picker of an error inside the release only, and only if it had the outstanding number.
fn release_untold(Step { before, event, answer }: &Step) -> [Message; 2] {
    let plain = event.kind == 8 || event.kind == 7 && event.invoke != before.count;
    match plain && before.state == State::CpickupRemoteRequested {
        true => [Message::default(); 2],
        false => answer.messages,
    }
}

fn second_dropped(step: &Step) -> [Message; 2] {
    [step.answer.messages[0], Message::default()]
}

fn told_in_state_5(Step { before, answer, .. }: &Step) -> [Message; 2] {
    let error = Message { number: MessageNumber::PickrequError, ..Message::default() };
    match answer.messages {
        messages if before.state != State::HandedOver => messages,
        [first, _] if first == Message::default() => [error, first],
        [first, _] => [first, error],
    }
}

fn told_twice(step: &Step) -> [Message; 2] {
    match step.answer.messages {
        [first, _] if is_for_picker(&first) => [first; 2],
        messages => messages,
    }
}

fn other_connection(step: &Step) -> [Message; 2] {
    for_picker(step, |Message { connection, .. }| connection.0 = connection.0.wrapping_add(1))
}

fn result_for_error(step: &Step) -> [Message; 2] {
    for_picker(step, |message| message.number = MessageNumber::PickrequResult)
}

fn undefined_with_12(step: &Step) -> [Message; 2] {
    match step.answer.number {
        12 => for_picker(step, |message| message.error = ErrorNumber::Undefined),
        _ => step.answer.messages,
    }
}

fn taken_for_all(step: &Step) -> [Message; 2] {
    for_picker(step, |message| {
        if message.number == MessageNumber::PickrequError {
            message.error = ErrorNumber::CallAlreadyPickedUp;
        }
    })
}

fn for_picker(step: &Step, change: fn(&mut Message)) -> [Message; 2] {
    let mut messages = step.answer.messages;
    messages.iter_mut().filter(|message| is_for_picker(message)).for_each(change);
    messages
}
