//! The program that tries the phones of request Q-7: lines of four fields, which are machine, event, accepted and
//! value, for one phone of each kind; and the line `?`, which asks for the whole table of both machines, and for the
//! values that the house numbers of errors have on the wire.

use std::fmt::{self, Display, Formatter};
use std::io::{self, Read, Write};

use crate::lines::{read_number, read_octet};
use crate::phones::{
    parked_step, parking_step, ErrorValue, ParkedEvent, ParkingEvent, PhoneMessage, PhoneReport, PhoneState,
    PhoneStep, PhoneTimer, Verdict,
};
use crate::table::refusal;

/// The longest line, its line feed not counted.
pub const PHONE_LINE_OCTETS: usize = 17;

/// The events of machine 1 have the numbers from 1 to this one.
pub const PARKING_EVENTS: u8 = 6;
/// And those of machine 2.
pub const PARKED_EVENTS: u8 = 17;

const FIELDS: usize = 4;

/// The line that asks for the table.
const QUESTION: &[u8] = b"?";

/// The machine is not 1 or 2, or has no event of that number.
const NO_SUCH_EVENT: u8 = 1;
/// A request is accepted, 1, or not, 0.
const NEITHER_ACCEPTED_NOR_NOT: u8 = 2;

const HEADER: [&str; 11] = [
    "machine",
    "state",
    "event",
    "accepted",
    "number",
    "state after",
    "message",
    "second message",
    "told",
    "started",
    "stopped",
];

/// The value of every event in the table.
const TABLE_VALUE: u16 = 777;

/// The numbers whose values on the wire stand after the table: those of the house, and the one beyond them.
const HOUSE_NUMBERS: [u8; 4] = [0, 1, 2, 3];

/// What stands in a line.
#[derive(Clone, Copy, PartialEq, Eq, Debug)]
struct PhoneLine {
    machine: u8,
    event: u8,
    accepted: u8,
    value: u16,
}

/// Reads a line without its line feed.
fn read_phone_line(line: &[u8]) -> Result<PhoneLine, u8> {
    if line.len() > PHONE_LINE_OCTETS {
        return Err(refusal::LINE_LENGTH);
    }
    let fields: Vec<&[u8]> = line.split(|&octet| octet == b'\t').collect();
    if fields.len() != FIELDS {
        return Err(refusal::FIELD_COUNT);
    }
    Ok(PhoneLine {
        machine: read_octet(fields[0])?,
        event: read_octet(fields[1])?,
        accepted: read_octet(fields[2])?,
        value: read_number(fields[3])?,
    })
}

#[derive(Clone, Copy, PartialEq, Eq, Debug)]
enum PhoneEvent {
    Parking(ParkingEvent),
    Parked(ParkedEvent),
}

impl PhoneLine {
    fn event(&self) -> Result<PhoneEvent, u8> {
        match self.machine {
            1 => self.parking_event().map(PhoneEvent::Parking),
            2 => self.parked_event().map(PhoneEvent::Parked),
            _ => Err(NO_SUCH_EVENT),
        }
    }

    fn parking_event(&self) -> Result<ParkingEvent, u8> {
        Ok(match self.event {
            1 => ParkingEvent::ParkRequest { accepted: self.verdict()? == Verdict::Accepted },
            2 => ParkingEvent::RequestResult,
            3 => ParkingEvent::RequestError(self.error()),
            4 => ParkingEvent::RequestReject,
            5 => ParkingEvent::PrimaryCleared,
            6 => ParkingEvent::ExpiryOfT1,
            _ => return Err(NO_SUCH_EVENT),
        })
    }

    fn parked_event(&self) -> Result<ParkedEvent, u8> {
        Ok(match self.event {
            1 => ParkedEvent::RequestInvoke(self.verdict()?),
            2 => ParkedEvent::SetupResult,
            3 => ParkedEvent::SetupError(self.error()),
            4 => ParkedEvent::SetupReject,
            5 => ParkedEvent::PrimaryCleared,
            6 => ParkedEvent::ParkedCleared,
            7 => ParkedEvent::PickupInConnect(self.verdict()?),
            8 => ParkedEvent::PickupInFacility(self.verdict()?),
            9 => ParkedEvent::PickExeResult,
            10 => ParkedEvent::PickExeError(self.error()),
            11 => ParkedEvent::PickExeReject,
            12 => ParkedEvent::PickExeErrorInRelease(self.error()),
            13 => ParkedEvent::PickExeRejectInRelease,
            14 => ParkedEvent::PickerCleared,
            15 => ParkedEvent::ConnectAlone,
            16 => ParkedEvent::ExpiryOfT2,
            17 => ParkedEvent::ExpiryOfT10,
            _ => return Err(NO_SUCH_EVENT),
        })
    }

    fn error(&self) -> ErrorValue {
        ErrorValue(self.value)
    }

    fn verdict(&self) -> Result<Verdict, u8> {
        match self.accepted {
            0 => Ok(Verdict::TurnedDown(self.error())),
            1 => Ok(Verdict::Accepted),
            _ => Err(NEITHER_ACCEPTED_NOR_NOT),
        }
    }
}

/// One phone of each kind.
#[derive(Clone, Copy, PartialEq, Eq, Debug)]
pub struct Phones {
    pub parking: PhoneState,
    pub parked: PhoneState,
}

impl Phones {
    pub const IDLE: Phones = Phones { parking: PhoneState::Idle, parked: PhoneState::Idle };

    /// Takes a line without its line feed, and gives what is printed for it.
    pub fn take(&mut self, line: &[u8]) -> String {
        if line == QUESTION {
            return table();
        }
        let answer = match read_phone_line(line) {
            Ok(line) => self.answer(&line),
            Err(number) => PhoneAnswer::refused(number),
        };
        format!("{answer}\n")
    }

    fn answer(&mut self, line: &PhoneLine) -> PhoneAnswer {
        match line.event() {
            Ok(PhoneEvent::Parking(event)) => enter(parking_step(self.parking, event), &mut self.parking),
            Ok(PhoneEvent::Parked(event)) => enter(parked_step(self.parked, event), &mut self.parked),
            Err(number) => PhoneAnswer::refused(number),
        }
    }
}

/// Brings the phone to the state of the step. Without a step it stays where it is.
fn enter(step: Option<PhoneStep>, state: &mut PhoneState) -> PhoneAnswer {
    let number = if step.is_some() { 0 } else { refusal::NO_STEP };
    let step = step.unwrap_or(PhoneStep { state: *state, ..PhoneStep::default() });
    *state = step.state;
    PhoneAnswer { number, step: Some(step) }
}

/// What is printed for an event: the number, and then what the phone does.
struct PhoneAnswer {
    number: u8,
    /// Of a line that is no event, or of one that fits neither machine, there is none.
    step: Option<PhoneStep>,
}

impl PhoneAnswer {
    fn refused(number: u8) -> PhoneAnswer {
        PhoneAnswer { number, step: None }
    }
}

impl Display for PhoneAnswer {
    fn fmt(&self, text: &mut Formatter) -> fmt::Result {
        let step = self.step.unwrap_or_default();
        let fields = [
            self.number.to_string(),
            or_dash(self.step.map(|step| step.state.name())),
            or_dash(step.messages[0]),
            or_dash(step.messages[1]),
            or_dash(step.told),
            or_dash(step.started),
            or_dash(step.stopped),
        ];
        text.write_str(&fields.join("\t"))
    }
}

fn or_dash(field: Option<impl Display>) -> String {
    field.map_or("-".into(), |field| field.to_string())
}

impl Display for PhoneMessage {
    fn fmt(&self, text: &mut Formatter) -> fmt::Result {
        match self {
            PhoneMessage::RequestInvokeInFacility => write!(text, "FACILITY cpRequest Invoke"),
            PhoneMessage::RequestResultInRelease => write!(text, "RELEASE COMPLETE cpRequest Return Result"),
            PhoneMessage::RequestErrorInFacility(value) => {
                write!(text, "FACILITY cpRequest Return Error {}", value.0)
            }
            PhoneMessage::SetupWithInvoke => write!(text, "SETUP cpSetup Invoke"),
            PhoneMessage::PickupResultInFacility => write!(text, "FACILITY pickup Return Result"),
            PhoneMessage::PickupErrorInFacility(value) => {
                write!(text, "FACILITY pickup Return Error {}", value.0)
            }
            PhoneMessage::PickupErrorInRelease(value) => {
                write!(text, "RELEASE COMPLETE pickup Return Error {}", value.0)
            }
            PhoneMessage::SetupWithPickExe => write!(text, "SETUP pickExe Invoke"),
            PhoneMessage::ReleaseOfHeldCall => write!(text, "RELEASE COMPLETE held call"),
            PhoneMessage::ReleaseOfPickersCall => write!(text, "RELEASE COMPLETE picker's call"),
        }
    }
}

impl Display for PhoneReport {
    fn fmt(&self, text: &mut Formatter) -> fmt::Result {
        match self {
            PhoneReport::Rejected => write!(text, "rejected"),
            PhoneReport::Success => write!(text, "success"),
            PhoneReport::Error(value) => write!(text, "error {}", value.0),
        }
    }
}

impl Display for PhoneTimer {
    fn fmt(&self, text: &mut Formatter) -> fmt::Result {
        match self {
            PhoneTimer::T1 => write!(text, "T1"),
            PhoneTimer::T2 => write!(text, "T2"),
            PhoneTimer::T10 => write!(text, "T10"),
        }
    }
}

/// Every event in every state, before it a line that says what stands where, and after it the errors.
fn table() -> String {
    let mut text = format!("{}\n", HEADER.join("\t"));
    for state in PhoneState::PARKING {
        for event in 1..=PARKING_EVENTS {
            add_rows(&mut text, "parking", state, Phones { parking: state, ..Phones::IDLE }, (1, event));
        }
    }
    for state in PhoneState::PARKED {
        for event in 1..=PARKED_EVENTS {
            add_rows(&mut text, "parked", state, Phones { parked: state, ..Phones::IDLE }, (2, event));
        }
    }
    for number in HOUSE_NUMBERS {
        let value = or_dash(ErrorValue::of_house_number(number).map(|value| value.0));
        text.push_str(&format!("error\t{number}\t{value}\n"));
    }
    text
}

/// The two rows of a request, or the one row of another event.
fn add_rows(text: &mut String, name: &str, state: PhoneState, phones: Phones, (machine, event): (u8, u8)) {
    let rows: &[(&str, u8)] = if is_request(machine, event) { &[("1", 1), ("0", 0)] } else { &[("-", 0)] };
    for &(shown, accepted) in rows {
        let mut tried = phones;
        let answer = tried.answer(&PhoneLine { machine, event, accepted, value: TABLE_VALUE });
        text.push_str(&format!("{name}\t{}\t{event}\t{shown}\t{answer}\n", state.name()));
    }
}

/// Whether it matters to the event that it is accepted.
pub fn is_request(machine: u8, event: u8) -> bool {
    matches!((machine, event), (1, 1) | (2, 1 | 7 | 8))
}

/// Answers the lines of the input, both phones being idle at first.
pub fn phone_session(mut input: impl Read, mut output: impl Write) -> io::Result<()> {
    let mut text = Vec::new();
    input.read_to_end(&mut text)?;
    let mut phones = Phones::IDLE;
    for line in text.split_inclusive(|&octet| octet == b'\n') {
        let line = line.strip_suffix(b"\n").unwrap_or(line);
        output.write_all(phones.take(line).as_bytes())?;
    }
    output.flush()
}

#[cfg(test)]
mod tests {
    use super::*;

    fn printed(input: &str) -> String {
        let mut output = Vec::new();
        phone_session(input.as_bytes(), &mut output).expect("memory can be written");
        String::from_utf8(output).expect("only letters, digits and tabs")
    }

    /// The number that begins the last line printed.
    fn last_number(input: &str) -> String {
        let text = printed(input);
        text.lines().last().and_then(|line| line.split('\t').next()).unwrap_or_default().into()
    }

    #[test]
    fn a_park_and_a_remote_pickup() {
        let input = "1\t1\t1\t0\n2\t1\t1\t0\n2\t2\t0\t0\n1\t2\t0\t0\n2\t8\t1\t0\n2\t9\t0\t0\n";
        let output = [
            "0\tCP-Requested\tFACILITY cpRequest Invoke\t-\t-\tT1\t-",
            "0\tCP-SetupRequ\tSETUP cpSetup Invoke\t-\t-\tT2\t-",
            "0\tCP-Idle\tRELEASE COMPLETE cpRequest Return Result\t-\tsuccess\t-\tT2",
            "0\tCP-Idle\t-\t-\tsuccess\t-\tT1",
            "0\tCpickupSetupInit\tFACILITY pickup Return Result\tSETUP pickExe Invoke\t-\tT10\t-",
            "0\tCP-Idle\tRELEASE COMPLETE held call\t-\tsuccess\t-\tT10",
        ];
        let output = output.map(|line| format!("{line}\n")).concat();
        assert_eq!(printed(input), output);
        assert_eq!(printed(input.strip_suffix('\n').unwrap()), output);
    }

    #[test]
    fn the_first_fault_gives_the_number() {
        for (line, number) in [
            ("255\t255\t255\t655350", "21"),
            ("\t\t\t\t\t\t\t\t\t\t\t\t\t\t\t\t\t\t", "21"),
            ("1\t1\t1", "22"),
            ("1\t1\t1\t0\t", "22"),
            ("01\tx\t1", "22"),
            ("??", "22"),
            ("\n", "22"),
            ("1\t1\t1\t", "23"),
            ("1\t01\t1\t0", "23"),
            ("256\t1\t1\t0", "23"),
            ("9\t1\t1\t65536", "23"),
            ("255\t255\t255\t65535", "1"),
            ("0\t1\t1\t0", "1"),
            ("3\t1\t1\t0", "1"),
            ("1\t7\t9\t0", "1"),
            ("2\t18\t9\t0", "1"),
            ("1\t1\t2\t0", "2"),
            ("2\t8\t255\t0", "2"),
            ("2\t9\t255\t0", "33"),
            ("2\t6\t255\t0", "0"),
        ] {
            assert_eq!(last_number(line), number, "{line}");
        }
        assert_eq!(printed("1\t1\t2\t0"), "2\t-\t-\t-\t-\t-\t-\n");
        assert_eq!(printed("1\t6\t2\t0"), "33\tCP-Idle\t-\t-\t-\t-\t-\n");
        assert_eq!(printed(""), "");
    }

    #[test]
    fn a_refused_line_changes_nothing() {
        let pending = "1\t1\t1\t0\n2\t1\t1\t0\n";
        for refused in ["", "?", "x", "1\t6\t0\t", "1\t6\t0\t65536", "0\t6\t0\t0", "1\t1\t2\t0", "1\t5\t0\t0"] {
            let after = printed(&format!("{pending}{refused}\n1\t6\t0\t0\n2\t16\t0\t0\n"));
            assert!(after.contains("\n0\tCP-Idle\t-\t-\terror 2002\t-\tT1\n0\tCP-Idle\tFACILITY cp"), "{refused}");
        }
    }

    #[test]
    fn events_and_requests_are_those_that_read_so() {
        for (machine, events) in [(0, 0), (1, PARKING_EVENTS), (2, PARKED_EVENTS), (3, 0), (255, 0)] {
            for event in 0..=255 {
                let number_of = |accepted| PhoneLine { machine, event, accepted, value: 0 }.event().err();
                let expected = if (1..=events).contains(&event) { None } else { Some(NO_SUCH_EVENT) };
                assert_eq!((number_of(0), number_of(1)), (expected, expected), "{machine} {event}");
                let expected = if is_request(machine, event) { Some(NEITHER_ACCEPTED_NOR_NOT) } else { expected };
                assert_eq!((number_of(2), number_of(255)), (expected, expected), "{machine} {event}");
            }
        }
    }

    #[test]
    fn the_table_has_a_row_for_each_event_in_each_state() {
        let text = printed("?");
        let rows_of = |name: &str| text.lines().filter(|line| line.starts_with(name)).count();
        assert_eq!((rows_of("machine\t"), rows_of("parking\t"), rows_of("parked\t")), (1, 14, 60));
        assert!(text.lines().take(75).all(|line| line.split('\t').count() == HEADER.len()));
        assert_eq!(text.lines().count(), 75 + HOUSE_NUMBERS.len());
    }

    #[test]
    fn the_values_of_the_house_numbers_stand_after_the_table() {
        let text = printed("?");
        let errors: Vec<&str> = text.lines().skip(75).collect();
        assert_eq!(errors, ["error\t0\t-", "error\t1\t2002", "error\t2\t2001", "error\t3\t-"]);
        assert!(text.ends_with('\n'));
    }
}
