//! Lines that are tried one by one: every event in every state of both phones, and what a line can have wrong with it.

use peer::{PhoneState, Phones, PARKED_EVENTS, PARKING_EVENTS, PHONE_LINE_OCTETS};

use super::without_feed;
use crate::damage::{with_field, NUMBERS};
use crate::fail;

/// The first two are those that a request may have.
const ACCEPTED: [u8; 4] = [0, 1, 2, 255];
const VALUES: [u16; 6] = [0, 2_000, 2_001, 2_002, 777, 65_535];

/// The line that brings an idle phone to the state.
fn line_to(state: PhoneState) -> &'static str {
    match state {
        PhoneState::Idle => "",
        PhoneState::Requested => "1\t1\t1\t0\n",
        PhoneState::SetupRequ => "2\t1\t1\t0\n",
        PhoneState::PickupSetupInit => "2\t8\t1\t0\n",
    }
}

/// The line that brings a phone from the state back to CP-Idle: the expiry of its timer.
fn line_from(state: PhoneState) -> &'static str {
    match state {
        PhoneState::Idle => "",
        PhoneState::Requested => "1\t6\t0\t0\n",
        PhoneState::SetupRequ => "2\t16\t0\t0\n",
        PhoneState::PickupSetupInit => "2\t17\t0\t0\n",
    }
}

/// A stream in the making, and the phones after it.
struct Text {
    octets: Vec<u8>,
    phones: Phones,
}

impl Text {
    fn new() -> Text {
        Text { octets: Vec::new(), phones: Phones::IDLE }
    }

    /// Adds lines, each with its feed.
    fn add(&mut self, lines: &[u8]) {
        for line in super::lines_of(lines) {
            self.phones.take(without_feed(line));
        }
        self.octets.extend(lines);
    }

    /// Brings the idle phones to these states, adds the line, and brings them back.
    fn add_in(&mut self, states: Phones, line: &[u8]) {
        self.add(line_to(states.parking).as_bytes());
        self.add(line_to(states.parked).as_bytes());
        if self.phones != states {
            fail(&format!("phones: {:?} where {states:?} was wanted", self.phones));
        }
        self.add(&[line, b"\n"].concat());
        self.add(line_from(self.phones.parking).as_bytes());
        self.add(line_from(self.phones.parked).as_bytes());
        if self.phones != Phones::IDLE {
            fail(&format!("phones: {:?} where both should be idle", self.phones));
        }
    }
}

/// Both phones in each of their states.
fn all_states() -> Vec<Phones> {
    let with = |parking| PhoneState::PARKED.map(|parked| Phones { parking, parked });
    PhoneState::PARKING.into_iter().flat_map(with).collect()
}

/// The events of both machines, and the numbers just beside them.
pub fn every_event_in_every_state() -> Vec<u8> {
    let parking = (0..=PARKING_EVENTS + 1).map(|event| (1, event));
    let parked = (0..=PARKED_EVENTS + 1).map(|event| (2, event));
    let events: Vec<(u8, u8)> = parking.chain(parked).collect();
    let mut text = Text::new();
    for states in all_states() {
        for (machine, event) in &events {
            for accepted in ACCEPTED {
                for value in VALUES {
                    text.add_in(states, format!("{machine}\t{event}\t{accepted}\t{value}").as_bytes());
                }
            }
        }
    }
    text.octets
}

/// Every number as a machine, as an event and as accepted.
fn every_number() -> Vec<u8> {
    let mut text = Text::new();
    for number in 0..=255 {
        for states in all_states() {
            for fields in ["_\t1\t1\t777", "1\t_\t1\t777", "2\t_\t0\t777", "2\t8\t_\t777", "2\t17\t_\t777"] {
                text.add_in(states, fields.replace('_', &number.to_string()).as_bytes());
            }
        }
    }
    text.octets
}

/// Lines that would all be accepted in one state or another.
const GOOD: [&[u8]; 4] = [b"1\t1\t1\t777", b"1\t3\t255\t65535", b"2\t1\t0\t2001", b"2\t10\t0\t2000"];

/// Something else in each of the fields.
fn other_fields() -> Vec<u8> {
    let mut text = Text::new();
    for states in all_states() {
        for good in GOOD {
            for index in 0..4 {
                for number in NUMBERS {
                    text.add_in(states, &with_field(good, index, number));
                }
            }
        }
    }
    text.octets
}

/// Something else in place of each tab, and around the line.
fn other_tabs() -> Vec<u8> {
    let mut text = Text::new();
    for good in GOOD {
        let tabs = (0..good.len()).filter(|&at| good[at] == b'\t');
        for at in tabs {
            for instead in [&b""[..], b"\t\t", b" ", b"\n", b",", b"\0", b"\t ", b" \t"] {
                text.add_in(PENDING, &[&good[..at], instead, &good[at + 1..]].concat());
            }
        }
        for around in [&b"\t"[..], b" ", b"\n", b"\r", b"\0", b"?", b"\xef\xbb\xbf"] {
            text.add_in(PENDING, &[around, good].concat());
            text.add_in(PENDING, &[good, around].concat());
        }
    }
    text.octets
}

const PENDING: Phones = Phones { parking: PhoneState::Requested, parked: PhoneState::PickupSetupInit };

/// Lines of each length, of which some have four fields and only their length is wrong.
fn every_length() -> Vec<u8> {
    let mut text = Text::new();
    for length in (0..=40).chain([255, 256, 257, 65_536]) {
        for pad in *b"01 \t?\xff" {
            text.add_in(PENDING, &vec![pad; length]);
        }
        for good in [&b"1\t6\t0\t"[..], b"255\t255\t255\t65535", b"2\t17\t0\t0\t"] {
            let mut line = good.to_vec();
            line.resize(length, b'1');
            text.add_in(PENDING, &line);
        }
    }
    let longest = b"255\t255\t255\t65535";
    assert_eq!(longest.len(), PHONE_LINE_OCTETS);
    for index in 0..4 {
        text.add_in(PENDING, &with_field(longest, index, b"655350"));
    }
    text.octets
}

/// Every octet as a line, and as each octet of a good one, but for the feed.
fn every_octet() -> Vec<u8> {
    let mut text = Text::new();
    for octet in (0..=255).filter(|&octet| octet != b'\n') {
        text.add_in(PENDING, &[octet]);
        for at in 0..b"1\t6\t0\t777".len() {
            let mut line = b"1\t6\t0\t777".to_vec();
            line[at] = octet;
            text.add_in(PENDING, &line);
        }
    }
    text.octets
}

/// The table, asked for in every state of the phones, and lines that nearly ask for it.
fn questions() -> Vec<u8> {
    let mut text = Text::new();
    for states in all_states() {
        for line in [&b"?"[..], b"??", b" ?", b"? ", b"?\r", b"?\t", b"\t?", b"?\t?\t?\t?", b"?\n?", b"!", b"\0?"] {
            text.add_in(states, line);
        }
    }
    text.octets
}

pub fn edges() -> Vec<(&'static str, Vec<u8>)> {
    let long = |octet: u8| vec![octet; 400_000];
    let pending = b"1\t1\t1\t0\n2\t1\t1\t0\n";
    vec![
        ("nothing", vec![]),
        ("one feed", b"\n".to_vec()),
        ("only feeds", vec![b'\n'; 5_000]),
        ("empty lines between", b"1\t1\t1\t0\n\n\n1\t6\t0\t0\n\n".to_vec()),
        ("last feed missing, accepted", b"1\t1\t1\t0\n1\t3\t0\t65535".to_vec()),
        ("last feed missing, no step", b"1\t1\t1\t0\n1\t5\t0\t0".to_vec()),
        ("last feed missing, refused", b"1\t1\t1\t0\n1\t5\t0".to_vec()),
        ("last feed missing, table", b"2\t8\t1\t0\n?".to_vec()),
        ("last feed missing, one octet", b"1".to_vec()),
        ("last feed missing, too long", [&pending[..], &[b'7'; 18]].concat()),
        ("carriage returns", b"1\t1\t1\t0\r\n?\r\n1\t6\t0\t0\r\n\r\n".to_vec()),
        ("long lines", [&pending[..], &long(b'1'), b"\n1\t6\t0\t0\n", &long(b'\t'), b"\n2\t16\t0\t0\n"].concat()),
        ("good line with a long tail", [&pending[..], b"1\t6\t0\t0", &long(b'0'), b"\n1\t6\t0\t0\n"].concat()),
        ("long last line, feed missing", [&pending[..], &long(b'?')].concat()),
        ("questions", questions()),
        ("every number", every_number()),
        ("other fields", other_fields()),
        ("other tabs", other_tabs()),
        ("every length", every_length()),
        ("every octet", every_octet()),
    ]
}
