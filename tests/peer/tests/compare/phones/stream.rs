//! Random lines that follow the phones they act on, so that many are accepted; and among them bad ones.

use peer::trial::Rng;
use peer::{is_request, PhoneState, Phones, PARKED_EVENTS, PARKING_EVENTS};

use super::tally::Tally;
use super::{lines_of, without_feed};
use crate::damage::{with_field, NUMBERS};

/// How many of a hundred lines are bad, or may be.
const BAD_PERCENT: usize = 15;
/// How many of a hundred others have an event for which the state has a step.
const FITTING_PERCENT: usize = 40;
/// How many of a hundred are for the parking phone, which has fewer events.
const PARKING_PERCENT: usize = 30;

/// So many lines, each with its feed.
pub fn random(seed: u64, lines: usize, tally: &mut Tally) -> Vec<u8> {
    let (mut rng, mut phones, mut text) = (Rng::new(seed), Phones::IDLE, Vec::new());
    let mut made = 0;
    while made < lines {
        let drawn = [&random_line(&mut rng, &phones)[..], b"\n"].concat();
        // A bad line may have a feed inside, and then is two.
        for line in lines_of(&drawn).take(lines - made) {
            let before = phones;
            let answer = phones.take(without_feed(line));
            tally.note(&before, without_feed(line), &answer);
            text.extend(line);
            made += 1;
        }
    }
    text
}

fn random_line(rng: &mut Rng, phones: &Phones) -> Vec<u8> {
    if rng.below(1_000) == 0 {
        return b"?".to_vec();
    }
    let (machine, event) = random_event(rng, phones);
    let accepted = if is_request(machine, event) { rng.octet() % 2 } else { rng.octet() };
    let value = random_value(rng);
    let line = format!("{machine}\t{event}\t{accepted}\t{value}").into_bytes();
    if rng.percent(BAD_PERCENT) {
        bad(rng, line)
    } else {
        line
    }
}

fn random_event(rng: &mut Rng, phones: &Phones) -> (u8, u8) {
    let fits = rng.percent(FITTING_PERCENT);
    if rng.percent(PARKING_PERCENT) {
        let any = 1 + rng.octet() % PARKING_EVENTS;
        (1, if fits { rng.one_of(fitting_parking(phones.parking)) } else { any })
    } else {
        let any = 1 + rng.octet() % PARKED_EVENTS;
        (2, if fits { rng.one_of(fitting_parked(phones.parked)) } else { any })
    }
}

/// These only guide the draw; whether the clause names a step for them is for the machines to say.
fn fitting_parking(state: PhoneState) -> &'static [u8] {
    match state {
        PhoneState::Requested => &[2, 3, 4, 6],
        _ => &[1],
    }
}

fn fitting_parked(state: PhoneState) -> &'static [u8] {
    match state {
        PhoneState::SetupRequ => &[2, 3, 4, 5, 6, 16],
        PhoneState::PickupSetupInit => &[9, 10, 11, 12, 13, 17],
        _ => &[1, 1, 6, 7, 8, 8],
    }
}

fn random_value(rng: &mut Rng) -> u16 {
    let any = rng.number();
    rng.one_of(&[0, 1, 9, 10, 777, 2_000, 2_001, 2_002, 9_999, 10_000, 65_535, any, any, any])
}

/// The line with something wrong, or nearly wrong, with it.
fn bad(rng: &mut Rng, mut line: Vec<u8>) -> Vec<u8> {
    let at = rng.below(line.len());
    let any = rng.octet();
    let octet = rng.one_of(&[b'0', b'1', b'9', b'\t', b'\t', b'?', b' ', b'\n', any]);
    let number = rng.octet().to_string().into_bytes();
    match rng.below(10) {
        0 => line[at] = octet,
        1 => line.insert(at, octet),
        2 => drop(line.remove(at)),
        3 => line.extend(b"\t0"),
        4 => line.truncate(at),
        5 => line = with_field(&line, rng.below(4), rng.one_of(&NUMBERS)),
        // Another machine, another event, or another word on whether it is accepted.
        6 | 7 => line = with_field(&line, rng.below(3), &number),
        // Both sides of the limit.
        8 => line.resize(rng.one_of(&[16, 17, 18, 19]), b'1'),
        _ => line = (0..rng.below(24)).map(|_| rng.octet()).collect(),
    }
    line
}
