//! Event lines with something wrong, or nearly wrong, with them.

use peer::trial::{line_of, Rng};
use peer::{Event, LINE_OCTETS};

#[rustfmt::skip]
pub const NUMBERS: [&[u8]; 58] = [
    b"", b"0", b"9", b"10", b"255", b"256", b"257", b"999", b"1000", b"9999", b"10000", b"65535", b"65536", b"65537",
    b"65540", b"70000", b"99999", b"100000", b"655350", b"4294967295", b"4294967296", b"4294967297",
    b"18446744073709551615", b"18446744073709551616", b"18446744073709551617", b"99999999999999999999999",
    b"00", b"01", b"000", b"007", b"00001", b"065535", b"+1", b"-1", b"+0", b"-0", b" 1", b"1 ", b" ", b"1 1",
    b"a", b"1a", b"a1", b"0x1", b"1.0", b"1e1", b"1_0", b"/", b":", b"1/", b"1:", b"\n", b"1\n", b"\r", b"1\r",
    b"1\0", b"\xff", b"\xc2\xb2",
];

const CALL: &[u8; 32] = b"0123456789abcdef0a1b2c3d4e5f6789";

/// Replaces one field of those between the tabs.
pub fn with_field(line: &[u8], index: usize, text: &[u8]) -> Vec<u8> {
    let mut fields: Vec<_> = line.split(|&octet| octet == b'\t').collect();
    fields[index] = text;
    fields.join(&b'\t')
}

fn bad_calls() -> Vec<Vec<u8>> {
    let mut all: Vec<Vec<u8>> = [0, 1, 30, 31].iter().map(|&length| CALL[..length].to_vec()).collect();
    all.extend([[CALL, &b"0"[..]].concat(), [CALL, &b"00"[..]].concat(), [b" ", &CALL[..]].concat()]);
    all.extend([CALL.to_ascii_uppercase(), [b"0x", &CALL[2..]].concat()]);
    for wrong in *b"/:`g@AFG \n\r\0+-.\x80\xe1\xff" {
        for at in [0, 1, 15, 16, 30, 31] {
            all.push(CALL.to_vec());
            all.last_mut().expect("just pushed")[at] = wrong;
        }
    }
    all
}

/// Everything that is tried at each of the fields, tabs and lengths of a good line.
pub fn systematic(event: &Event) -> Vec<Vec<u8>> {
    let good = line_of(event);
    let mut all: Vec<Vec<u8>> = bad_calls().iter().map(|call| with_field(&good, 1, call)).collect();
    for index in [0, 2, 3, 4, 5, 6] {
        all.extend(NUMBERS.iter().map(|text| with_field(&good, index, text)));
    }
    let tabs = || good.iter().enumerate().filter(|(_, octet)| **octet == b'\t').map(|(at, _)| at);
    for at in tabs() {
        for instead in [&b""[..], b"\t\t", b" ", b"\n", b",", b"\0", b"\t ", b" \t"] {
            all.push([&good[..at], instead, &good[at + 1..]].concat());
        }
    }
    for around in [&b"\t"[..], b" ", b"\n", b"\r", b"\0", b"\xef\xbb\xbf"] {
        all.extend([[around, &good].concat(), [&good, around].concat()]);
    }
    for excess in [200, 256, 65_536] {
        all.extend([[&good[..], &vec![b'0'; excess]].concat(), vec![b'\t'; excess + good.len()]]);
    }
    let longest = with_field(b"255\t\t65535\t255\t65535\t65535\t255", 1, CALL);
    assert_eq!(longest.len(), LINE_OCTETS);
    for length in 0..=70 {
        for pad in *b"01f \t\n\xff" {
            all.push(vec![pad; length]);
            for line in [&good, &longest] {
                let mut line = line.clone();
                line.resize(length, pad);
                all.push(line);
            }
        }
        // All of the excess in one field, so that only the length tells this line from one with a bad field.
        for index in 0..7 {
            let field = good.split(|&octet| octet == b'\t').nth(index).expect("seven fields");
            let wanted = (field.len() + length).saturating_sub(good.len());
            all.push(with_field(&good, index, &vec![b'1'; wanted]));
        }
    }
    all
}

/// Lines of each length, and some far too long, that have nothing to do with an event.
pub fn of_each_length(rng: &mut Rng) -> Vec<Vec<u8>> {
    let lengths = (0..=70).chain([1_000, 65_600]);
    lengths.flat_map(|length| [(0..length).map(|_| rng.octet()).collect(), vec![b'\t'; length]]).collect()
}

/// One random damage, or two.
pub fn random(rng: &mut Rng, event: &Event) -> Vec<u8> {
    const ALPHABET: &[u8] = b"0123456789abcdef\t\t\t\t";
    let mut line = line_of(event);
    let at = rng.below(line.len());
    match rng.below(9) {
        0 => line[at] = rng.octet(),
        1 => line[at] = rng.one_of(ALPHABET),
        2 => line[at] ^= 1 << rng.below(8),
        3 => line.insert(at, rng.octet()),
        4 => line.insert(at, rng.one_of(ALPHABET)),
        5 => drop(line.remove(at)),
        6 => return (0..rng.below(71)).map(|_| rng.octet()).collect(),
        7 => return (0..rng.below(71)).map(|_| rng.one_of(ALPHABET)).collect(),
        _ => {
            let (number, calls) = (rng.one_of(&[0, 2, 3, 4, 5, 6]), bad_calls());
            let other = rng.one_of(&[0, 2, 3, 4, 5, 6]);
            line = with_field(&line, number, rng.one_of(&NUMBERS));
            line = match rng.percent(50) {
                true => with_field(&line, 1, &calls[rng.below(calls.len())]),
                false => with_field(&line, other, rng.one_of(&NUMBERS)),
            };
        }
    }
    line
}
