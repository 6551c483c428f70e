//! The house text lines ("Lines, image, status"), the query on a line (request Q-3), and the program around them
//! ("One session in full").

use std::io::{self, BufRead, BufReader, Read, Write};

use crate::machine::{step, Answer, Event, Message};
use crate::table::{refusal, Call, Connection, Invoke, Place, Table};

/// The longest event line, its line feed not counted.
pub const LINE_OCTETS: usize = 62;
/// No answer line is longer, its line feed counted.
pub const ANSWER_OCTETS: usize = 77;

const FIELDS: usize = 7;

/// Parts a line that is not too long into its seven fields.
fn fields_of(line: &[u8]) -> Result<impl Iterator<Item = &[u8]>, u8> {
    if line.len() > LINE_OCTETS {
        return Err(refusal::LINE_LENGTH);
    }
    if line.iter().filter(|&&octet| octet == b'\t').count() != FIELDS - 1 {
        return Err(refusal::FIELD_COUNT);
    }
    Ok(line.split(|&octet| octet == b'\t'))
}

/// Reads an event line without its line feed.
pub fn read_line(line: &[u8]) -> Result<Event, u8> {
    let mut fields = fields_of(line)?;
    let mut next = || fields.next().unwrap_or_default();
    Ok(Event {
        kind: read_octet(next())?,
        call: read_call(next())?,
        place: Place(read_number(next())?),
        choice: read_octet(next())?,
        connection: Connection(read_number(next())?),
        invoke: Invoke(read_number(next())?),
        timer: read_octet(next())?,
    })
}

/// A number from 0 to 65,535.
pub(crate) fn read_number(field: &[u8]) -> Result<u16, u8> {
    let form_is_good = match field {
        [b'0'] => true,
        [b'1'..=b'9', rest @ ..] => rest.len() < 5 && rest.iter().all(u8::is_ascii_digit),
        _ => false,
    };
    if !form_is_good {
        return Err(refusal::NUMBER_FIELD);
    }
    let value = field.iter().fold(0, |value: u32, digit| 10 * value + u32::from(digit - b'0'));
    value.try_into().map_err(|_| refusal::NUMBER_FIELD)
}

/// A number from 0 to 255.
pub(crate) fn read_octet(field: &[u8]) -> Result<u8, u8> {
    read_number(field)?.try_into().map_err(|_| refusal::NUMBER_FIELD)
}

fn read_call(field: &[u8]) -> Result<Call, u8> {
    if field.len() != 32 {
        return Err(refusal::CALL_FIELD);
    }
    let mut octets = [0; 16];
    let mut worst = 0;
    for (octet, pair) in octets.iter_mut().zip(field.chunks_exact(2)) {
        let (high, low) = (NIBBLE[usize::from(pair[0])], NIBBLE[usize::from(pair[1])]);
        worst |= high | low;
        *octet = high << 4 | low;
    }
    match worst {
        0..=15 => Ok(Call(u128::from_be_bytes(octets))),
        _ => Err(refusal::CALL_FIELD),
    }
}

const DIGITS: &[u8; 16] = b"0123456789abcdef";

/// What each octet is worth as a lowercase hexadecimal digit; 255 where it is none.
const NIBBLE: [u8; 256] = {
    let mut worth = [255; 256];
    let mut digit = 0;
    while digit < 16 {
        worth[DIGITS[digit] as usize] = digit as u8;
        digit += 1;
    }
    worth
};

/// What a field of the event line may be. The query needs no values, so it is written without the readers above, and
/// the tests hold it against them.
enum Form {
    Call,
    /// A number up to this one, which stands here as the line would have it.
    Number(&'static [u8]),
}

impl Form {
    /// Looks at the text alone: without leading zeros the longer number is the greater one, and numbers of one length
    /// have the order of their texts.
    fn fits(&self, field: &[u8]) -> bool {
        match *self {
            Form::Call => field.len() == 32 && field.iter().all(|octet| DIGITS.contains(octet)),
            Form::Number(greatest) => {
                let is_decimal = !field.is_empty() && field.iter().all(u8::is_ascii_digit);
                let is_shortest = field == b"0" || !field.starts_with(b"0");
                is_decimal && is_shortest && (field.len(), field) <= (greatest.len(), greatest)
            }
        }
    }
}

/// Kind, call, place, choice, connection, invoke, timer.
const FORMS: [Form; FIELDS] = [
    Form::Number(b"255"),
    Form::Call,
    Form::Number(b"65535"),
    Form::Number(b"255"),
    Form::Number(b"65535"),
    Form::Number(b"65535"),
    Form::Number(b"255"),
];

/// The first bad field of an event line, from 1, or 0 when no single field is to blame: the line is good, or it is too
/// long, or it has not seven fields (Q-3).
pub fn bad_field(line: &[u8]) -> u8 {
    let Ok(fields) = fields_of(line) else {
        return 0;
    };
    (1..).zip(fields.zip(FORMS)).find(|(_, (field, form))| !form.fits(field)).map_or(0, |(number, _)| number)
}

/// Text put together in a buffer of the caller, which must be long enough.
struct Text<'a> {
    buffer: &'a mut [u8],
    length: usize,
}

impl Text<'_> {
    fn octet(&mut self, octet: u8) {
        self.buffer[self.length] = octet;
        self.length += 1;
    }

    fn call(&mut self, call: Call) {
        let field = &mut self.buffer[self.length..self.length + 32];
        for (pair, octet) in field.chunks_exact_mut(2).zip(call.0.to_be_bytes()) {
            pair[0] = DIGITS[usize::from(octet >> 4)];
            pair[1] = DIGITS[usize::from(octet & 15)];
        }
        self.length += 32;
    }

    fn number(&mut self, value: u16) {
        let mut digits = [b'0'; 5];
        let mut first = digits.len() - 1;
        let mut rest = value;
        while rest > 9 {
            digits[first] += (rest % 10) as u8;
            rest /= 10;
            first -= 1;
        }
        digits[first] += rest as u8;
        digits[first..].iter().for_each(|&digit| self.octet(digit));
    }

    fn numbers(&mut self, values: &[u16]) {
        for &value in values {
            self.octet(b'\t');
            self.number(value);
        }
    }

    /// The first two fields of either line. Each of the numbers after them brings its tab.
    fn head(&mut self, first: u8, call: Call) {
        self.number(first.into());
        self.octet(b'\t');
        self.call(call);
    }

    fn message(&mut self, message: &Message) {
        let Message { number, connection, invoke, error } = *message;
        self.numbers(&[number as u16, connection.0, invoke.0, error as u16]);
    }
}

/// Writes the answer line with its line feed, and gives its length. `ANSWER_OCTETS` hold every answer of `step`.
pub fn write_answer(answer: &Answer, buffer: &mut [u8]) -> usize {
    let Answer { number, call, place, state, messages: [first, second], started, stopped } = *answer;
    let mut text = Text { buffer, length: 0 };
    text.head(number, call);
    text.numbers(&[place.0, state as u16]);
    text.message(&first);
    text.numbers(&[started.into(), stopped.into()]);
    text.message(&second);
    text.octet(b'\n');
    text.length
}

/// Writes the event line without a line feed, and gives its length, at most 62 octets.
pub fn write_event(event: &Event, buffer: &mut [u8]) -> usize {
    let Event { kind, call, place, choice, connection, invoke, timer } = *event;
    let mut text = Text { buffer, length: 0 };
    text.head(kind, call);
    text.numbers(&[place.0, choice.into(), connection.0, invoke.0, timer.into()]);
    text.length
}

/// Answers event lines until the input ends, starting from the empty table, which holds in memory no more of a
/// line than shows that it is too long.
pub fn session(mut input: BufReader<impl Read>, mut output: impl Write) -> io::Result<()> {
    let mut table = Table::empty();
    let mut line = Vec::with_capacity(LINE_OCTETS + 1);
    let mut answer_line = [0; ANSWER_OCTETS];
    loop {
        if input.buffer().is_empty() {
            // The next read may wait for someone who in turn waits for these answers.
            output.flush()?;
        }
        line.clear();
        input.by_ref().take(LINE_OCTETS as u64 + 1).read_until(b'\n', &mut line)?;
        match line.last() {
            None => return output.flush(),
            Some(b'\n') => drop(line.pop()),
            Some(_) if line.len() > LINE_OCTETS => drop(input.skip_until(b'\n')?),
            Some(_) => {}
        }
        let answer = match read_line(&line) {
            Ok(event) => step(&mut table, &event),
            Err(number) => Answer { number, ..Answer::default() },
        };
        let length = write_answer(&answer, &mut answer_line);
        output.write_all(&answer_line[..length])?;
    }
}

#[cfg(test)]
mod tests {
    use super::*;
    use crate::trial::{line_of, Follower};

    const GOOD: [&str; FIELDS] = ["4", "0123456789abcdef0123456789abcdef", "96", "0", "900", "1", "3"];
    const LONGEST: [&str; FIELDS] = ["255", GOOD[1], "65535", "255", "65535", "65535", "255"];
    /// By the number that stands at the end of their range.
    const TO_255: [usize; 3] = [1, 4, 7];
    const TO_65535: [usize; 3] = [3, 5, 6];

    /// The line with other texts in some of its fields, the first of which has number 1.
    fn altered<'a>(mut fields: [&'a str; FIELDS], changes: &[(usize, &'a str)]) -> Vec<u8> {
        for &(field, text) in changes {
            fields[field - 1] = text;
        }
        fields.join("\t").into_bytes()
    }

    /// The query and reading blame the same sort of field, or both none (Q-3).
    fn demand_as_reading(line: &[u8]) {
        let (field, read) = (bad_field(line), read_line(line));
        let agrees = match read {
            Ok(_) | Err(refusal::LINE_LENGTH | refusal::FIELD_COUNT) => field == 0,
            Err(refusal::NUMBER_FIELD) => matches!(field, 1 | 3..=7),
            Err(refusal::CALL_FIELD) => field == 2,
            Err(_) => false,
        };
        assert!(agrees, "field {field}, {read:?}: \"{}\"", line.escape_ascii());
    }

    fn demand(field: usize, line: &[u8]) {
        assert_eq!(usize::from(bad_field(line)), field, "\"{}\"", line.escape_ascii());
        demand_as_reading(line);
    }

    #[test]
    fn a_bad_number_is_named() {
        for field in TO_255.into_iter().chain(TO_65535) {
            for text in ["0", "1", "9", "10", "99", "100", "199", "249", "255"] {
                demand(0, &altered(GOOD, &[(field, text)]));
            }
            for text in ["", "a", "1a", "-1", "+1", " 1", "1 ", "1.0", "/", ":", "\n", "1\n", "\n1", "²"] {
                demand(field, &altered(GOOD, &[(field, text)]));
            }
            for text in ["00", "01", "000", "0255", "065535", "65536", "65540", "70000", "99999", "100000"] {
                demand(field, &altered(GOOD, &[(field, text)]));
            }
        }
        for text in ["256", "260", "300", "999", "1000", "9999", "10000", "65535"] {
            for (narrow, wide) in TO_255.into_iter().zip(TO_65535) {
                demand(narrow, &altered(GOOD, &[(narrow, text)]));
                demand(0, &altered(GOOD, &[(wide, text)]));
            }
        }
    }

    #[test]
    fn a_bad_call_is_named() {
        let digits = GOOD[1];
        for text in [digits, "00000000000000000000000000000000", "ffffffffffffffffffffffffffffffff"] {
            demand(0, &altered(GOOD, &[(2, text)]));
        }
        for text in ["", "0", &digits[..31], &[digits, "0"].concat(), &digits.to_uppercase()] {
            demand(2, &altered(GOOD, &[(2, text)]));
        }
        for wrong in ["\n", "\r", " ", "g", "A", "F", "/", ":", "`", "é"] {
            for at in [0, 15, 31] {
                let (before, after) = digits.split_at(at);
                demand(2, &altered(GOOD, &[(2, &[before, wrong, after].concat())]));
                demand(2, &altered(GOOD, &[(2, &[before, wrong, &after[1..]].concat())]));
            }
        }
    }

    #[test]
    fn of_two_bad_fields_the_first_is_named() {
        for second in 1..=FIELDS {
            for first in 1..second {
                for text in ["", "x", "-1", "00", "65536", "\n"] {
                    demand(first, &altered(GOOD, &[(first, text), (second, "")]));
                    demand(first, &altered(GOOD, &[(first, text), (second, "x")]));
                }
            }
        }
        demand(1, b"\t\t\t\t\t\t");
    }

    #[test]
    fn the_line_is_to_blame_before_its_fields() {
        assert_eq!(LONGEST.join("\t").len(), LINE_OCTETS);
        demand(0, &altered(LONGEST, &[]));
        for (field, text) in (1..).zip(LONGEST) {
            demand(field, &altered(LONGEST, &[(field, &["x", &text[1..]].concat())]));
            demand(0, &altered(LONGEST, &[(field, &["x", text].concat())]));
        }
        let good = GOOD.join("\t");
        for six in [&GOOD[1..], &GOOD[..6]] {
            demand(0, six.join("\t").as_bytes());
        }
        for eight in [["x", &good], [&good, "x"], [&good, ""]] {
            demand(0, eight.join("\t").as_bytes());
        }
        for line in [&b""[..], b"\n", b"x", b"\t", b"\t\t\t\t\t", b"\t\t\t\t\t\t\t", &[b'\t'; 62], &[b'x'; 63]] {
            demand(0, line);
        }
    }

    #[test]
    fn a_field_is_named_when_reading_blames_one() {
        let mut follower = Follower::new(3, 24);
        for _ in 0..50_000 {
            let mut line = line_of(&follower.event(&Table::empty()));
            let rng = &mut follower.rng;
            for _ in 0..rng.below(3) {
                let (at, any) = (rng.below(line.len()), rng.octet());
                let octet = rng.one_of(&[b'0', b'1', b'9', b'a', b'\t', b'\n', any]);
                match rng.below(3) {
                    0 => line[at] = octet,
                    1 => line.insert(at, octet),
                    _ => drop(line.remove(at)),
                }
            }
            demand_as_reading(&line);
        }
    }
}
