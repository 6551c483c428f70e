//! The program that tries the lamps of request Q-5: event lines, and among them lines that begin with a letter. `r` is
//! a reply to a request, `g` asks for the state of a place and member, and `n` sets the number last given to every
//! member. What follows the letter has the form of an event line; where it does not read, it counts as the event of all
//! zeros.

use std::io::{self, Read, Write};

use crate::lamps::{GpState, Indication, Member, Notices, Reply, Request, Served, Settled};
use crate::lines::{read_line, write_answer, ANSWER_OCTETS};
use crate::machine::{Answer, Event};
use crate::table::{Invoke, Place};

/// The program reads no more than this.
pub const INPUT_OCTETS: usize = 1_048_576;

/// What one line says.
#[derive(Clone, Copy, PartialEq, Eq, Debug)]
pub enum Asked {
    /// Or the number by which the line is refused.
    Event(Result<Event, u8>),
    Reply(Reply),
    State(Place, Member),
    Count(Invoke),
}

impl Asked {
    /// Reads a line without its line feed.
    pub fn read(line: &[u8]) -> Asked {
        let event_of = |rest| read_line(rest).unwrap_or_default();
        match line {
            [b'r', rest @ ..] => {
                let Event { kind, call, choice, invoke, .. } = event_of(rest);
                let indication = if kind == 1 { Indication::On } else { Indication::Off };
                Asked::Reply(Reply { member: Member(choice), request: Request { indication, call, invoke } })
            }
            [b'g', rest @ ..] => {
                let Event { place, choice, .. } = event_of(rest);
                Asked::State(place, Member(choice))
            }
            [b'n', rest @ ..] => Asked::Count(event_of(rest).invoke),
            _ => Asked::Event(read_line(line)),
        }
    }
}

/// What one line brings about.
#[derive(Clone, PartialEq, Eq, Debug)]
pub enum Given {
    Answer(Answer, Option<Box<Notices>>),
    Settled(Result<Settled, u8>),
    State(GpState),
    Nothing,
}

impl Served {
    pub fn take(&mut self, asked: &Asked) -> Given {
        match asked {
            Asked::Event(Ok(event)) => {
                let (answer, notices) = self.step(event);
                Given::Answer(answer, notices.map(Box::new))
            }
            Asked::Event(Err(number)) => Given::Answer(Answer { number: *number, ..Answer::default() }, None),
            Asked::Reply(reply) => Given::Settled(self.lamps.reply(reply)),
            Asked::State(place, member) => Given::State(self.lamps.state(*place, *member)),
            Asked::Count(count) => {
                self.lamps.set_counts(*count);
                Given::Nothing
            }
        }
    }
}

impl Given {
    pub fn write(&self, output: &mut impl Write) -> io::Result<()> {
        match self {
            Given::Answer(answer, notices) => {
                let mut line = [0; ANSWER_OCTETS];
                let length = write_answer(answer, &mut line);
                output.write_all(&line[..length])?;
                notices.as_deref().map_or(Ok(()), |notices| write_notices(notices, output))
            }
            Given::Settled(Ok(Settled { place, stopped })) => writeln!(output, "reply\t0\t{}\t{stopped}", place.0),
            Given::Settled(Err(number)) => writeln!(output, "reply\t{number}\t0\t0"),
            Given::State(state) => writeln!(output, "gp\t{}\t{}", state.name(), state.timer()),
            Given::Nothing => Ok(()),
        }
    }
}

/// One line for the whole group, which is told the same.
fn write_notices(notices: &Notices, output: &mut impl Write) -> io::Result<()> {
    let (place, request) = (notices[0].place, notices[0].request);
    let is_same = notices.iter().all(|notice| (notice.place, notice.request) == (place, request));
    assert!(is_same, "one line cannot tell this: {notices:?}");
    let Request { indication, call, invoke } = request;
    let name = match indication {
        Indication::On => "on",
        Indication::Off => "off",
    };
    write!(output, "{name}\t{:032x}\t{}\t{}\t", call.0, place.0, invoke.0)?;
    notices.iter().try_for_each(|notice| write!(output, "{}", notice.stopped()))?;
    output.write_all(b"\t")?;
    notices.iter().try_for_each(|notice| write!(output, "{}", notice.started()))?;
    output.write_all(b"\n")
}

/// Answers the lines of the input, as far as it is read, from the empty table and with no request ever sent.
pub fn lamp_session(input: impl Read, mut output: impl Write) -> io::Result<()> {
    let mut text = Vec::new();
    input.take(INPUT_OCTETS as u64).read_to_end(&mut text)?;
    let mut served = Served::empty();
    for line in text.split_inclusive(|&octet| octet == b'\n') {
        let line = line.strip_suffix(b"\n").unwrap_or(line);
        served.take(&Asked::read(line)).write(&mut output)?;
    }
    output.flush()
}

#[cfg(test)]
mod tests {
    use super::*;

    fn printed(input: &[u8]) -> String {
        let mut output = Vec::new();
        lamp_session(input, &mut output).expect("memory can be written");
        String::from_utf8(output).expect("only digits, letters and tabs")
    }

    #[test]
    fn a_stay_and_its_lamps() {
        let input = [
            "1\t0000000000000000000000000000000a\t17\t0\t0\t0\t0",
            "r1\t0000000000000000000000000000000a\t5\t3\t6\t1\t7",
            "g0\t00000000000000000000000000000000\t17\t2\t0\t0\t0",
            "n0\t00000000000000000000000000000000\t0\t0\t0\t65535\t0",
            "8\t0000000000000000000000000000000a\t0\t0\t0\t0\t0",
            "r1\t0000000000000000000000000000000a\t0\t9\t0\t0\t0",
            "r1\t0000000000000000000000000000000a\t0\t8\t0\t0\t0",
            "r255\t0000000000000000000000000000000a\t0\t8\t0\t0\t0",
            "g0\t00000000000000000000000000000000\t17\t8\t0\t0\t0",
            "g0\t00000000000000000000000000000000\t17\t7\t0\t0\t0",
        ];
        let output = [
            "0\t0000000000000000000000000000000a\t17\t1\t1\t0\t0\t0\t1\t0\t0\t0\t0\t0",
            "on\t0000000000000000000000000000000a\t17\t1\t00000000\t44444444",
            "reply\t0\t17\t4",
            "gp\tGP-NotifyOnRequ\t4",
            "0\t0000000000000000000000000000000a\t17\t0\t0\t0\t0\t0\t0\t1\t0\t0\t0\t0",
            "off\t0000000000000000000000000000000a\t17\t0\t44044444\t55555555",
            "reply\t31\t0\t0",
            "reply\t32\t0\t0",
            "reply\t0\t17\t5",
            "gp\tGP-Idle\t0",
            "gp\tGP-NotifyOffRequ\t5",
        ];
        let (feedless, output) = (input.join("\n"), output.map(|line| format!("{line}\n")).concat());
        assert_eq!(printed(feedless.as_bytes()), output);
        assert_eq!(printed(format!("{feedless}\n").as_bytes()), output);
    }

    #[test]
    fn what_does_not_read_is_all_zeros() {
        let zeros = "\t00000000000000000000000000000000\t0\t0\t0\t0\t0\t0\t0\t0\t0\t0\t0\t0\n";
        assert_eq!(printed(b""), "");
        assert_eq!(printed(b"\n"), format!("22{zeros}"));
        assert_eq!(printed(b"r\nr1\t\ng\nn"), "reply\t31\t0\t0\nreply\t31\t0\t0\ngp\tGP-Idle\t0\n");
        let park = "1\t0000000000000000000000000000000a\t17\t0\t0\t0\t0\n";
        let counted = |count: &str| printed([count, park].concat().as_bytes()).contains("\t17\t1\t00000000\t");
        assert!(counted("") && counted("n\n") && counted("n0\t\n"));
        assert!(!counted("n255\t0000000000000000000000000000000a\t65535\t255\t65535\t65535\t255\n"));
        assert!(printed(format!("R{park}").as_bytes()).starts_with("23\t"));
        assert!(
            printed(format!("{park}{}", "x".repeat(INPUT_OCTETS)).as_bytes()).ends_with(&format!("\n21{zeros}"))
        );
    }
}
