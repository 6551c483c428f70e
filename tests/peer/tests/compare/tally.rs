//! Counts of what has been tried at the C entry, and the demand that nothing was left out.

use std::collections::{BTreeMap, BTreeSet};
use std::fmt::{Debug, Display};

use peer::{read_image, read_line, Event, Table, IMAGE_OCTETS, RECORD_OCTETS};

use crate::document::TAKEN;
use crate::fail;
use crate::ranks::{mend, RANK, SIDES};

#[derive(Default)]
pub struct Tally {
    pub steps: u64,
    numbers: [u64; 27],
    /// By value: kinds of all events, choices of pickups, timers of expiries.
    values: [BTreeMap<u8, u64>; 3],
    /// Accepted events by side (position or line), state before, kind.
    accepted: BTreeMap<(bool, u8, u8), u64>,
    /// Refused pickups of a call in the table, asked for by name: side, state before, kind, answer number.
    taken: BTreeMap<(bool, u8, u8, usize), u64>,
    /// Accepted events by side (position or line) and what they have to do with ranks.
    ranked: BTreeMap<(bool, Ranked), u64>,
    /// Lines by the field that is to blame, 0 for none.
    fields: BTreeMap<u8, u64>,
    /// Images refused by 25 that would be sound with other ranks.
    refused_by_ranks: u64,
    cases: BTreeMap<&'static str, u64>,
    /// Answers by their length.
    lengths: BTreeMap<usize, u64>,
}

/// What an accepted event has to do with the ranks of its side. A pickup by choice may be of more than one sort.
#[derive(Clone, Copy, PartialEq, Eq, PartialOrd, Ord, Debug)]
enum Ranked {
    EntersAlone,
    EntersBehindOthers,
    /// With the highest rank that there is.
    EntersLastFreePlace,
    /// By choice, while a higher place waits too, but none that is lower.
    ServedAtLowestPlace,
    /// By choice, while a lower place waits too.
    ServedBeforeLowerPlace,
    /// By choice, while a call that came earlier is held but does not wait.
    ServedAfterTaken,
    /// To waiting, with the rank that it had, and somebody came after it.
    SentBackBeforeOthers,
    /// To waiting, with the rank that it had, and nobody came after it.
    SentBackLast,
    EndsAlone,
    /// All the others of the side move up.
    EndsFirst,
    /// Some of the others move up.
    EndsBetween,
    /// The highest rank of several; nobody moves up.
    EndsLast,
}

const RANKED: [Ranked; 12] = [
    Ranked::EntersAlone,
    Ranked::EntersBehindOthers,
    Ranked::EntersLastFreePlace,
    Ranked::ServedAtLowestPlace,
    Ranked::ServedBeforeLowerPlace,
    Ranked::ServedAfterTaken,
    Ranked::SentBackBeforeOthers,
    Ranked::SentBackLast,
    Ranked::EndsAlone,
    Ranked::EndsFirst,
    Ranked::EndsBetween,
    Ranked::EndsLast,
];

/// How many names `Tally::case` is called with.
const CASES: usize = 52;

/// How often an image must have been refused for its ranks alone.
const LEAST_BY_RANKS: u64 = 10_000;

/// The answer numbers up to this one come from the event; those of its line, the image and the buffer begin at 21.
const LAST_OF_EVENT: usize = 12;

/// The longest line that comes, of the 77 octets that are set aside: the call's 32 digits, two of a place or of a
/// number, five of one connection or one invoke, a digit of each of the eleven other fields, thirteen tabs and the feed.
const LONGEST: usize = 64;

/// By side, state before and kinds: all that "Events" accepts.
const ACCEPTED: [(bool, u8, &[u8]); 10] = [
    (true, 0, &[1]),
    (true, 1, &[3, 4, 7, 8, 10]),
    (true, 3, &[5, 6, 7, 8, 10]),
    (true, 4, &[5, 6, 7, 8, 10]),
    (true, 5, &[7, 8, 10]),
    (false, 0, &[2]),
    (false, 2, &[3, 4, 7, 8, 9]),
    (false, 3, &[5, 6, 7, 8, 10]),
    (false, 4, &[5, 6, 7, 8, 10]),
    (false, 5, &[7, 8]),
];

impl Tally {
    pub fn case(&mut self, name: &'static str) {
        *self.cases.entry(name).or_default() += 1;
    }

    pub fn done(&self) -> u64 {
        self.numbers[0]
    }

    pub fn note_field(&mut self, field: u8) {
        *self.fields.entry(field).or_default() += 1;
    }

    /// The images before and after the step.
    pub fn note(&mut self, [image, after]: [&[u8]; 2], line: &[u8], answer: &[u8]) {
        self.steps += 1;
        *self.lengths.entry(answer.len()).or_default() += 1;
        let text = std::str::from_utf8(answer).unwrap_or_default();
        let field = |index| text.trim_end().split('\t').nth(index).and_then(|field| field.parse::<usize>().ok());
        let number = field(0).unwrap_or(26);
        self.numbers[number] += 1;
        if number == 25 && image.len() == IMAGE_OCTETS {
            let mut mended = image.to_vec();
            mend(&mut mended);
            self.refused_by_ranks += u64::from(read_image(&mended).is_ok());
        }
        if let (Ok(event), true) = (read_line(line), number <= LAST_OF_EVENT) {
            self.note_event(image, &event, number);
            if number == 0 {
                let index = field(2).expect("a place") - 1;
                let key = (index < Table::POSITIONS, image[RECORD_OCTETS * index], event.kind);
                *self.accepted.entry(key).or_default() += 1;
                self.note_ranks([image, after], &event, index);
                if matches!(event.kind, 3 | 4) && field(6) == Some(0) {
                    self.case("pickup whose count wraps to 0");
                }
                if field(10) == Some(6) {
                    self.case("answer with a second message");
                }
            }
        }
    }

    /// An accepted event at the place with this index.
    fn note_ranks(&mut self, images: [&[u8]; 2], event: &Event, index: usize) {
        let position = index < Table::POSITIONS;
        let side = SIDES[usize::from(!position)].clone();
        let capacity = side.len() / RECORD_OCTETS;
        let places = || images[0][side.clone()].chunks(RECORD_OCTETS);
        let calls = places().filter(|record| record[0] != 0).count();
        let [(was, rank), (is, rank_after)] =
            images.map(|image| &image[RECORD_OCTETS * index..]).map(|record| (record[0], record[RANK]));
        let mut note = |sort| *self.ranked.entry((position, sort)).or_default() += 1;

        match (was, is) {
            (0, _) if calls == 0 => note(Ranked::EntersAlone),
            (0, _) if calls + 1 == capacity => note(Ranked::EntersLastFreePlace),
            (0, _) => note(Ranked::EntersBehindOthers),
            (_, 0) if calls == 1 => note(Ranked::EndsAlone),
            (_, 0) if rank == 1 => note(Ranked::EndsFirst),
            (_, 0) if usize::from(rank) == calls => note(Ranked::EndsLast),
            (_, 0) => note(Ranked::EndsBetween),
            (4, 1 | 2) if rank != rank_after => {}
            (4, 1 | 2) if usize::from(rank) == calls => note(Ranked::SentBackLast),
            (4, 1 | 2) => note(Ranked::SentBackBeforeOthers),
            _ => {}
        }
        if let (3 | 4, 1 | 2) = (event.kind, event.choice) {
            let nth = index - side.start / RECORD_OCTETS;
            let waits = |record: &[u8]| matches!(record[0], 1 | 2);
            if places().take(nth).any(waits) {
                note(Ranked::ServedBeforeLowerPlace);
            } else if places().skip(nth + 1).any(waits) {
                note(Ranked::ServedAtLowestPlace);
            }
            if places().any(|record| record[0] > 2 && record[RANK] < rank) {
                note(Ranked::ServedAfterTaken);
            }
        }
    }

    fn note_event(&mut self, image: &[u8], event: &Event, number: usize) {
        *self.values[0].entry(event.kind).or_default() += 1;
        let named = event.call.0.to_be_bytes();
        let live = || image.chunks(RECORD_OCTETS).enumerate().filter(|(_, record)| record[0] != 0);
        let found = live().find(|(_, record)| record[1..17] == named);
        match event.kind {
            1 | 2 => {
                let proposed = usize::from(event.place.0);
                self.case(match proposed {
                    0 => "entry proposing 0",
                    64 => "entry proposing 64",
                    65 => "entry proposing 65",
                    96 => "entry proposing 96",
                    97 => "entry proposing 97",
                    65_535 => "entry proposing 65535",
                    98.. => "entry proposing 98 to 65534",
                    _ if image[RECORD_OCTETS * (proposed - 1)] != 0 => "entry proposing another taken place",
                    _ => "entry proposing another free place",
                });
                if number == 0 && live().any(|(_, record)| record[1..16] == named[..15]) {
                    self.case("entry beside a call that differs in the last octet only");
                }
                if number == 0 && live().any(|(_, record)| record[2..17] == named[1..]) {
                    self.case("entry beside a call that differs in the first octet only");
                }
            }
            3 | 4 => {
                *self.values[1].entry(event.choice).or_default() += 1;
                match (event.kind, event.connection.0) {
                    (4, 0) => self.case("pickrequ of connection 0"),
                    (4, 65_535) => self.case("pickrequ of connection 65535"),
                    _ => {}
                }
                if let (Some((index, record)), 0, 1..) = (found, event.choice, number) {
                    let key = (index < Table::POSITIONS, record[0], event.kind, number);
                    *self.taken.entry(key).or_default() += 1;
                }
            }
            10 => *self.values[2].entry(event.timer).or_default() += 1,
            _ => {}
        }
        if let (Some((_, record)), 5..=7) = (found, event.kind) {
            let count = u16::from_be_bytes([record[19], record[20]]);
            let beyond = event.invoke.0.wrapping_sub(count);
            self.case(match beyond {
                0 => "kinds 5 to 7 with the count",
                1 => "kinds 5 to 7 with the count and one more",
                u16::MAX => "kinds 5 to 7 with the count less one",
                _ => "kinds 5 to 7 with another number",
            });
            if (event.kind, record[0]) == (7, 4) && beyond != 0 {
                self.case("kind 7 in state 4, taken as kind 8");
            }
        }
        if matches!(event.kind, 5..=10) || matches!((event.kind, event.choice), (3 | 4, 0)) {
            self.case(if found.is_some() {
                "named call is in the table"
            } else {
                "named call is not in the table"
            });
        }
    }

    /// Prints the counts, and fails where something possible never came, or something impossible did.
    pub fn print_and_demand(&self) {
        println!("entry in all: {} events, {} accepted", self.steps, self.done());
        let numbers = (0..).zip(self.numbers).filter(|(_, count)| *count > 0);
        println!("  answer numbers {}", listed(numbers.clone()));
        println!("  lines by the field to blame {}", listed(self.fields.clone().into_iter()));
        for ((name, last), seen) in [("kinds", 12), ("choices", 4), ("timers", 10)].into_iter().zip(&self.values) {
            let wanted = (0..=last).chain([255]).map(|value| (value, seen.get(&value).copied().unwrap_or(0)));
            let (wanted, all) = (wanted.collect::<Vec<_>>(), seen.values().sum::<u64>());
            let others = all - wanted.iter().map(|(_, count)| count).sum::<u64>();
            println!("  {name} {}, others {others}", listed(wanted.iter().copied()));
            if wanted.iter().any(|(_, count)| *count == 0) {
                fail(&format!("one of the {name} was never tried"));
            }
        }
        for (name, count) in &self.cases {
            println!("  {count:>8} {name}");
        }
        println!("  {:>8} images refused for their ranks alone", self.refused_by_ranks);
        if self.refused_by_ranks < LEAST_BY_RANKS {
            fail(&format!("less than {LEAST_BY_RANKS} images were refused for their ranks alone"));
        }
        let (longest, times) = self.lengths.last_key_value().expect("an answer");
        println!("  longest answer {longest} octets, {times} times");
        if *longest != LONGEST {
            fail(&format!("the longest answer should have {LONGEST} octets"));
        }
        if numbers.map(|(number, _)| number).ne((0..=LAST_OF_EVENT).chain(21..=26)) {
            fail("an answer number never came");
        }
        if self.cases.len() != CASES {
            fail(&format!("{} of the {CASES} listed cases came", self.cases.len()));
        }
        let accepted = ACCEPTED
            .iter()
            .flat_map(|&(position, state, kinds)| kinds.iter().map(move |&kind| (position, state, kind)));
        demand_sorts("accepted sorts (side, state, kind)", &self.accepted, accepted, 1_000);
        let taken = [true, false].into_iter().flat_map(|position| {
            let of_kind = move |kind| TAKEN.map(|(state, number)| (position, state as u8, kind, number.into()));
            [3, 4].into_iter().flat_map(of_kind)
        });
        demand_sorts("taken calls asked for by name (side, state, kind, number)", &self.taken, taken, 500);
        let ranked = [true, false].into_iter().flat_map(|position| RANKED.map(|sort| (position, sort)));
        demand_sorts("events by what they have to do with ranks (side, sort)", &self.ranked, ranked, 1_000);
        demand_sorts("fields to blame, or none", &self.fields, 0..=7, 3_000);
    }
}

/// Prints how often the rarest sort came, and fails where the sorts are not those expected, or one is too rare.
pub fn demand_sorts<S: Copy + Ord + Debug>(
    name: &str,
    seen: &BTreeMap<S, u64>,
    expected: impl Iterator<Item = S>,
    least: u64,
) {
    let (sorts, expected): (BTreeSet<_>, BTreeSet<_>) = (seen.keys().copied().collect(), expected.collect());
    let rarest = seen.values().min().copied().unwrap_or(0);
    println!("  {name}: {} of {}, the rarest {rarest} times", sorts.len(), expected.len());
    let wrong: Vec<_> = sorts.symmetric_difference(&expected).collect();
    if !wrong.is_empty() {
        fail(&format!("{name}: missing or too many {wrong:?}"));
    }
    if rarest < least {
        fail(&format!("{name}: one came less than {least} times"));
    }
}

fn listed(counts: impl Iterator<Item = (impl Display, u64)>) -> String {
    counts.map(|(value, count)| format!("{value}:{count}")).collect::<Vec<_>>().join(" ")
}
