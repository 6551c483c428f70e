//! The park and pickup table of document 01, with requests of document 02, written a
//! second time, from the documents alone; what leave open is as docs/DECISIONS.md has it. In the rows of
//! Q-7 "House" marks it.
//!
//! It serves as the other side of a comparison: the tests hold every octet of the product against it, and a
//! benchmark may hold the product's speed against it. Remarks name the heading of document 01 in quotes.

#![forbid(unsafe_code)]

mod image;
mod lamp_lines;
mod lamps;
mod lines;
mod machine;
mod phone_lines;
mod phones;
mod table;
pub mod trial;

pub use image::{park_step, read_image, write_image, IMAGE_OCTETS, RECORD_OCTETS};
pub use lamp_lines::{lamp_session, Asked, Given, INPUT_OCTETS};
pub use lamps::{GpState, Indication, Lamps, Member, Notice, Notices, Reply, Request, Served, Settled};
pub use lines::{bad_field, read_line, session, write_answer, write_event, ANSWER_OCTETS, LINE_OCTETS};
pub use machine::{step, Answer, ErrorNumber, Event, Message, MessageNumber};
pub use phone_lines::{is_request, phone_session, Phones, PARKED_EVENTS, PARKING_EVENTS, PHONE_LINE_OCTETS};
pub use phones::PhoneState;
pub use table::{refusal, Call, Connection, Invoke, Place, Rank, Record, Side, State, Status, Table};

#[cfg(test)]
mod tests {
    use super::*;

    fn table_of(lines: &[&str]) -> Table {
        let mut table = Table::empty();
        for line in lines {
            assert_eq!(step(&mut table, &read_line(line.as_bytes()).unwrap()).number, 0);
        }
        table
    }

    #[test]
    fn status_counts_places_and_timers() {
        let whole = Status { free_positions: 64, free_lines: 32, waiting_calls: 0, running_timers: 0 };
        assert_eq!(Table::empty().status(), whole);
        let table = table_of(&[
            "1\t0000000000000000000000000000000a\t5\t0\t0\t0\t0",
            "1\t0000000000000000000000000000000b\t64\t0\t0\t0\t0",
            "2\t0000000000000000000000000000000c\t96\t0\t0\t0\t0",
            "2\t0000000000000000000000000000000d\t0\t0\t0\t0\t0",
            "4\t0000000000000000000000000000000b\t0\t0\t7\t0\t0",
            "3\t00000000000000000000000000000000\t0\t2\t0\t0\t0",
        ]);
        let expected = Status { free_positions: 62, free_lines: 30, waiting_calls: 2, running_timers: 4 };
        assert_eq!(table.status(), expected);
    }

    /// The ranks at the positions 5, 9 and 1, and at the lines 96 and 65.
    fn ranks(table: &Table) -> [u8; 5] {
        [5, 9, 1, 96, 65].map(|place| table.records()[place - 1].rank.0)
    }

    #[test]
    fn calls_are_ranked_as_they_come_and_move_up_when_one_goes() {
        let mut table = table_of(&[
            "1\t0000000000000000000000000000000a\t5\t0\t0\t0\t0",
            "2\t0000000000000000000000000000000d\t96\t0\t0\t0\t0",
            "1\t0000000000000000000000000000000b\t9\t0\t0\t0\t0",
            "1\t0000000000000000000000000000000c\t1\t0\t0\t0\t0",
            "2\t0000000000000000000000000000000e\t65\t0\t0\t0\t0",
        ]);
        assert_eq!(ranks(&table), [1, 2, 3, 1, 2]);
        let mut take = |line: &str, place, after| {
            let answer = step(&mut table, &read_line(line.as_bytes()).unwrap());
            assert_eq!((answer.number, answer.place, ranks(&table)), (0, Place(place), after), "{line}");
        };
        let choice_1 = "4\t00000000000000000000000000000000\t0\t1\t7\t0\t0";
        take(choice_1, 5, [1, 2, 3, 1, 2]);
        take(choice_1, 9, [1, 2, 3, 1, 2]);
        take("10\t0000000000000000000000000000000a\t0\t0\t0\t0\t9", 5, [1, 2, 3, 1, 2]);
        take(choice_1, 5, [1, 2, 3, 1, 2]);
        take("8\t0000000000000000000000000000000b\t0\t0\t0\t0\t0", 9, [1, 0, 2, 1, 2]);
        take("1\t0000000000000000000000000000000b\t9\t0\t0\t0\t0", 9, [1, 3, 2, 1, 2]);
        take("8\t0000000000000000000000000000000e\t0\t0\t0\t0\t0", 65, [1, 3, 2, 1, 0]);
        take("10\t0000000000000000000000000000000a\t0\t0\t0\t0\t3", 5, [0, 2, 1, 1, 0]);
        take(choice_1, 1, [0, 2, 1, 1, 0]);
    }

    #[test]
    fn a_side_of_n_calls_has_the_ranks_1_to_n() {
        let is_sound = |ranks: [u8; 5]| {
            let mut records = *table_of(&[
                "1\t0000000000000000000000000000000a\t5\t0\t0\t0\t0",
                "1\t0000000000000000000000000000000b\t9\t0\t0\t0\t0",
                "2\t0000000000000000000000000000000d\t96\t0\t0\t0\t0",
                "2\t0000000000000000000000000000000e\t65\t0\t0\t0\t0",
            ])
            .records();
            for (place, rank) in [5, 9, 1, 96, 65].into_iter().zip(ranks) {
                records[place - 1].rank = Rank(rank);
            }
            Table::from_records(records).is_ok()
        };
        for ranks in [[1, 2, 0, 1, 2], [2, 1, 0, 1, 2], [1, 2, 0, 2, 1], [2, 1, 0, 2, 1]] {
            assert!(is_sound(ranks), "{ranks:?}");
        }
        for ranks in [[0, 1, 0, 1, 2], [1, 1, 0, 1, 2], [2, 2, 0, 1, 2], [1, 3, 0, 1, 2], [2, 3, 0, 1, 2]] {
            assert!(!is_sound(ranks), "{ranks:?}");
        }
        for ranks in [[1, 0, 2, 1, 2], [1, 2, 3, 1, 2], [1, 2, 1, 1, 2], [1, 2, 0, 3, 4], [1, 255, 0, 1, 2]] {
            assert!(!is_sound(ranks), "{ranks:?}");
        }
    }

    #[test]
    fn image_of_another_length_is_refused_and_left() {
        let table = table_of(&["1\tffffffffffffffffffffffffffffffff\t1\t0\t0\t0\t0"]);
        let mut short = [7; IMAGE_OCTETS - 1];
        assert_eq!(write_image(&table, &mut short), Err(refusal::TABLE));
        assert_eq!(short, [7; IMAGE_OCTETS - 1]);
        let mut image = [7; IMAGE_OCTETS];
        assert_eq!(write_image(&table, &mut image), Ok(()));
        assert_eq!(read_image(&image), Ok(table));
    }
}
