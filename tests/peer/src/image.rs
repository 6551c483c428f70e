//! The table image and the entry for C ("Lines, image, status", with the ranks of request Q-4).

use crate::lines::{read_line, write_answer, ANSWER_OCTETS};
use crate::machine::{step, Answer};
use crate::table::{refusal, Call, Connection, Invoke, Rank, Record, Side, State, Table};

pub const RECORD_OCTETS: usize = 22;
/// Where a place's rank stands among its octets.
const RANK: usize = RECORD_OCTETS - 1;
pub const IMAGE_OCTETS: usize = RECORD_OCTETS * Table::PLACES;

/// Reads the image of a sound table.
pub fn read_image(image: &[u8]) -> Result<Table, u8> {
    let mut table = Table::empty();
    read_into(&mut table, image)?;
    Ok(table)
}

/// Reads an image in place, which spares `park_step` two copies of the table; a refusal leaves it unusable.
fn read_into(table: &mut Table, image: &[u8]) -> Result<(), u8> {
    if image.len() != IMAGE_OCTETS {
        return Err(refusal::TABLE);
    }
    for (record, octets) in table.records.iter_mut().zip(image.chunks_exact(RECORD_OCTETS)) {
        *record = read_record(octets).ok_or(refusal::TABLE)?;
    }
    table.check()
}

/// Writes the image; a buffer of another length is refused and stays as found.
pub fn write_image(table: &Table, image: &mut [u8]) -> Result<(), u8> {
    if image.len() != IMAGE_OCTETS {
        return Err(refusal::TABLE);
    }
    for (record, octets) in table.records().iter().zip(image.chunks_exact_mut(RECORD_OCTETS)) {
        write_record(record, octets);
    }
    Ok(())
}

fn read_record(octets: &[u8]) -> Option<Record> {
    let (state, rest) = octets.split_first()?;
    let (call, rest) = rest.split_first_chunk()?;
    let (connection, rest) = rest.split_first_chunk()?;
    let (count, rank) = rest.split_first_chunk()?;
    Some(Record {
        state: State::from_number(*state)?,
        call: Call(u128::from_be_bytes(*call)),
        connection: Connection(u16::from_be_bytes(*connection)),
        count: Invoke(u16::from_be_bytes(*count)),
        rank: Rank(*rank.first()?),
    })
}

fn write_record(record: &Record, octets: &mut [u8]) {
    octets[0] = record.state as u8;
    octets[1..17].copy_from_slice(&record.call.0.to_be_bytes());
    octets[17..19].copy_from_slice(&record.connection.0.to_be_bytes());
    octets[19..21].copy_from_slice(&record.count.0.to_be_bytes());
    octets[RANK] = record.rank.0;
}

/// The entry for C in Rust's terms: gives the count of octets written to `answer`, 0 only where it is too short.
pub fn park_step(image: &mut [u8], line: &[u8], answer: &mut [u8]) -> usize {
    if answer.len() < ANSWER_OCTETS {
        return 0;
    }
    let reply = step_image(image, line).unwrap_or_else(|number| Answer { number, ..Answer::default() });
    write_answer(&reply, answer)
}

/// An accepted event changes one place and, where it frees that place, ranks on its side; only these are written back.
fn step_image(image: &mut [u8], line: &[u8]) -> Result<Answer, u8> {
    let mut table = Table::empty();
    read_into(&mut table, image)?;
    let event = read_line(line)?;
    let answer = step(&mut table, &event);
    if answer.number == 0 {
        let index = usize::from(answer.place.0) - 1;
        write_record(&table.records()[index], &mut image[RECORD_OCTETS * index..][..RECORD_OCTETS]);
        if answer.state == State::Free {
            for index in Side::of(index).indices() {
                image[RECORD_OCTETS * index + RANK] = table.records()[index].rank.0;
            }
        }
    }
    Ok(answer)
}
