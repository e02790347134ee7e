//! The records of a sheet of bytes: where a record or a number stands, and where the form goes wrong.

use crate::description::{u16_at, Description, Section, HEADER};
use crate::message::{words, Bytes, Record};
use crate::name::Name;
use crate::place::Field;

/// The kinds that each record may have: section, product, filling, bottom, strakes, depths, headroom. A sheet may end before the last.
const KINDS: [&[u16]; 7] = [&[1, 2], &[3], &[4], &[5], &[6], &[7], &[8]];

/// A kind allows a payload of so many bytes.
fn allows(kind: u16, length: usize) -> bool {
    match kind {
        1 | 8 => length == 4,
        2 | 4 | 5 => length == 8,
        3 => length == 10,
        6 => length.is_multiple_of(2) && (2..=48).contains(&length),
        _ => length.is_multiple_of(4) && (4..=800).contains(&length),
    }
}

/// What is wrong with the records of a sheet that the library has refused for its form.
pub fn fault(sheet: &[u8]) -> Option<Bytes> {
    if sheet.is_empty() {
        return Some(Bytes::EmptyFile);
    }
    if sheet.len() > 1024 {
        return Some(Bytes::SheetTooLong(sheet.len()));
    }
    let mut at = 0;
    for (record, kinds) in KINDS.iter().enumerate() {
        match record_fault(&sheet[at..], kinds) {
            Ok(length) => at += length,
            Err(fault) => return Some(Bytes::Record { record, at, fault }),
        }
    }
    let count = sheet.len() - at;
    (count > 0).then_some(Bytes::LeftOver { count, from: at })
}

/// The bytes of the record at the front, or what is wrong with it.
fn record_fault(rest: &[u8], due: &'static [u16]) -> Result<usize, Record> {
    if rest.len() < HEADER {
        return Err(Record::Header(rest.len()));
    }
    let (length, kind) = (usize::from(u16_at(rest, 0)), u16_at(rest, 2));
    if !due.contains(&kind) {
        return Err(Record::Kind { kind, due });
    }
    if !allows(kind, length) {
        return Err(Record::Length { length, kind });
    }
    let left = rest.len() - HEADER;
    if left < length {
        return Err(Record::Payload { length, left });
    }
    Ok(HEADER + length)
}

/// Where a field stands in the sheet of a description: its record and its first byte.
pub fn position(silo: &Description, field: Field) -> String {
    let section = match silo.section {
        Section::Circle(_) => 4,
        Section::Rectangle(..) => 8,
    };
    let payloads = [section, 10, 8, 8, 2 * silo.strakes.len(), 4 * silo.depths.len()];
    let start =
        |record: usize| HEADER + payloads[..record].iter().map(|n| n + HEADER).sum::<usize>();
    let (record, offset) = match (field, field.name()) {
        (Field::Strake(i), _) => (4, 2 * i),
        (Field::Depth(i), _) => (5, 4 * i),
        (Field::SideB, _) => (0, 4),
        (_, Name::Weight) => (1, 0),
        (_, Name::Ratio) => (1, 4),
        (_, Name::Friction) => (1, 6),
        (_, Name::Factor) => (1, 8),
        (_, Name::FillingEccentricity) => (2, 0),
        (_, Name::OutletEccentricity) => (2, 4),
        (_, Name::Floor | Name::HopperHeight) => (3, 0),
        (_, Name::HopperRun) => (3, 4),
        (_, Name::Strakes) => (4, 0),
        (_, Name::Depths) => (5, 0),
        (_, Name::Headroom) => (6, 0),
        // the section; a sheet has no other names
        _ => (0, 0),
    };
    words::byte(start(record) + offset, record)
}
