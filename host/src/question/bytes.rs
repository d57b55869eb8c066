//! The desk program's input of a question, and back.

use super::{Call, Question};
use crate::desk::{date_of, CALL, COLLECTION};
use crate::generate::Draft;
use crate::loading::Loading;
use crate::sheet::{HEADER, PAIR, RULE};

/// The bytes of a question.
pub fn write(question: &Question) -> Vec<u8> {
    let sheet = question.sheet.bytes();
    let date = question.loaded.map(u32::to_le_bytes);
    let mut input: Vec<u8> = date.into_iter().flatten().collect();
    input.extend((sheet.len() as u16).to_le_bytes());
    input.extend(sheet);
    for call in &question.calls {
        let (first, date) = match *call {
            Call::Offer { action, date } => (action, date),
            Call::Collect { date } => (COLLECTION, date),
        };
        input.push(first);
        input.extend(date.to_le_bytes());
    }
    input.extend(&question.tail);
    input
}

/// The question of an input, or what is wrong with its layout.
pub fn read(loading: Loading, input: &[u8]) -> Result<Question, String> {
    let Some((date, rest)) = loading.split(input) else {
        return Err("the input has not the four bytes of the loading date".into());
    };
    let (sheet, rest) = split(rest)?;
    let calls = rest.chunks_exact(CALL);
    let tail = calls.remainder().to_vec();
    Ok(Question {
        sheet: read_sheet(sheet)?,
        loaded: (loading == Loading::AtDate).then_some(date),
        calls: calls.map(read_call).collect(),
        tail,
    })
}

/// Splits an input into sheet and calls.
fn split(input: &[u8]) -> Result<(&[u8], &[u8]), String> {
    let Some((length, rest)) = input.split_at_checked(2) else {
        return Err("the input has not the two bytes of the sheet's length".into());
    };
    let length = two_bytes(length, 0);
    rest.split_at_checked(length).ok_or_else(|| {
        let found = rest.len();
        format!("the sheet's length is {length}, but only {found} bytes follow")
    })
}

fn read_call(call: &[u8]) -> Call {
    let date = date_of(call);
    match call[0] {
        COLLECTION => Call::Collect { date },
        action => Call::Offer { action, date },
    }
}

/// The fields of a sheet, or what is wrong with its layout.
pub fn read_sheet(sheet: &[u8]) -> Result<Draft, String> {
    let length = sheet.len();
    if length < HEADER {
        return Err(format!(
            "the sheet has {length} bytes; at least {HEADER} are expected"
        ));
    }
    let before = HEADER + PAIR * usize::from(sheet[0]);
    if length < before {
        return Err(format!(
            "the sheet has {length} bytes; with {} locations, at least {before} are expected",
            sheet[0]
        ));
    }
    Ok(Draft {
        locations: sheet[0],
        clocks: sheet[1],
        actions: sheet[2],
        initial: sheet[3],
        accepting: u16::from_le_bytes([sheet[4], sheet[5]]),
        outgoing: read_tables(sheet, before)?,
    })
}

/// The rules of each location; the first ones begin at byte `end`.
fn read_tables(sheet: &[u8], mut end: usize) -> Result<Vec<Vec<[u8; RULE]>>, String> {
    let mut outgoing = Vec::new();
    for location in 0..usize::from(sheet[0]) {
        let pair = HEADER + PAIR * location;
        let (offset, length) = (two_bytes(sheet, pair), two_bytes(sheet, pair + 2));
        let place = format!("the rules of location {location}");
        if offset != end {
            return Err(format!("{place} begin at byte {offset}; {end} is expected"));
        }
        if !length.is_multiple_of(RULE) {
            return Err(format!(
                "{place} have {length} bytes; a multiple of {RULE} is expected"
            ));
        }
        end += length;
        let Some(table) = sheet.get(offset..end) else {
            let length = sheet.len();
            return Err(format!("{place} end at byte {end}; the sheet has {length}"));
        };
        let (rules, _) = table.as_chunks::<RULE>();
        outgoing.push(rules.to_vec());
    }
    if end != sheet.len() {
        let length = sheet.len();
        return Err(format!(
            "the last rules end at byte {end}; the sheet has {length}"
        ));
    }
    Ok(outgoing)
}

/// A two-byte number, low byte first.
fn two_bytes(bytes: &[u8], at: usize) -> usize {
    usize::from(u16::from_le_bytes([bytes[at], bytes[at + 1]]))
}
