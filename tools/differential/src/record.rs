//! The record of one sheet and its answer, all numbers low byte first:
//! sheet length (2 bytes), sheet, number (1), place (2); if the number is 0: column count (1), for
//! each column content width (2) and hidden (1), line count (4), page length (4), page.

use crate::oracle::{self, Answer};
use crate::sheet::{Refusal, decode};

#[derive(Clone, Debug, PartialEq)]
pub struct Record {
    pub sheet: Vec<u8>,
    pub answer: Result<Answer, Refusal>,
}

/// The sheet's refusal, or the oracle's answer to it.
pub fn answered(sheet: Vec<u8>) -> Record {
    let answer = decode(&sheet).map(|table| oracle::answer(&table));
    Record { sheet, answer }
}

pub fn write(record: &Record, out: &mut Vec<u8>) {
    out.extend((record.sheet.len() as u16).to_le_bytes());
    out.extend(&record.sheet);
    let refusal = record.answer.as_ref().err();
    out.push(refusal.map_or(0, |refusal| refusal.number));
    out.extend((refusal.map_or(0, |refusal| refusal.place) as u16).to_le_bytes());
    if let Ok(answer) = &record.answer {
        write_answer(answer, out);
    }
}

fn write_answer(answer: &Answer, out: &mut Vec<u8>) {
    out.push(answer.widths.len() as u8);
    for (content, hidden) in &answer.widths {
        out.extend(content.to_le_bytes());
        out.push(u8::from(*hidden));
    }
    out.extend((answer.lines as u32).to_le_bytes());
    out.extend((answer.page.len() as u32).to_le_bytes());
    out.extend(&answer.page);
}

/// All records of a stream; `None` if it ends within one.
pub fn read_all(mut bytes: &[u8]) -> Option<Vec<Record>> {
    let mut records = Vec::new();
    while !bytes.is_empty() {
        records.push(read(&mut bytes)?);
    }
    Some(records)
}

fn take<'a>(bytes: &mut &'a [u8], count: usize) -> Option<&'a [u8]> {
    let (head, rest) = bytes.split_at_checked(count)?;
    *bytes = rest;
    Some(head)
}

fn number(bytes: &mut &[u8], size: usize) -> Option<usize> {
    Some(take(bytes, size)?.iter().rev().fold(0, |value, byte| value << 8 | usize::from(*byte)))
}

fn read(bytes: &mut &[u8]) -> Option<Record> {
    let length = number(bytes, 2)?;
    let sheet = take(bytes, length)?.to_vec();
    let refused = number(bytes, 1)?;
    let place = number(bytes, 2)?;
    let answer = match refused {
        0 => Ok(read_answer(bytes)?),
        _ => Err(Refusal { number: refused as u8, place }),
    };
    Some(Record { sheet, answer })
}

fn read_answer(bytes: &mut &[u8]) -> Option<Answer> {
    let mut widths = Vec::new();
    for _ in 0..number(bytes, 1)? {
        let content = number(bytes, 2)? as u16;
        widths.push((content, number(bytes, 1)? == 1));
    }
    let lines = number(bytes, 4)?;
    let length = number(bytes, 4)?;
    Some(Answer { page: take(bytes, length)?.to_vec(), lines, widths })
}
