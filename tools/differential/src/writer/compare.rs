//! The readings of the writer against each other and, if it is linked in, the archive's call against both.

use super::{Column, Row, Table, described, save, second, size, slices};
use crate::compare::hexadecimal;
use crate::random::Random;
use crate::sheet::{LONGEST_SHEET, Refusal, encode};
use crate::slices::{Slices, take_apart};
use crate::{generate, second as reader};

type Saved = Result<Vec<u8>, Refusal>;

/// The archive's call with slices and a buffer of so much room. It should answer so, and the buffer then hold
/// the sheet and be untouched otherwise; else what it answers.
pub type Call<'a> = &'a mut dyn FnMut(&Slices, usize, &Saved) -> Option<String>;

#[derive(Default)]
struct Tally {
    calls: u64,
    differences: u64,
    /// By the call's number.
    numbers: [u64; 23],
}

impl Tally {
    fn add(&mut self, index: u64, slices: &Slices, room: usize, saved: &Saved, difference: Option<String>) {
        self.calls += 1;
        self.numbers[saved.as_ref().err().map_or(0, |refusal| usize::from(refusal.number))] += 1;
        let Some(why) = difference else { return };
        self.differences += 1;
        if self.differences == 1 {
            println!("first difference, table {index}: {why}\nnumbers: {:?}", slices.numbers);
            println!("text: {}\nroom: {room}, by the first reading: {}", hexadecimal(&slices.text), words(saved));
        }
    }

    /// True if there was no difference.
    fn report(&self, words: &str, called: bool) -> bool {
        println!("{} {words}: {} differences", self.calls, self.differences);
        println!(
            "saved {}, refused with 1 to 9: {:?}, with 22: {}",
            self.numbers[0],
            &self.numbers[1..10],
            self.numbers[22]
        );
        println!("the archive's call {} tried", if called { "was" } else { "wasn't" });
        self.differences == 0
    }
}

fn words(saved: &Saved) -> String {
    match saved {
        Ok(sheet) => format!("a sheet of {} bytes", sheet.len()),
        Err(refusal) => format!("refused {} at {}", refusal.number, refusal.place),
    }
}

/// "the reader's number, with the place that the field would have had": what the second reading of the
/// reader's refusals says of the fields as they would stand, where a byte that can't hold its number is FF.
/// A height limit may be FF, so that one over 255 is looked for here.
fn by_reader(table: &Table) -> Option<Refusal> {
    let mut sheet = Standing::default();
    sheet.table(table);
    let limit = sheet.long_limit.map(|place| Refusal { number: 5, place });
    let refusal = reader::refusal(&sheet.bytes);
    [refusal, limit].into_iter().flatten().min_by_key(|refusal| refusal.place)
}

#[derive(Default)]
struct Standing {
    bytes: Vec<u8>,
    /// Where the first height limit stands that a byte can't hold.
    long_limit: Option<usize>,
}

impl Standing {
    fn byte(&mut self, number: impl TryInto<u8>) {
        self.bytes.push(number.try_into().unwrap_or(255));
    }

    fn text(&mut self, text: &[u8]) {
        self.byte(text.len());
        self.bytes.extend(text);
    }

    fn table(&mut self, table: &Table) {
        self.byte(table.edition);
        self.byte(table.arrangement);
        self.bytes.extend(table.target.to_le_bytes());
        self.byte(table.delimiter);
        self.text(&table.indicator);
        self.text(&table.style);
        self.byte(table.columns.len());
        for column in &table.columns {
            let Column { left, right, delimiter, alignment, constraint, .. } = *column;
            [left, right, delimiter, alignment, constraint].into_iter().for_each(|number| self.byte(number));
            for width in column.widths {
                self.byte(width.unit);
                self.bytes.extend(width.value.to_le_bytes());
            }
        }
        for rows in [&table.header, &table.rows] {
            self.byte(rows.len());
            rows.iter().for_each(|row| self.row(row));
        }
    }

    fn row(&mut self, row: &Row) {
        if row.limit > 255 {
            self.long_limit.get_or_insert(self.bytes.len());
        }
        self.byte(row.limit);
        self.byte(row.cells.len());
        for cell in &row.cells {
            self.byte(cell.delimiter);
            self.byte(cell.alignment);
            self.byte(cell.lines.len());
            cell.lines.iter().for_each(|line| self.text(line));
        }
    }
}

/// The first reading of one call against the others.
fn difference(trial: &Slices, room: usize, saved: &Saved, call: &mut Option<Call>) -> Option<String> {
    let why = if second::save(trial, room) != *saved {
        "the readings of the writer differ"
    } else if saved.as_ref().is_ok_and(|sheet| take_apart(sheet) != *trial) {
        "the sheet isn't taken apart into its slices"
    } else if described(trial).is_ok_and(|table| slices(&table) != *trial) {
        "the table doesn't have its slices"
    } else if described(trial).is_ok_and(|table| !refused_by_reader(&table, saved)) {
        "the reader refuses the table's fields otherwise"
    } else {
        return call.as_mut().and_then(|call| call(trial, room, saved));
    };
    Some(why.to_string())
}

/// A table that needs too much isn't for the reader, and neither is the buffer's room.
fn refused_by_reader(table: &Table, saved: &Saved) -> bool {
    let fault = saved.as_ref().err().filter(|refusal| refusal.number != 22).copied();
    size(table) > LONGEST_SHEET || by_reader(table) == fault
}

/// Accepted sheets, taken apart and written back: into a buffer that they just fill, a longer one, and one
/// that is a byte short.
fn accepted(seed: u64, count: u64, call: &mut Option<Call>) -> Tally {
    let mut tally = Tally::default();
    for index in 0..count {
        let sheet = encode(&generate::table(seed, index)).bytes;
        let slices = take_apart(&sheet);
        let (size, more) = (sheet.len(), Random::new(seed, index).between(1, 40));
        let short = Err(Refusal { number: 22, place: size });
        for (room, saved) in [(size, Ok(sheet.clone())), (size + more, Ok(sheet)), (size - 1, short)] {
            let different = match save(&slices, room) == saved {
                true => difference(&slices, room, &saved, call),
                false => Some("the first reading doesn't write the sheet back".to_string()),
            };
            tally.add(index, &slices, room, &saved, different);
        }
    }
    tally
}

fn damaged(seed: u64, count: u64, call: &mut Option<Call>) -> Tally {
    let mut tally = Tally::default();
    for index in 0..count {
        let (slices, room) = super::damage::trial(seed, index);
        let saved = save(&slices, room);
        tally.add(index, &slices, room, &saved, difference(&slices, room, &saved, call));
    }
    tally
}

/// True if there was no difference.
pub fn agrees(seed: u64, count: u64, is_damaged: bool, mut call: Option<Call>) -> bool {
    let (tally, words) = match is_damaged {
        true => (damaged(seed, count, &mut call), "damaged tables".to_string()),
        false => (accepted(seed, count, &mut call), format!("calls with the tables of {count} accepted sheets")),
    };
    tally.report(&format!("{words} from seed {seed}"), call.is_some())
}
