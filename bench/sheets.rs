//! The measured sheets, the same in each run.

use crate::random::Random;
use crate::sheet::{Cell, Column, LONGEST_SHEET, Row, SIGN, Table, Width, decode, encode};

const GRID: [u8; 22] = *b"+-++|||+=++|||+-+++-++";
const ABSOLUTE: u8 = 3;

pub const SIZES: [usize; 4] = [4096, 8192, 16_384, LONGEST_SHEET];

pub struct Named {
    pub name: String,
    pub sheet: Vec<u8>,
}

#[derive(Clone, Copy)]
pub enum Kind {
    /// 12 columns of ordinary cells.
    Large,
    /// Two columns whose cells have 8 lines of 200 characters.
    LongTexts,
    /// The same texts in one column that is 1 wide.
    Wrap,
    /// `Large` with a degree sign in every cell.
    LargeSigns,
}

pub const PLAIN_KINDS: [Kind; 3] = [Kind::Large, Kind::LongTexts, Kind::Wrap];

fn table(target: u16, columns: Vec<Column>) -> Table {
    Table {
        arrangement: 1,
        target,
        delimiter: 0,
        indicator: b"...".to_vec(),
        style: GRID,
        columns,
        header: None,
        rows: vec![],
    }
}

fn columns(count: usize) -> Vec<Column> {
    vec![Column { left: 1, right: 1, ..Column::default() }; count]
}

/// Words of 1 to 9 letters, `length` characters in all.
fn text(random: &mut Random, length: usize) -> Vec<u8> {
    let mut text = Vec::new();
    while text.len() < length {
        text.extend((0..random.between(1, 9)).map(|_| random.between(b'a'.into(), b'z'.into()) as u8));
        text.push(b' ');
    }
    text.truncate(length);
    text
}

fn cell(random: &mut Random, lines: usize, shortest: usize, longest: usize) -> Cell {
    let mut line = || {
        let length = random.between(shortest, longest);
        text(random, length)
    };
    Cell { delimiter: 0, alignment: 0, lines: (0..lines).map(|_| line()).collect() }
}

fn row(cells: Vec<Cell>) -> Row {
    Row { height: 0, cells }
}

/// A setpoint, or a sign alone, takes the place of the first characters; the text keeps its width.
fn with_sign(text: &[u8]) -> Vec<u8> {
    match text.get(6..) {
        Some(rest) => ["21.5\u{B0}C".as_bytes(), rest].concat(),
        None => [&SIGN, &text[1..]].concat(),
    }
}

fn with_signs(mut row: Row) -> Row {
    for line in row.cells.iter_mut().flat_map(|cell| &mut cell.lines) {
        *line = with_sign(line);
    }
    row
}

/// The desk's: two columns, one row, target 20.
pub fn small() -> Named {
    let mut table = table(20, columns(2));
    table.indicator.clear();
    let lines = |text: &str| Cell { delimiter: 0, alignment: 0, lines: vec![text.as_bytes().to_vec()] };
    table.rows.push(row(vec![lines("ab"), lines("the quick brown")]));
    Named { name: "small".to_string(), sheet: encode(&table).bytes }
}

/// 12 columns, a header and 40 rows, target 120.
fn typical_table() -> Table {
    let mut random = Random::new(1, 0);
    let mut table = table(120, columns(12));
    let cells = |random: &mut Random| row((0..12).map(|_| cell(random, 1, 2, 14)).collect());
    table.header = Some(cells(&mut random));
    table.rows = (0..40).map(|_| cells(&mut random)).collect();
    table
}

pub fn typical() -> Named {
    Named { name: "typical".to_string(), sheet: encode(&typical_table()).bytes }
}

pub fn typical_signs() -> Named {
    let mut table = typical_table();
    table.header = table.header.map(with_signs);
    table.rows = table.rows.into_iter().map(with_signs).collect();
    Named { name: "typical signs".to_string(), sheet: encode(&table).bytes }
}

fn absolute(value: u16) -> Column {
    Column { constraint: ABSOLUTE, widths: [Width { unit: 0, value }, Width::default()], ..Column::default() }
}

fn setting(kind: Kind) -> (&'static str, Table) {
    match kind {
        Kind::Large => ("large", table(200, columns(12))),
        Kind::LargeSigns => ("large signs", table(200, columns(12))),
        Kind::LongTexts => ("long texts", table(160, columns(2))),
        Kind::Wrap => ("wrap heavy", table(80, vec![absolute(1)])),
    }
}

fn one_row(kind: Kind, random: &mut Random) -> Row {
    match kind {
        Kind::Large => row((0..12).map(|_| cell(random, 1, 16, 32)).collect()),
        Kind::LargeSigns => with_signs(one_row(Kind::Large, random)),
        Kind::LongTexts => row((0..2).map(|_| cell(random, 8, 200, 200)).collect()),
        Kind::Wrap => row(vec![cell(random, 8, 200, 200)]),
    }
}

/// One column 1 wide, and eleven without cells at the greatest width: a page of over 100 MB.
pub fn huge() -> Named {
    // Each further column takes 11 bytes of the sheet.
    let narrow = grown(Kind::Wrap, SIZES[3] - 11 * 11).sheet;
    let mut table = decode(&narrow).expect("the sheet is accepted");
    table.columns.resize(12, absolute(400));
    Named { name: "huge".to_string(), sheet: encode(&table).bytes }
}

/// As many rows as the size takes.
pub fn grown(kind: Kind, size: usize) -> Named {
    let mut random = Random::new(2, 0);
    let (name, mut table) = setting(kind);
    while table.rows.len() < 100 {
        table.rows.push(one_row(kind, &mut random));
        if encode(&table).bytes.len() > size {
            table.rows.pop();
            break;
        }
    }
    Named { name: format!("{name} {} KB", size / 1024), sheet: encode(&table).bytes }
}
