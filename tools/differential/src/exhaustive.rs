//! Small spaces of sheets, tried whole: every short text at every small width, with degree signs too,
//! and every pair of columns out of a list at every small target.

use crate::compare::{agrees, hexadecimal};
use crate::oracle;
use crate::sheet::{Cell, Column, Row, SIGN, STYLE_BYTES, Table, Width, encode};

const LONGEST_TEXT: u32 = 12;
const LONGEST_SIGNED: u8 = 8;
const WIDEST: u16 = 9;
const WIDEST_TARGET: u16 = 20;

#[derive(Default)]
struct Tally {
    sheets: u64,
    differences: u64,
}

impl Tally {
    fn try_sheet(&mut self, table: &Table) {
        self.sheets += 1;
        if !agrees(table, &oracle::answer(table)) {
            self.differences += 1;
            if self.differences == 1 {
                println!("first difference:\n{}", hexadecimal(&encode(table).bytes));
            }
        }
    }

    fn report(&self, words: &str) -> bool {
        println!("{} {words}: {} differences", self.sheets, self.differences);
        self.differences == 0
    }
}

fn bare(columns: Vec<Column>, rows: Vec<Row>) -> Table {
    let style = [0; STYLE_BYTES];
    Table { arrangement: 1, target: 0, delimiter: 0, indicator: b"..".to_vec(), style, columns, header: None, rows }
}

fn cell(line: &[u8]) -> Cell {
    Cell { delimiter: 0, alignment: 0, lines: vec![line.to_vec()] }
}

/// Letters and spaces by the bits of `number`, as many as stand below its highest one.
fn text(number: u32) -> Vec<u8> {
    (0..number.ilog2()).map(|bit| if number >> bit & 1 == 1 { b' ' } else { b'a' + bit as u8 }).collect()
}

/// One column of one text at every width, uncut and cut to 1 and 2 lines.
fn each_width(tally: &mut Tally, text: &[u8]) {
    for width in 1..=WIDEST {
        let widths = [Width { unit: 0, value: width }, Width::default()];
        let column = Column { constraint: 3, widths, ..Column::default() };
        for height in 0..3 {
            let row = Row { height, cells: vec![cell(text)] };
            tally.try_sheet(&bare(vec![column.clone()], vec![row]));
        }
    }
}

fn texts() -> bool {
    let mut tally = Tally::default();
    for number in 1..2 << LONGEST_TEXT {
        each_width(&mut tally, &text(number));
    }
    tally.report("texts of letters and spaces at widths and heights")
}

/// Each text of letters, spaces and signs that has a sign.
fn signed_texts() -> bool {
    let mut tally = Tally::default();
    let mut texts: Vec<Vec<u8>> = vec![vec![]];
    for length in 0..LONGEST_SIGNED {
        let letter = [b'a' + length];
        let longer = |text: &Vec<u8>| [&letter[..], b" ", &SIGN].map(|next| [text, next].concat());
        texts = texts.iter().flat_map(longer).collect();
        for text in texts.iter().filter(|text| text.contains(&SIGN[0])) {
            each_width(&mut tally, text);
        }
    }
    tally.report("texts with degree signs at widths and heights")
}

fn constraints() -> Vec<(u8, [u16; 2])> {
    let mut constraints = vec![(0, [0, 0]), (1, [0, 0]), (2, [0, 0])];
    for code in 3..=5 {
        constraints.extend([0, 2, 4, 7].map(|value| (code, [value, 0])));
    }
    constraints.extend([(6, [1, 4]), (6, [3, 6]), (6, [5, 2])]);
    constraints
}

/// A column and its cell, if it has one.
fn columns() -> Vec<(Column, Option<Cell>)> {
    let texts: [Option<&[u8]>; 6] = [None, Some(b""), Some(b"ab"), Some(b"abcde"), Some(b"ab abc"), Some(b"    ")];
    let mut columns = Vec::new();
    for (constraint, values) in constraints() {
        let widths = values.map(|value| Width { unit: 0, value });
        for padding in [0, 1, 3] {
            let column = Column { left: padding, constraint, widths, ..Column::default() };
            columns.extend(texts.map(|text| (column.clone(), text.map(cell))));
        }
    }
    columns
}

/// Two columns; where the first has no cell, the second can have none either.
fn pairs() -> bool {
    let mut tally = Tally::default();
    let columns = columns();
    for (first, cell) in &columns {
        for (second, next) in &columns {
            if cell.is_none() && next.is_some() {
                continue;
            }
            let cells = cell.iter().chain(next).cloned().collect();
            let mut table = bare(vec![first.clone(), second.clone()], vec![Row { height: 0, cells }]);
            for target in 1..=WIDEST_TARGET {
                for arrangement in [1, 2] {
                    (table.target, table.arrangement) = (target, arrangement);
                    tally.try_sheet(&table);
                }
            }
        }
    }
    tally.report("pairs of columns at targets")
}

/// True if there was no difference.
pub fn all_agree() -> bool {
    let texts = texts();
    let signed = signed_texts();
    let pairs = pairs();
    texts && signed && pairs
}
