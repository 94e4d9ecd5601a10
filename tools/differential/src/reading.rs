//! Document 01's rules as a program, written from the document, with document 02's order 1: "widths,
//! cuts and alignment count characters". For order 5 each rule that fixes a column notes so. Quoted words
//! are the documents'. Widths, wrapping, then cutting, aligning and drawing stand in files of their own. On
//! request it makes one of the planted mistakes, to show that the comparison would notice.

use std::cell::Cell as Shared;

mod drawing;
mod widths;
mod wrapping;

use crate::marks::{Rule, Rules, Slip};
use crate::sheet::{Cell, Column, SIGN, Table};

/// A character is the number that its bytes make: a printable byte is itself, the pair C2 B0 is C2B0.
type Text = Vec<u16>;

const DEGREE: u16 = u16::from_be_bytes(SIGN);
const SPACE: u16 = b' ' as u16;

fn byte_length(text: &[u16]) -> usize {
    text.iter().map(|character| 1 + usize::from(*character > 0xFF)).sum()
}

fn put(text: &[u16]) -> Vec<u8> {
    let bytes = |character: &u16| character.to_be_bytes().into_iter().skip(usize::from(*character <= 0xFF));
    text.iter().flat_map(bytes).collect()
}

/// A text cut in two after so many bytes, wherever that is; for mistakes.
fn split_at_byte(text: &[u16], at: usize) -> (Text, Text) {
    let bytes: Text = put(text).into_iter().map(u16::from).collect();
    let (head, rest) = bytes.split_at(at.min(bytes.len()));
    (head.to_vec(), rest.to_vec())
}

const LEFTS: [usize; 6] = [0, 4, 7, 11, 14, 18];
const JUNCTIONS: [usize; 6] = [2, 5, 9, 12, 16, 20];
const RIGHTS: [usize; 6] = [3, 6, 10, 13, 17, 21];

const HIDDEN: u8 = 1;

pub struct Reading<'a> {
    table: &'a Table,
    slip: Option<Slip>,
    longest: Vec<usize>,
    fired: Shared<Rules>,
    /// Split trials aren't drawn, so they show no wrapping rule.
    trial: Shared<bool>,
}

impl<'a> Reading<'a> {
    pub fn new(table: &'a Table, slip: Option<Slip>) -> Self {
        let fired = Shared::new(Rules::default());
        let mut reading = Reading { table, slip, longest: vec![], fired, trial: Shared::new(false) };
        reading.longest = (0..table.columns.len()).map(|at| reading.longest(at)).collect();
        reading
    }

    pub fn fired(&self) -> Rules {
        self.fired.get()
    }

    fn fire(&self, rule: Rule) {
        let mut fired = self.fired.get();
        fired.add(rule);
        self.fired.set(fired);
    }

    fn fire_if(&self, condition: bool, rule: Rule) {
        if condition {
            self.fire(rule);
        }
    }

    fn fire_wrap(&self, condition: bool, rule: Rule) {
        self.fire_if(condition && !self.trial.get(), rule);
    }

    fn slips(&self, slip: Slip) -> bool {
        self.slip == Some(slip)
    }

    /// "the pair C2 B0 (hexadecimal), U+00B0, which is one character, one column and two bytes"
    fn characters(&self, line: &[u8]) -> Text {
        let mut characters = Text::new();
        for byte in line {
            match characters.last_mut() {
                Some(last) if *byte == SIGN[1] && !self.slips(Slip::PairTwoColumns) => *last = DEGREE,
                _ => characters.push(u16::from(*byte)),
            }
        }
        characters
    }

    // The table.

    fn column(&self, at: usize) -> &'a Column {
        &self.table.columns[at]
    }

    fn hidden(&self, at: usize) -> bool {
        self.column(at).constraint == HIDDEN
    }

    fn visible(&self) -> impl Iterator<Item = usize> {
        (0..self.table.columns.len()).filter(|at| !self.hidden(*at))
    }

    fn padding(&self, at: usize) -> usize {
        usize::from(self.column(at).left) + usize::from(self.column(at).right)
    }

    /// The column's cells, the header's first, less those of the first rows left out.
    fn cells(&self, at: usize, left_out: usize) -> impl Iterator<Item = &'a Cell> {
        let rows = self.table.header.iter().chain(&self.table.rows).skip(left_out);
        rows.filter_map(move |row| row.cells.get(at))
    }

    fn set(&self, places: &[usize]) -> bool {
        places.iter().any(|place| self.table.style[*place] != 0)
    }
}
