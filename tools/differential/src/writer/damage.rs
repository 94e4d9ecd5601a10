//! Damaged tables for the writer: each kind of number at its limits and beyond what its field can hold,
//! texts, counts, slices that contradict themselves, and tables around the longest sheet.

use super::{Cell, Column, Row, Table, described, size, slices};
use crate::generate;
use crate::random::Random;
use crate::sheet::{LONGEST_SHEET, SIGN, encode};
use crate::slices::{Slices, take_apart};

/// Slices of damaged table number `index`, and the room that its buffer has. Some are still in order.
pub fn trial(seed: u64, index: u64) -> (Slices, usize) {
    let mut random = Random::new(seed ^ 0x0D0C_0204, !index);
    let mut table = undamaged(seed, index);
    if random.one_in(60) {
        table = near_longest(&mut random, table);
    } else {
        damage(&mut random, &mut table);
    }
    let mut slices = slices(&table);
    if random.one_in(5) {
        contradict(&mut random, &mut slices);
    }
    let room = room(&mut random, &slices);
    (slices, room)
}

/// An accepted sheet's table, of few rows.
fn undamaged(seed: u64, index: u64) -> Table {
    let mut table = generate::table(!seed, index);
    table.rows.truncate(3);
    described(&take_apart(&encode(&table).bytes)).expect("an accepted sheet describes a table")
}

fn damage(random: &mut Random, table: &mut Table) {
    match random.below(20) {
        0..=1 => {}
        2..=7 => at_number(random, table),
        8..=11 => at_count(random, table),
        12..=15 => at_text(random, table),
        16 => at_width(random, table),
        _ => {
            for _ in 0..random.between(2, 4) {
                match random.below(3) {
                    0 => at_number(random, table),
                    1 => at_count(random, table),
                    _ => at_text(random, table),
                }
            }
        }
    }
}

#[derive(Clone, Copy, Debug, PartialEq)]
enum Kind {
    Edition,
    Arrangement,
    Target,
    Delimiter,
    Padding,
    Alignment,
    Constraint,
    Unit,
    Fixed,
    Percent,
    UnusedUnit,
    UnusedValue,
    Limit,
}

/// Every number of the table but counts and lengths.
fn numbers(table: &mut Table) -> Vec<(Kind, &mut u16)> {
    let mut numbers = vec![
        (Kind::Edition, &mut table.edition),
        (Kind::Arrangement, &mut table.arrangement),
        (Kind::Target, &mut table.target),
        (Kind::Delimiter, &mut table.delimiter),
    ];
    for column in &mut table.columns {
        let used = [column.constraint > 2, column.constraint > 5];
        numbers.extend([(Kind::Padding, &mut column.left), (Kind::Padding, &mut column.right)]);
        numbers.extend([(Kind::Delimiter, &mut column.delimiter), (Kind::Alignment, &mut column.alignment)]);
        numbers.push((Kind::Constraint, &mut column.constraint));
        for (width, used) in column.widths.iter_mut().zip(used) {
            let (unit, value) = match (used, width.unit) {
                (false, _) => (Kind::UnusedUnit, Kind::UnusedValue),
                (true, 0) => (Kind::Unit, Kind::Fixed),
                (true, _) => (Kind::Unit, Kind::Percent),
            };
            numbers.extend([(unit, &mut width.unit), (value, &mut width.value)]);
        }
    }
    for row in table.header.iter_mut().chain(&mut table.rows) {
        numbers.push((Kind::Limit, &mut row.limit));
        for cell in &mut row.cells {
            numbers.extend([(Kind::Delimiter, &mut cell.delimiter), (Kind::Alignment, &mut cell.alignment)]);
        }
    }
    numbers
}

/// A number of a kind chosen evenly, on either side of its limits.
fn at_number(random: &mut Random, table: &mut Table) {
    let mut numbers = numbers(table);
    let mut kinds: Vec<Kind> = Vec::new();
    for (kind, _) in &numbers {
        if !kinds.contains(kind) {
            kinds.push(*kind);
        }
    }
    let kind = random.pick(&kinds);
    numbers.retain(|(each, _)| *each == kind);
    let at = random.below(numbers.len());
    *numbers[at].1 = edge(random, kind);
}

/// Some are right modulo 256, some in their low byte or their high byte alone.
fn edge(random: &mut Random, kind: Kind) -> u16 {
    random.pick(match kind {
        Kind::Edition => &[0, 2, 255, 256, 257, 65_535],
        Kind::Arrangement => &[2, 3, 255, 256, 257, 65_535],
        Kind::Target => &[400, 401, 511, 512, 656, 65_535],
        Kind::Delimiter => &[0, 1, 10, 31, 32, 126, 127, 176, 194, 255, 256, 288, 65_535],
        Kind::Padding => &[20, 21, 255, 256, 276, 65_535],
        Kind::Alignment => &[3, 4, 255, 256, 259, 65_535],
        Kind::Constraint => &[0, 2, 3, 5, 6, 7, 255, 256, 262, 65_535],
        Kind::Unit => &[0, 1, 2, 255, 256, 257, 65_535],
        Kind::Fixed => &[400, 401, 512, 656, 65_535],
        Kind::Percent => &[0, 100, 401, 65_535],
        Kind::UnusedUnit => &[1, 2, 255, 256, 257, 65_535],
        Kind::UnusedValue => &[1, 255, 256, 257, 512, 65_280, 65_535],
        Kind::Limit => &[1, 255, 256, 257, 511, 65_535],
    })
}

/// An unused width, or a used one, with both of its numbers set.
fn at_width(random: &mut Random, table: &mut Table) {
    if table.columns.is_empty() {
        return;
    }
    let at = random.below(table.columns.len());
    let width = &mut table.columns[at].widths[random.below(2)];
    width.unit = random.pick(&[0, 0, 1, 256]);
    width.value = edge(random, Kind::UnusedValue);
}

/// A list or a text at its limit, beyond it, or beyond what a byte can count; the slices fit.
fn at_count(random: &mut Random, table: &mut Table) {
    let columns = table.columns.len();
    match random.below(9) {
        0 => table.indicator.resize(random.pick(&[0, 8, 9, 255, 256, 300]), b'.'),
        1 => table.style.resize(random.pick(&[0, 21, 23, 255, 256, 278]), b'-'),
        2 => table.columns.resize(random.pick(&[12, 13, 255, 256, 268]), Column::default()),
        3 => table.header.resize(random.pick(&[0, 1, 2, 255, 256, 257]), Row::default()),
        4 => table.rows.resize(random.pick(&[100, 101, 255, 256, 356]), Row::default()),
        5 => {
            let count = random.pick(&[columns, columns + 1, 12, 13, 255, 256, 256 + columns]);
            some_row(random, table).cells.resize(count, empty_cell());
        }
        6 => {
            let count = random.pick(&[0, 1, 8, 9, 255, 256, 264]);
            some_cell(random, table).lines.resize(count, Vec::new());
        }
        7 => table.header = vec![Row::default()],
        _ => {
            let (count, signs) = (random.pick(&[200, 200, 201, 255, 256, 456]), random.one_in(2));
            *some_line(random, table) = text(count, signs);
        }
    }
}

fn empty_cell() -> Cell {
    Cell { lines: vec![Vec::new()], ..Cell::default() }
}

/// One is put there if there is none.
fn some_row<'a>(random: &mut Random, table: &'a mut Table) -> &'a mut Row {
    if table.header.is_empty() && table.rows.is_empty() {
        table.rows.push(Row::default());
    }
    let at = random.below(table.header.len() + table.rows.len());
    table.header.iter_mut().chain(&mut table.rows).nth(at).expect("a row")
}

fn some_cell<'a>(random: &mut Random, table: &'a mut Table) -> &'a mut Cell {
    let row = some_row(random, table);
    if row.cells.is_empty() {
        row.cells.push(empty_cell());
    }
    let at = random.below(row.cells.len());
    &mut row.cells[at]
}

fn some_line<'a>(random: &mut Random, table: &'a mut Table) -> &'a mut Vec<u8> {
    let cell = some_cell(random, table);
    if cell.lines.is_empty() {
        cell.lines.push(Vec::new());
    }
    let at = random.below(cell.lines.len());
    &mut cell.lines[at]
}

/// As many bytes, of signs if asked; one is left over where they don't come out even.
fn text(length: usize, signs: bool) -> Vec<u8> {
    let mut text = if signs { SIGN.repeat(length / 2) } else { Vec::new() };
    text.resize(length, b'a');
    text
}

/// A wrong byte, or half of a pair: also as a line's last byte, and with the other half in the next line.
fn at_text(random: &mut Random, table: &mut Table) {
    let [first, second] = SIGN;
    let byte = random.pick(&[0, 1, 10, 31, 32, 126, 127, 128, 255, first, second]);
    match random.below(8) {
        0 => put(random, &mut table.indicator, byte),
        1 => put(random, &mut table.style, byte),
        2 if table.indicator.len() > 1 => table.indicator.splice(..2, SIGN).for_each(drop),
        3..=4 => {
            let line = some_line(random, table);
            put(random, line, byte);
        }
        5 => some_line(random, table).push(first),
        6 => some_line(random, table).insert(0, second),
        _ => {
            let cell = some_cell(random, table);
            cell.lines.truncate(6);
            cell.lines.extend([vec![b'a', first], vec![second]]);
        }
    }
}

fn put(random: &mut Random, text: &mut Vec<u8>, byte: u8) {
    match text.len() {
        0 => text.push(byte),
        length => text[random.below(length)] = byte,
    }
}

/// Numbers or text cut short or too long, or a number that no longer fits the others.
fn contradict(random: &mut Random, slices: &mut Slices) {
    let Slices { numbers, text } = slices;
    match random.below(10) {
        0 => numbers.truncate(random.below(numbers.len())),
        1 => text.truncate(random.below(text.len().max(1))),
        2 => numbers.truncate(numbers.len() - 1),
        3 => text.truncate(text.len().saturating_sub(1)),
        4 => numbers.extend((0..random.between(1, 3)).map(|_| random.pick(&[0, 1, 256]))),
        5 => text.extend((0..random.between(1, 3)).map(|_| random.pick(&[0, b'a', 255]))),
        6 => {
            numbers.truncate(random.below(numbers.len()));
            text.extend(b"left");
        }
        7 => _ = numbers.remove(random.below(numbers.len())),
        8 => numbers.insert(random.below(numbers.len()), random.pick(&[0, 1, 2, 65_535])),
        _ => {
            let at = random.below(numbers.len());
            let number = numbers[at];
            numbers[at] = random.pick(&[number.wrapping_add(1), number.wrapping_sub(1), number ^ 256, 65_535]);
        }
    }
}

/// A table that needs 32,767 to 32,769 bytes, or many more, in order but for its length or with a fault:
/// by one text, by lists that are too long, or by rows within their limits.
fn near_longest(random: &mut Random, mut table: Table) -> Table {
    if random.one_in(3) {
        damage(random, &mut table);
    }
    let wanted = LONGEST_SHEET + random.pick(&[0, 0, 0, 1, 1, 2, 30_000]) - 1;
    let missing = |table: &Table| wanted.saturating_sub(size(table));
    match random.below(6) {
        0 => table.indicator.resize(table.indicator.len() + missing(&table), b'.'),
        1 => table.style.resize(table.style.len() + missing(&table), b'-'),
        2 => {
            table.columns.resize(table.columns.len() + missing(&table) / 11, Column::default());
            table.indicator.resize(table.indicator.len() + missing(&table), b'.');
        }
        3 => {
            table.rows.resize(table.rows.len() + missing(&table) / 2, Row::default());
            table.indicator.resize(table.indicator.len() + missing(&table), b'.');
        }
        4 => {
            table.rows.push(Row { limit: 1, cells: vec![empty_cell()] });
            let line = text(missing(&table), true);
            table.rows.last_mut().expect("the row").cells[0].lines = vec![line];
        }
        _ => within_limits(&mut table, wanted),
    }
    table
}

/// One cell in each row, of lines up to 200 bytes: as many as are needed.
fn within_limits(table: &mut Table, wanted: usize) {
    if table.columns.is_empty() {
        table.columns.push(Column::default());
    }
    let row = |lines: Vec<Vec<u8>>| Row { limit: 1, cells: vec![Cell { lines, ..Cell::default() }] };
    // A row of one cell takes 5 bytes beside its lines, a line 1 beside its text.
    while size(table) + 2 * (5 + 8 * 201) < wanted {
        table.rows.push(row(vec![text(200, true); 8]));
    }
    while size(table) + 2 * (5 + 201) < wanted {
        table.rows.push(row(vec![text(200, false)]));
    }
    while size(table) + 6 <= wanted {
        let length = (wanted - size(table) - 6).min(200);
        // What is left over must be none, or enough for another row.
        let left = wanted - size(table) - 6 - length;
        let length = if (1..6).contains(&left) { length - 6 } else { length };
        table.rows.push(row(vec![text(length, false)]));
    }
}

/// Exactly enough, more, a byte less, far less.
fn room(random: &mut Random, slices: &Slices) -> usize {
    let needed = described(slices).map_or(40, |table| size(&table));
    let few = needed.saturating_sub(random.between(1, 40));
    random.pick(&[needed, needed, needed + 1, needed + 40, needed.saturating_sub(1), few, needed / 2, 0])
}
