//! Accepted sheets aimed at the edges of the rules.

use crate::random::Random;
use crate::sheet::{Cell, Column, LONGEST_SHEET, PERCENT, Row, SIGN, STYLE_BYTES, Table, Width, encode, used_widths};
use crate::{aims, signs};

const GRID: [u8; STYLE_BYTES] = *b"+-++|||+=++|||+-+++-++";

/// What the sheet's texts are made of.
struct Texts {
    /// The delimiter that most of the sheet uses; 0 leaves it unset.
    mark: u8,
    /// Words are about this long.
    scale: usize,
}

/// Accepted sheet number `index`, small enough for the format.
pub fn table(seed: u64, index: u64) -> Table {
    let mut random = Random::new(seed, index);
    loop {
        let table = candidate(&mut random);
        if encode(&table).bytes.len() <= LONGEST_SHEET {
            return table;
        }
    }
}

fn candidate(random: &mut Random) -> Table {
    let texts = texts(random);
    let count = column_count(random);
    let (full, constraints) = (random.percent(70), constraints(random));
    let (header, rows) = (random.percent(35), row_count(random));
    let mut table = Table {
        arrangement: random.pick(&[0, 1, 1, 1, 2, 2]),
        target: 0,
        delimiter: if random.percent(50) { texts.mark } else { delimiter(random, texts.mark, 20) },
        indicator: indicator(random),
        style: style(random),
        columns: (0..count).map(|_| column(random, texts.mark, constraints)).collect(),
        header: header.then(|| row(random, &texts, count, full)),
        rows: (0..rows).map(|_| row(random, &texts, count, full)).collect(),
    };
    aim(random, &mut table);
    signs::put(random, &mut table);
    aims::put(random, &mut table);
    table
}

fn texts(random: &mut Random) -> Texts {
    let mark = random.pick(&[0, 0, b' ', b' ', b'a', b'a', b'-', b'/']);
    let scale = match random.below(10) {
        0..=4 => random.between(1, 6),
        5..=8 => random.between(3, 14),
        _ => random.between(10, 60),
    };
    Texts { mark, scale }
}

fn column_count(random: &mut Random) -> usize {
    match random.below(100) {
        0..=1 => 0,
        2..=29 => 1,
        30..=57 => 2,
        58..=79 => 3,
        80..=90 => 4,
        _ => random.between(5, 12),
    }
}

fn row_count(random: &mut Random) -> usize {
    match random.below(1000) {
        0..=49 => 0,
        50..=599 => 1,
        600..=849 => 2,
        850..=994 => random.between(3, 6),
        995..=998 => random.between(7, 20),
        _ => 100,
    }
}

/// Mostly the sheet's own delimiter, else none or another one.
fn delimiter(random: &mut Random, mark: u8, percent_set: usize) -> u8 {
    if !random.percent(percent_set) {
        return 0;
    }
    if random.percent(60) { mark } else { random.pick(b" ab-~") }
}

fn indicator(random: &mut Random) -> Vec<u8> {
    match random.below(10) {
        0..=2 => b"...".to_vec(),
        3 => Vec::new(),
        4..=8 => b"<~~~~~~>"[..random.between(1, 8)].to_vec(),
        _ => vec![b' '; random.between(1, 3)],
    }
}

fn style(random: &mut Random) -> [u8; STYLE_BYTES] {
    let mut style = [0; STYLE_BYTES];
    match random.below(100) {
        0..=19 => return GRID,
        20..=29 => return style,
        30..=36 => style[random.below(STYLE_BYTES)] = b'!',
        37..=49 => fill_style(random, &mut style, 100),
        50..=64 => fill_style(random, &mut style, 15),
        65..=79 => fill_style(random, &mut style, 60),
        80..=89 => clear_places(random, &mut style, &[2, 5, 9, 12, 16, 20]),
        _ => clear_lines(random, &mut style),
    }
    style
}

fn fill_style(random: &mut Random, style: &mut [u8; STYLE_BYTES], percent_set: usize) {
    for byte in style.iter_mut() {
        if random.percent(percent_set) {
            *byte = random.pick(b"+-=|#.:o!^_ ");
        }
    }
}

/// All set but the junctions, or all set but the junctions and one side.
fn clear_places(random: &mut Random, style: &mut [u8; STYLE_BYTES], places: &[usize]) {
    fill_style(random, style, 100);
    for place in places {
        style[*place] = 0;
    }
    let side: &[usize] = random.pick(&[&[], &[0, 4, 7, 11, 14, 18], &[3, 6, 10, 13, 17, 21]]);
    for place in side {
        style[*place] = 0;
    }
}

/// Whole borders, rules or line styles unset.
fn clear_lines(random: &mut Random, style: &mut [u8; STYLE_BYTES]) {
    fill_style(random, style, 100);
    for (from, to) in [(0, 4), (4, 7), (7, 11), (11, 14), (14, 18), (18, 22)] {
        if random.percent(40) {
            style[from..to].fill(0);
        }
    }
}

/// The codes that the sheet's columns choose from: none, so that the later steps decide; bounds of one
/// kind, so that they meet in one pass; or all.
fn constraints(random: &mut Random) -> &'static [u8] {
    match random.below(20) {
        0..=5 => &[0],
        6..=7 => &[0, 4, 4, 6],
        8 => &[0, 5, 5, 6],
        9 => &[0, 2, 3, 3],
        _ => &[0, 0, 0, 0, 1, 2, 3, 3, 4, 4, 5, 5, 6, 6],
    }
}

fn column(random: &mut Random, mark: u8, constraints: &[u8]) -> Column {
    let mut padding = || match random.below(20) {
        0..=7 => 0,
        8..=14 => 1,
        15..=18 => random.between(2, 4) as u8,
        _ => random.between(5, 20) as u8,
    };
    let (left, right) = (padding(), padding());
    let constraint = random.pick(constraints);
    Column {
        left,
        right,
        delimiter: delimiter(random, mark, 20),
        alignment: random.pick(&[0, 0, 1, 2, 3, 3]),
        constraint,
        widths: [Width::default(); 2],
    }
}

fn row(random: &mut Random, texts: &Texts, columns: usize, full: bool) -> Row {
    let height = match random.below(20) {
        0..=8 => 0,
        9..=18 => random.between(1, 3),
        _ => random.pick(&[4, 8, 9, 255]),
    };
    let cells = if full && !random.one_in(12) { columns } else { random.between(0, columns) };
    Row { height: height as u8, cells: (0..cells).map(|_| cell(random, texts)).collect() }
}

fn cell(random: &mut Random, texts: &Texts) -> Cell {
    let lines = match random.below(20) {
        0..=15 => 1,
        16..=18 => random.between(2, 3),
        _ => random.between(4, 8),
    };
    Cell {
        delimiter: delimiter(random, texts.mark, 15),
        alignment: random.pick(&[0, 0, 0, 1, 2, 3]),
        lines: (0..lines).map(|_| line(random, texts)).collect(),
    }
}

fn line(random: &mut Random, texts: &Texts) -> Vec<u8> {
    let mark = if texts.mark == 0 { b' ' } else { texts.mark };
    let mut line = match random.below(20) {
        0 => Vec::new(),
        1..=2 => vec![mark; random.between(1, 9)],
        3..=4 => vec![b'x'; random.between(1, 3 * texts.scale)],
        5..=7 => (0..random.between(1, 3 * texts.scale)).map(|_| random.pick(&[mark, mark, b'b', b'c'])).collect(),
        8..=9 => (0..random.between(1, 2 * texts.scale)).map(|_| random.between(0x20, 0x7E) as u8).collect(),
        _ => words(random, texts.scale, mark),
    };
    if random.one_in(400) {
        line = line.repeat(200 / line.len().max(1));
    }
    line.truncate(200);
    line
}

fn words(random: &mut Random, scale: usize, mark: u8) -> Vec<u8> {
    let mut line = Vec::new();
    for position in 0..random.between(1, 6) {
        if position > 0 {
            line.push(mark);
        }
        let longest = if random.one_in(6) { 2 * scale + 2 } else { scale };
        line.extend((0..random.between(0, longest)).map(|at| b"bcdefghijk"[(at + position) % 10]));
    }
    line
}

/// In characters.
pub fn longest(table: &Table, at: usize) -> usize {
    let cells = table.header.iter().chain(&table.rows).filter_map(|row| row.cells.get(at));
    let length = |line: &Vec<u8>| line.iter().filter(|byte| **byte != SIGN[1]).count();
    cells.flat_map(|cell| &cell.lines).map(length).max().unwrap_or(0)
}

pub fn padding(column: &Column) -> usize {
    usize::from(column.left) + usize::from(column.right)
}

pub fn borders(style: &[u8; STYLE_BYTES], visible: usize) -> usize {
    let set = |places: [usize; 6]| places.iter().any(|place| style[*place] != 0);
    let between = if set([2, 5, 9, 12, 16, 20]) { visible.saturating_sub(1) } else { 0 };
    usize::from(set([0, 4, 7, 11, 14, 18])) + usize::from(set([3, 6, 10, 13, 17, 21])) + between
}

/// The target first, then bounds near the widths at which the rules turn.
fn aim(random: &mut Random, table: &mut Table) {
    let visible: Vec<usize> = (0..table.columns.len()).filter(|at| table.columns[*at].constraint != 1).collect();
    let paddings: usize = visible.iter().map(|at| padding(&table.columns[*at])).sum();
    let texts: usize = visible.iter().map(|at| longest(table, *at)).sum();
    let borders = borders(&table.style, visible.len());
    let natural = borders + paddings + texts;
    let target = match random.below(20) {
        0..=1 => 0,
        2..=3 => random.between(1, 12),
        4 => borders + paddings + random.between(0, visible.len() + 1),
        5..=8 => random.near(natural, 3),
        9..=12 => random.between(borders + paddings, natural),
        13..=16 => borders + paddings + random.between(0, 8 * visible.len() + 3),
        17 => random.between(natural, natural + 40),
        18 => random.between(1, 100),
        _ => random.between(1, 400),
    };
    table.target = target.min(400) as u16;
    let average = target.saturating_sub(borders + paddings) / visible.len().max(1);
    for at in 0..table.columns.len() {
        let (longest, padding) = (longest(table, at), padding(&table.columns[at]));
        for which in 0..used_widths(table.columns[at].constraint) {
            table.columns[at].widths[which] = width(random, target, average, longest, padding);
        }
    }
}

fn width(random: &mut Random, target: usize, average: usize, longest: usize, padding: usize) -> Width {
    if random.one_in(4) {
        let around = if target > 0 { 100 * (average + padding) / target } else { 50 };
        let value = match random.below(8) {
            0..=2 => random.near(around, 4),
            3..=4 => random.between(0, 60),
            _ => random.pick(&[0, 1, 33, 50, 99, 100, 101, 150, 250, 65_535]),
        };
        return Width { unit: PERCENT, value: value as u16 };
    }
    let value = match random.below(12) {
        0 => random.between(0, padding),
        1..=2 => random.near(average, 2),
        3..=5 => random.near(average + padding, 2),
        6 => random.near(longest, 2),
        7..=9 => random.near(longest + padding, 2),
        10 => random.between(0, 30),
        _ => random.pick(&[0, 1, 2, 60, 200, 399, 400]),
    };
    Width { unit: 0, value: value.min(400) as u16 }
}
