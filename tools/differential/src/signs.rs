//! Degree signs put into the texts of a table: where its columns' widths wrap and cut, beside
//! delimiters, and lines of nothing else.

use crate::random::Random;
use crate::reading::Reading;
use crate::sheet::{SIGN, Table};

const LONGEST_LINE: usize = 200;

/// What a sign's place in a line is aimed at.
struct Aim {
    width: usize,
    indicator: usize,
    delimiter: u8,
}

/// About half of the tables get signs. A character that becomes a sign changes no width, so that the
/// table stays aimed as it was; a delimiter that does so may change the trials.
pub fn put(random: &mut Random, table: &mut Table) {
    if random.percent(30) {
        return;
    }
    let share = random.pick(&[30, 60, 100]);
    let widths = Reading::new(table, None).widths();
    let (indicator, delimiters) = (table.indicator.len(), delimiters(table));
    for row in table.header.iter_mut().chain(&mut table.rows) {
        for (at, cell) in row.cells.iter_mut().enumerate() {
            let delimiter = if cell.delimiter == 0 { delimiters[at] } else { cell.delimiter };
            let aim = Aim { width: widths[at], indicator, delimiter };
            for line in &mut cell.lines {
                if random.percent(share) {
                    *line = signed(random, line, &aim);
                }
            }
        }
    }
}

/// Of each column, for cells that have none.
fn delimiters(table: &Table) -> Vec<u8> {
    let space = if table.delimiter == 0 { b' ' } else { table.delimiter };
    table.columns.iter().map(|column| if column.delimiter == 0 { space } else { column.delimiter }).collect()
}

fn signed(random: &mut Random, line: &[u8], aim: &Aim) -> Vec<u8> {
    let mut signs = vec![false; line.len()];
    match random.below(12) {
        0..=3 => at_edges(random, &mut signs, aim),
        4 => at_cut(random, &mut signs, aim),
        5..=6 => beside(random, &mut signs, line, aim.delimiter),
        7 => signs.fill_with(|| random.percent(20)),
        8 => signs.fill_with(|| random.percent(70)),
        9 => return setpoints(random, aim.delimiter),
        10 => return only(random, aim.width),
        _ => signs.fill(true),
    }
    written(line, &signs)
}

/// The last column of a line, the first of the next, and those beside them.
fn at_edges(random: &mut Random, signs: &mut [bool], aim: &Aim) {
    for edge in (0..=signs.len()).step_by(aim.width) {
        let from = edge.saturating_sub(random.between(0, 2));
        let to = (edge + random.between(0, 2)).min(signs.len());
        signs[from.min(to)..to].fill(true);
    }
}

/// Where an indicator would begin, in each line that may be the last.
fn at_cut(random: &mut Random, signs: &mut [bool], aim: &Aim) {
    let room = aim.width.saturating_sub(aim.indicator);
    for start in (0..signs.len()).step_by(aim.width) {
        let at = random.near(start + room, 1);
        if let Some(sign) = signs.get_mut(at) {
            *sign = true;
        }
    }
}

fn beside(random: &mut Random, signs: &mut [bool], line: &[u8], delimiter: u8) {
    for at in 0..line.len() {
        let beside = [at.wrapping_sub(1), at + 1].iter().any(|other| line.get(*other) == Some(&delimiter));
        signs[at] = beside && line[at] != delimiter && random.percent(70);
    }
}

/// Signs take the place of characters, as far as the line has room for their second bytes.
fn written(line: &[u8], signs: &[bool]) -> Vec<u8> {
    let mut written = Vec::new();
    for (byte, sign) in line.iter().zip(signs) {
        let character = if *sign { &SIGN[..] } else { std::slice::from_ref(byte) };
        if written.len() + character.len() > LONGEST_LINE {
            break;
        }
        written.extend(character);
    }
    written
}

/// What managers type.
fn setpoints(random: &mut Random, delimiter: u8) -> Vec<u8> {
    let mut line = Vec::new();
    for position in 0..random.between(1, 4) {
        if position > 0 {
            line.push(delimiter);
        }
        line.extend(format!("{}.{}\u{B0}C", random.between(5, 30), random.pick(&[0, 5])).into_bytes());
    }
    line
}

/// As many as a line of the sheet takes, or about as many as the column has room for.
fn only(random: &mut Random, width: usize) -> Vec<u8> {
    let count = if random.one_in(12) { 100 } else { random.near(width, 2) };
    SIGN.repeat(count.min(LONGEST_LINE / SIGN.len()))
}
