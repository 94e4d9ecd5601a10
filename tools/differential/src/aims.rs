//! Tables changed so that a report on them (document 02, order 5) stands at its edges: bounds equal to the
//! longest, several steps in one sheet, targets at the longest line, remainders smaller than the number of
//! columns, lines longer than others, pages without lines.

use crate::generate::{borders, longest, padding};
use crate::random::Random;
use crate::reading::Reading;
use crate::sheet::{Column, PERCENT, SIGN, STYLE_BYTES, Table, Width, used_widths};

const GREATEST: usize = 400;

/// A third of the tables are changed.
pub fn put(random: &mut Random, table: &mut Table) {
    if !random.one_in(3) {
        return;
    }
    match random.below(6) {
        0..=1 => bounds_at_longest(random, table),
        2..=3 => several_steps(random, table),
        4 => return untargeted(random, table),
        _ => {}
    }
    match random.below(12) {
        0..=2 => one_border(random, table),
        3 => no_rows(random, table),
        4..=5 => hide_one(random, table),
        _ => {}
    }
    if random.percent(60) {
        target_at_line(random, table);
    }
}

fn fixed(value: usize) -> Width {
    Width { unit: 0, value: value.min(GREATEST) as u16 }
}

fn constrain(column: &mut Column, constraint: u8, mut width: impl FnMut() -> Width) {
    (column.constraint, column.widths) = (constraint, [Width::default(); 2]);
    column.widths[..used_widths(constraint)].fill_with(|| width());
}

/// Where the bound is the longest, with padding and without, and right beside it.
fn bounds_at_longest(random: &mut Random, table: &mut Table) {
    for at in 0..table.columns.len() {
        let (longest, padding) = (longest(table, at), padding(&table.columns[at]));
        if random.percent(60) {
            let constraint = random.pick(&[4, 5, 5, 6]);
            let bound = || {
                let edge = random.pick(&[longest, longest + padding, longest + padding]);
                fixed(if random.one_in(2) { edge } else { random.near(edge, 1) })
            };
            constrain(&mut table.columns[at], constraint, bound);
        }
    }
}

/// Columns with a lower bound just above the average, an upper bound just within it, words that save some
/// of it, or a text without delimiters.
fn several_steps(random: &mut Random, table: &mut Table) {
    let average = random.between(5, 20);
    table.arrangement = random.pick(&[1, 1, 2]);
    for at in 0..table.columns.len() {
        let room = average + padding(&table.columns[at]);
        let column = &mut table.columns[at];
        match random.below(6) {
            0 => constrain(column, 4, || fixed(average + random.between(1, 3))),
            1 => constrain(column, 5, || fixed(room.saturating_sub(random.below(3)))),
            2..=3 => constrain(column, 0, Width::default),
            _ => continue,
        }
        let word = if random.one_in(3) { average } else { average.saturating_sub(random.between(1, 5)).max(1) };
        let count = random.between(2, 4);
        rewrite(random, table, at, word, count);
    }
    let visible: Vec<&Column> = table.columns.iter().filter(|column| column.constraint != 1).collect();
    let paddings: usize = visible.iter().map(|column| padding(column)).sum();
    let target = borders(&table.style, visible.len()) + paddings + average * visible.len();
    table.target = random.near(target, 1).clamp(1, GREATEST) as u16;
}

/// As many words in each line of the column, or as many characters without a delimiter.
fn rewrite(random: &mut Random, table: &mut Table, at: usize, word: usize, count: usize) {
    table.columns[at].delimiter = 0;
    let delimiter = if table.delimiter == 0 { b' ' } else { table.delimiter };
    let letter = if random.one_in(2) { &SIGN[..] } else { b"w" };
    let between = if random.one_in(3) { letter } else { &[delimiter] };
    let line = vec![letter.repeat(word); count].join(between);
    let cells = table.header.iter_mut().chain(&mut table.rows).filter_map(|row| row.cells.get_mut(at));
    for cell in cells {
        cell.delimiter = 0;
        cell.lines.iter_mut().for_each(|own| own.clone_from(&line));
    }
}

/// No target, or `Disabled`: upper bounds around the longest, and percents.
fn untargeted(random: &mut Random, table: &mut Table) {
    table.target = 0;
    if random.one_in(2) {
        (table.target, table.arrangement) = (random.between(1, 80) as u16, 0);
    }
    for at in 0..table.columns.len() {
        let (longest, padding) = (longest(table, at), padding(&table.columns[at]));
        let percent = Width { unit: PERCENT, value: random.between(0, 120) as u16 };
        match random.below(6) {
            0..=2 => {
                let bound = random.pick(&[longest, longest + padding]);
                constrain(&mut table.columns[at], 5, || fixed(random.near(bound, 1)));
            }
            3 => constrain(&mut table.columns[at], 3, || percent),
            4 => constrain(&mut table.columns[at], random.pick(&[4, 5, 6]), || percent),
            _ => {}
        }
    }
}

/// No junction set, one border alone: the longest line is the first or the last.
fn one_border(random: &mut Random, table: &mut Table) {
    let (shown, other) = random.pick(&[(0, 18), (18, 0)]);
    for junction in [2, 5, 9, 12, 16, 20] {
        table.style[junction] = 0;
    }
    table.style[shown + 1] = b'-';
    if random.percent(80) {
        table.style[other..other + 4].fill(0);
    }
}

/// No header and no rows, so that there are borders alone, or no line at all.
fn no_rows(random: &mut Random, table: &mut Table) {
    (table.header, table.rows) = (None, Vec::new());
    match random.below(3) {
        0 => table.style = [0; STYLE_BYTES],
        1 => {
            table.style[..4].fill(0);
            table.style[18..].fill(0);
        }
        _ => {}
    }
}

fn hide_one(random: &mut Random, table: &mut Table) {
    if !table.columns.is_empty() {
        let at = random.below(table.columns.len());
        constrain(&mut table.columns[at], 1, Width::default);
    }
}

/// The target at the longest line that `Disabled` gives, or as much above it as some columns would be
/// widened by.
fn target_at_line(random: &mut Random, table: &mut Table) {
    let target = if table.target == 0 { GREATEST as u16 } else { table.target };
    let plain = Table { arrangement: 0, target, ..table.clone() };
    let reading = Reading::new(&plain, None);
    let difference = reading.page(&reading.widths()).difference.expect("a target has a difference");
    let line = (i32::from(target) - difference) as usize;
    let visible = table.columns.iter().filter(|column| column.constraint != 1).count();
    let aimed = if random.one_in(3) { random.near(line, 2) } else { line + random.between(0, visible) };
    table.target = aimed.clamp(1, GREATEST) as u16;
    table.arrangement = random.pick(&[0, 1, 2, 2, 2]);
}
