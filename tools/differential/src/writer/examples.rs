//! Examples of document 02's order 4: the desk's table saved, slices that contradict themselves, each
//! number that can come, and what is distinct though it prints alike.

use super::{Cell, Column, Row, Table, Width, described, save, second, slices, written};
use crate::examples::trial_desk;
use crate::sheet::{Refusal, SIGN};
use crate::slices::{Slices, take_apart};

/// The desk's table as the editor gives it, spelled out.
fn desk() -> Slices {
    let mut numbers = vec![1, 1, 20, 0, 0, 22, 2];
    for _ in 0..2 {
        numbers.extend([1, 1, 0, 0, 0, 0, 0, 0, 0]);
    }
    numbers.extend([0, 1, 0, 2, 0, 0, 1, 2, 0, 0, 1, 15]);
    let text = [&b"+-++|||+=++|||+-+++-++"[..], b"ab", b"the quick brown"].concat();
    Slices { numbers, text }
}

/// By both readings.
fn gives(slices: &Slices, room: usize, saved: Result<Vec<u8>, Refusal>) -> bool {
    save(slices, room) == saved && second::save(slices, room) == saved
}

fn refuses(slices: &Slices, room: usize, number: u8, place: usize) -> bool {
    gives(slices, room, Err(Refusal { number, place }))
}

fn saving() -> Vec<(&'static str, bool)> {
    let (desk, sheet) = (desk(), trial_desk());
    vec![
        ("the desk's sheet taken apart", take_apart(&sheet) == desk),
        ("the desk's slices by its table", described(&desk).is_ok_and(|table| slices(&table) == desk)),
        ("the desk's sheet, room to spare", gives(&desk, 83, Ok(sheet.clone()))),
        ("the desk's sheet, exactly full", gives(&desk, 81, Ok(sheet))),
        ("the desk's sheet, a byte short", refuses(&desk, 80, 22, 81)),
        ("the desk's sheet, no buffer", refuses(&desk, 0, 22, 81)),
    ]
}

fn contradicting() -> Vec<(&'static str, bool)> {
    let Slices { numbers, text } = desk();
    let get = |numbers: &[u16], text: &[u8], number: u8, place: usize| {
        refuses(&Slices { numbers: numbers.to_vec(), text: text.to_vec() }, 100, number, place)
    };
    vec![
        ("no slices", get(&[], &[], 1, 0)),
        ("slices: each number missing", (0..37).all(|taken| get(&numbers[..taken], &text, 1, taken))),
        ("slices: text missing", get(&numbers, &text[..38], 1, 37)),
        ("slices: style missing", get(&numbers, &[], 1, 6)),
        ("slices: number left", get(&[&numbers[..], &[0]].concat(), &text, 9, 37)),
        ("slices: text left", get(&numbers, &[&text[..], b"a"].concat(), 9, 37)),
        ("slices: missing before left over", get(&[1, 1, 20, 0, 1, 7], &[], 1, 5)),
        ("slices: before fields", get(&[2], &[], 1, 1)),
    ]
}

fn begun(edition: u16, arrangement: u16, target: u16) -> Table {
    Table { edition, arrangement, target, ..marked(b"", &[0; 22]) }
}

fn marked(indicator: &[u8], style: &[u8]) -> Table {
    Table {
        edition: 1,
        arrangement: 0,
        target: 0,
        delimiter: 0,
        indicator: indicator.to_vec(),
        style: style.to_vec(),
        columns: vec![],
        header: vec![],
        rows: vec![],
    }
}

fn columned(columns: Vec<Column>, header: Vec<Row>, rows: Vec<Row>) -> Table {
    Table { columns, header, rows, ..marked(b"", &[0; 22]) }
}

fn bounded(constraint: u16, widths: [(u16, u16); 2]) -> Table {
    let widths = widths.map(|(unit, value)| Width { unit, value });
    columned(vec![Column { constraint, widths, ..Column::default() }], vec![], vec![])
}

fn limited(limit: u16) -> Row {
    Row { limit, cells: vec![] }
}

fn celled(delimiter: u16, alignment: u16, lines: &[&[u8]]) -> Table {
    let lines = lines.iter().map(|line| line.to_vec()).collect();
    let row = Row { limit: 0, cells: vec![Cell { delimiter, alignment, lines }] };
    columned(vec![Column::default()], vec![], vec![row])
}

/// One row of so many cells in so many columns.
fn cells(columns: usize, cells: usize) -> Table {
    let cell = Cell { lines: vec![vec![]], ..Cell::default() };
    let row = Row { limit: 0, cells: vec![cell; cells] };
    columned(vec![Column::default(); columns], vec![], vec![row])
}

fn settings() -> Vec<(&'static str, bool)> {
    let gets = |table: Table, number: u8, place: usize| refuses(&slices(&table), 0, number, place);
    let passes = |table: Table, size: usize| refuses(&slices(&table), size - 1, 22, size);
    let right = Column { right: 21, ..Column::default() };
    vec![
        ("saving edition 2", gets(begun(2, 9, 0), 3, 0)),
        ("saving edition 257", gets(begun(257, 0, 0), 3, 0)),
        ("saving arrangement 3", gets(begun(1, 3, 401), 4, 1)),
        ("saving target 401", gets(begun(1, 2, 401), 5, 2)),
        ("saving target 400", passes(begun(1, 2, 400), 32)),
        ("saving an indicator of 9", gets(marked(&[b'.'; 9], &[0; 22]), 5, 5)),
        ("saving a pair in the indicator", gets(marked(b".\xC2\xB0", &[0; 22]), 6, 7)),
        ("saving a style of 21", gets(marked(b"", &[0; 21]), 5, 6)),
        ("saving a style of 7F", gets(marked(b"..", &[&[0, 127][..], &[0; 20]].concat()), 6, 10)),
        ("saving right padding 21", gets(columned(vec![right], vec![], vec![]), 5, 31)),
        ("saving unit 2", gets(bounded(3, [(2, 0), (0, 0)]), 4, 35)),
        ("saving fixed 401", gets(bounded(3, [(0, 401), (0, 0)]), 5, 36)),
        ("saving percent 65,535", passes(bounded(3, [(1, 65_535), (0, 0)]), 43)),
        ("saving an unused unit", gets(bounded(2, [(1, 0), (0, 0)]), 8, 35)),
        ("saving an unused 257", gets(bounded(2, [(0, 257), (0, 0)]), 8, 36)),
        ("saving an unused 256", gets(bounded(2, [(0, 256), (0, 0)]), 8, 37)),
        ("saving a second unused 512", gets(bounded(5, [(0, 9), (0, 512)]), 8, 40)),
        ("saving what needs 32,768 bytes", gets(marked(&[b'.'; 32_736], &[0; 22]), 5, 5)),
        ("saving what needs 32,769 bytes", gets(marked(&[b'.'; 32_737], &[0; 22]), 2, 32_768)),
    ]
}

fn rows() -> Vec<(&'static str, bool)> {
    let gets = |table: Table, number: u8, place: usize| refuses(&slices(&table), 0, number, place);
    let passes = |table: Table, size: usize| refuses(&slices(&table), size - 1, 22, size);
    vec![
        ("saving two headers", gets(columned(vec![], vec![limited(0); 2], vec![]), 5, 30)),
        ("saving limit 256", gets(columned(vec![], vec![], vec![limited(256)]), 5, 32)),
        ("saving more cells than columns", gets(cells(0, 1), 7, 33)),
        ("saving 12 cells in 11 columns", gets(cells(11, 12), 7, 33 + 11 * 11)),
        ("saving 13 cells in 12 columns", gets(cells(12, 13), 5, 33 + 11 * 12)),
        ("saving a cell without lines", gets(celled(0, 0, &[]), 5, 47)),
        ("saving alignment 4", gets(celled(0, 4, &[b""]), 4, 46)),
        ("saving a bell", gets(celled(0, 0, &[b"A\x07"]), 6, 50)),
        ("saving half a pair", gets(celled(0, 0, &[&SIGN[..1], &SIGN[1..]]), 6, 49)),
        ("saving the other half", gets(celled(0, 0, &[&SIGN, &SIGN[1..]]), 6, 52)),
        ("saving a setpoint", passes(celled(0, 0, &["21.5\u{B0}C".as_bytes()]), 56)),
    ]
}

fn alike() -> Vec<(&'static str, bool)> {
    let differ = |one: Table, other: Table| match (written(&one), written(&other)) {
        (Ok(one), Ok(other)) => one != other,
        _ => false,
    };
    let headed = |header: Vec<Row>| columned(vec![], header, vec![]);
    vec![
        ("delimiter 0 and a space", differ(celled(0, 0, &[b""]), celled(32, 0, &[b""]))),
        ("alignment 0 and 1", differ(celled(0, 0, &[b""]), celled(0, 1, &[b""]))),
        ("no header and one without cells", differ(headed(vec![]), headed(vec![limited(0)]))),
    ]
}

/// Each with whether it comes out.
pub fn all() -> Vec<(&'static str, bool)> {
    [saving(), contradicting(), settings(), rows(), alike()].concat()
}
