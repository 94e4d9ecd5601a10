//! What the sheet's limits shut out: settings at which comfy-table itself panics, overflow checks on.

use std::panic::{AssertUnwindSafe, PanicHookInfo, catch_unwind, set_hook, take_hook};
use std::sync::Mutex;

use comfy_table::{Column, ColumnConstraint, ContentArrangement, Row, Table, TableStyle, Width, inside};

/// One column with one line, without a style, arranged to the greatest target.
fn widest(padding: (u16, u16), constraint: Option<ColumnConstraint>, length: usize) -> Table {
    let mut table = Table::new();
    let mut column = Column::new(0);
    column.set_padding(padding);
    if let Some(constraint) = constraint {
        column.set_constraint(constraint);
    }
    inside::set_columns(&mut table, vec![column]);
    table.load_style(TableStyle::new()).set_width(u16::MAX);
    table.set_content_arrangement(ContentArrangement::DynamicFullWidth);
    if length > 0 {
        table.add_row(vec!["a".repeat(length)]);
    }
    table
}

fn height_of_zero() -> Table {
    let mut table = widest((0, 0), None, 1);
    let mut row = Row::from(vec!["a"]);
    inside::set_height(&mut row, 0);
    table.add_row(row);
    table
}

fn cases() -> Vec<(&'static str, &'static str, Table)> {
    let most = u16::MAX;
    let lower = Some(ColumnConstraint::LowerBoundary(Width::Fixed(most)));
    let upper = Some(ColumnConstraint::UpperBoundary(Width::Fixed(most)));
    vec![
        ("dynamic.rs", "`new`: left plus right padding", widest((most, 1), None, 1)),
        ("constraint.rs", "`evaluate`: longest plus padding", widest((most, 0), lower, 1)),
        (
            "dynamic.rs",
            "`find_columns_that_fit_into_average`: longest plus padding",
            widest((1, 0), upper, most.into()),
        ),
        ("dynamic.rs", "`use_full_width`: content plus share", widest((0, 0), None, 0)),
        ("content_format.rs", "`format_row`: height 0 less 1", height_of_zero()),
    ]
}

/// The file name and line of the last panic.
static PLACE: Mutex<String> = Mutex::new(String::new());

fn note_place(info: &PanicHookInfo) {
    let place = info.location().map(|at| (at.file().rsplit('/').next().unwrap_or(""), at.line()));
    *PLACE.lock().expect("no panic within") = place.map_or(String::new(), |(file, line)| format!("{file}:{line}"));
}

/// Where building the table panics, if it does.
fn panic_place(table: &Table) -> Option<String> {
    let built = catch_unwind(AssertUnwindSafe(|| table.lines().count()));
    built.is_err().then(|| PLACE.lock().expect("no panic within").clone())
}

/// True if each case panics in the file named.
pub fn all_panic() -> bool {
    let hook = take_hook();
    set_hook(Box::new(note_place));
    let results: Vec<_> = cases().into_iter().map(|(file, words, table)| (file, words, panic_place(&table))).collect();
    set_hook(hook);
    for (_, words, place) in &results {
        println!("{} {words}", place.as_ref().map_or("no panic:".to_string(), |place| format!("panic at {place},")));
    }
    results.iter().all(|(file, _, place)| place.as_ref().is_some_and(|place| place.starts_with(file)))
}
