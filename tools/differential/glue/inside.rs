//! Set-up and answers that the public builders can't reach.

use crate::utils::{
    ColumnDisplayInfo,
    arrangement::arrange_content,
    formatting::{content_split, is_hidden},
};
use crate::{Cell, Column, Row, Table};

/// Columns are otherwise made by adding cells; a sheet may have columns without any.
pub fn set_columns(table: &mut Table, columns: Vec<Column>) {
    table.columns = columns;
}

/// A cell of exactly these lines.
pub fn cell_of_lines(lines: Vec<String>) -> Cell {
    let mut cell = Cell::new_owned(String::new());
    cell.content = lines;
    cell
}

/// The public call lifts 0 to 1.
pub fn set_height(row: &mut Row, lines: usize) {
    row.max_height = Some(lines);
}

/// Content width and hidden flag of each column.
pub fn widths(table: &Table) -> Vec<(u16, bool)> {
    let infos = arrange_content(table);
    infos.iter().map(|info| (info.content_width, is_hidden(info))).collect()
}

/// The parts that a line longer than the content width is split into.
pub fn split_line(line: &str, content_width: u16, delimiter: char) -> Vec<String> {
    content_split::split_line(line, &ColumnDisplayInfo::new(&Column::new(0), content_width), delimiter)
}
