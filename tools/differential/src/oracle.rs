//! The answers of the unchanged comfy-table.

use comfy_table::{
    CellAlignment, Column, ColumnConstraint, ContentArrangement, ContentLineStyle, LineStyle, Row, TableStyle, Width,
    inside,
};

use crate::sheet;

#[derive(Clone, Debug, PartialEq)]
pub struct Answer {
    pub page: Vec<u8>,
    pub lines: usize,
    /// Content width and hidden flag of each column.
    pub widths: Vec<(u16, bool)>,
}

pub fn answer(table: &sheet::Table) -> Answer {
    let built = build(table);
    let mut page = Vec::new();
    let mut lines = 0;
    for line in built.lines() {
        page.extend(line.as_bytes());
        page.push(b'\n');
        lines += 1;
    }
    Answer { page, lines, widths: inside::widths(&built) }
}

/// The longest part of a cell line, split at a width if it is longer.
pub fn longest_part(line: &[u8], width: usize, delimiter: u8) -> usize {
    let line = text(line);
    if line.chars().count() <= width {
        return line.chars().count();
    }
    let parts = inside::split_line(&line, width as u16, delimiter as char);
    parts.iter().map(|part| part.chars().count()).max().unwrap_or(0)
}

pub fn build(table: &sheet::Table) -> comfy_table::Table {
    let mut built = comfy_table::Table::new();
    built.set_content_arrangement(match table.arrangement {
        0 => ContentArrangement::Disabled,
        1 => ContentArrangement::Dynamic,
        _ => ContentArrangement::DynamicFullWidth,
    });
    if table.target > 0 {
        built.set_width(table.target);
    }
    if let Some(delimiter) = character(table.delimiter) {
        built.set_delimiter(delimiter);
    }
    built.set_truncation_indicator(&text(&table.indicator));
    built.load_style(style(&table.style));
    // Columns come first, so that adding rows makes none.
    inside::set_columns(&mut built, table.columns.iter().enumerate().map(column).collect());
    if let Some(header) = &table.header {
        built.set_header(row(header));
    }
    for each in &table.rows {
        built.add_row(row(each));
    }
    built
}

fn character(byte: u8) -> Option<char> {
    (byte != 0).then_some(byte as char)
}

/// The pair C2 B0 is the character U+00B0 as UTF-8 writes it, so an accepted text is UTF-8 as it stands.
fn text(bytes: &[u8]) -> String {
    String::from_utf8(bytes.to_vec()).expect("an accepted text is UTF-8")
}

fn line_style(bytes: &[u8]) -> LineStyle {
    LineStyle {
        left: character(bytes[0]),
        fill: character(bytes[1]),
        junction: character(bytes[2]),
        right: character(bytes[3]),
    }
}

fn content_line_style(bytes: &[u8]) -> ContentLineStyle {
    ContentLineStyle { left: character(bytes[0]), junction: character(bytes[1]), right: character(bytes[2]) }
}

/// The struct's fields in source order.
fn style(bytes: &[u8]) -> TableStyle {
    TableStyle {
        top_border: line_style(&bytes[0..4]),
        header_lines: content_line_style(&bytes[4..7]),
        header_separator: line_style(&bytes[7..11]),
        content_lines: content_line_style(&bytes[11..14]),
        row_separator: line_style(&bytes[14..18]),
        bottom_border: line_style(&bytes[18..22]),
    }
}

fn alignment(code: u8) -> Option<CellAlignment> {
    match code {
        1 => Some(CellAlignment::Left),
        2 => Some(CellAlignment::Right),
        3 => Some(CellAlignment::Center),
        _ => None,
    }
}

fn width(width: sheet::Width) -> Width {
    if width.unit == sheet::PERCENT { Width::Percentage(width.value) } else { Width::Fixed(width.value) }
}

fn constraint(column: &sheet::Column) -> Option<ColumnConstraint> {
    let [first, second] = column.widths.map(width);
    match column.constraint {
        1 => Some(ColumnConstraint::Hidden),
        2 => Some(ColumnConstraint::ContentWidth),
        3 => Some(ColumnConstraint::Absolute(first)),
        4 => Some(ColumnConstraint::LowerBoundary(first)),
        5 => Some(ColumnConstraint::UpperBoundary(first)),
        6 => Some(ColumnConstraint::Boundaries { lower: first, upper: second }),
        _ => None,
    }
}

fn column((index, column): (usize, &sheet::Column)) -> Column {
    let mut built = Column::new(index);
    built.set_padding((column.left.into(), column.right.into()));
    if let Some(delimiter) = character(column.delimiter) {
        built.set_delimiter(delimiter);
    }
    if let Some(alignment) = alignment(column.alignment) {
        built.set_cell_alignment(alignment);
    }
    if let Some(constraint) = constraint(column) {
        built.set_constraint(constraint);
    }
    built
}

fn row(row: &sheet::Row) -> Row {
    let mut built = Row::new();
    if row.height > 0 {
        built.max_height(row.height.into());
    }
    for cell in &row.cells {
        let mut made = inside::cell_of_lines(cell.lines.iter().map(|line| text(line)).collect());
        if let Some(delimiter) = character(cell.delimiter) {
            made = made.set_delimiter(delimiter);
        }
        if let Some(alignment) = alignment(cell.alignment) {
            made = made.set_alignment(alignment);
        }
        built.add_cell(made);
    }
    built
}
