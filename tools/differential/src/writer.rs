//! Document 02's order 4, "Save a sheet from the editor", as a program that follows the document rule by
//! rule over a table. Quoted words are the documents'. The table is what the editor's slices describe;
//! what damages them, a second reading of the call and the comparison stand in files of their own.

pub mod compare;
pub mod damage;
pub mod examples;
pub mod second;

use crate::sheet::{LONGEST_SHEET, MOST_COLUMNS, PERCENT, Refusal, SIGN, STYLE_BYTES};
use crate::slices::Slices;

/// A table as the editor gives it: any number may stand in any field.
#[derive(Clone, Debug, PartialEq)]
pub struct Table {
    pub edition: u16,
    pub arrangement: u16,
    pub target: u16,
    pub delimiter: u16,
    pub indicator: Vec<u8>,
    pub style: Vec<u8>,
    pub columns: Vec<Column>,
    pub header: Vec<Row>,
    pub rows: Vec<Row>,
}

#[derive(Clone, Debug, Default, PartialEq)]
pub struct Column {
    pub left: u16,
    pub right: u16,
    pub delimiter: u16,
    pub alignment: u16,
    pub constraint: u16,
    pub widths: [Width; 2],
}

#[derive(Clone, Copy, Debug, Default, PartialEq)]
pub struct Width {
    pub unit: u16,
    pub value: u16,
}

#[derive(Clone, Debug, Default, PartialEq)]
pub struct Row {
    pub limit: u16,
    pub cells: Vec<Cell>,
}

#[derive(Clone, Debug, Default, PartialEq)]
pub struct Cell {
    pub delimiter: u16,
    pub alignment: u16,
    pub lines: Vec<Vec<u8>>,
}

type Read<T> = Result<T, Refusal>;

fn refuse<T>(number: u8, place: usize) -> Read<T> {
    Err(Refusal { number, place })
}

/// The sheet, or the refusal, of a call whose buffer has so much room. 1 and 9 of the slices come before
/// all else; "one that needs over 32,768 bytes gets 2 first"; then the fields; "22 when the table is in
/// order but its sheet doesn't fit the buffer, place the bytes needed, tested last".
pub fn save(slices: &Slices, room: usize) -> Read<Vec<u8>> {
    let table = described(slices)?;
    if size(&table) > LONGEST_SHEET {
        return refuse(2, LONGEST_SHEET);
    }
    let sheet = written(&table)?;
    if sheet.len() > room { refuse(22, sheet.len()) } else { Ok(sheet) }
}

/// The table that the slices describe. 1 where a number or some text is missing, 9 where either is left
/// over; the place is the count of numbers taken.
pub fn described(slices: &Slices) -> Read<Table> {
    let mut taking = Taking { slices, numbers: 0, text: 0 };
    let table = taking.table()?;
    if taking.numbers < slices.numbers.len() || taking.text < slices.text.len() {
        return refuse(9, taking.numbers);
    }
    Ok(table)
}

struct Taking<'a> {
    slices: &'a Slices,
    numbers: usize,
    text: usize,
}

impl Taking<'_> {
    fn number(&mut self) -> Read<u16> {
        let Some(number) = self.slices.numbers.get(self.numbers) else { return refuse(1, self.numbers) };
        self.numbers += 1;
        Ok(*number)
    }

    /// Its length is taken even where the text is missing.
    fn text(&mut self) -> Read<Vec<u8>> {
        let end = self.text + usize::from(self.number()?);
        let Some(text) = self.slices.text.get(self.text..end) else { return refuse(1, self.numbers) };
        self.text = end;
        Ok(text.to_vec())
    }

    fn several<T>(&mut self, item: fn(&mut Self) -> Read<T>) -> Read<Vec<T>> {
        let count = self.number()?;
        (0..count).map(|_| item(self)).collect()
    }

    fn table(&mut self) -> Read<Table> {
        Ok(Table {
            edition: self.number()?,
            arrangement: self.number()?,
            target: self.number()?,
            delimiter: self.number()?,
            indicator: self.text()?,
            style: self.text()?,
            columns: self.several(Self::column)?,
            header: self.several(Self::row)?,
            rows: self.several(Self::row)?,
        })
    }

    fn column(&mut self) -> Read<Column> {
        Ok(Column {
            left: self.number()?,
            right: self.number()?,
            delimiter: self.number()?,
            alignment: self.number()?,
            constraint: self.number()?,
            widths: [self.width()?, self.width()?],
        })
    }

    fn width(&mut self) -> Read<Width> {
        Ok(Width { unit: self.number()?, value: self.number()? })
    }

    fn row(&mut self) -> Read<Row> {
        Ok(Row { limit: self.number()?, cells: self.several(Self::cell)? })
    }

    fn cell(&mut self) -> Read<Cell> {
        Ok(Cell { delimiter: self.number()?, alignment: self.number()?, lines: self.several(Self::text)? })
    }
}

/// The slices that describe the table. Counts and lengths are taken from the lists.
pub fn slices(table: &Table) -> Slices {
    let mut out = Slices::default();
    out.numbers.extend([table.edition, table.arrangement, table.target, table.delimiter]);
    out.put_text(&table.indicator);
    out.put_text(&table.style);
    out.numbers.push(table.columns.len() as u16);
    for column in &table.columns {
        out.numbers.extend([column.left, column.right, column.delimiter, column.alignment, column.constraint]);
        out.numbers.extend(column.widths.iter().flat_map(|width| [width.unit, width.value]));
    }
    for rows in [&table.header, &table.rows] {
        out.numbers.push(rows.len() as u16);
        rows.iter().for_each(|row| out.put_row(row));
    }
    out
}

impl Slices {
    fn put_text(&mut self, text: &[u8]) {
        self.numbers.push(text.len() as u16);
        self.text.extend(text);
    }

    fn put_row(&mut self, row: &Row) {
        self.numbers.extend([row.limit, row.cells.len() as u16]);
        for cell in &row.cells {
            self.numbers.extend([cell.delimiter, cell.alignment, cell.lines.len() as u16]);
            cell.lines.iter().for_each(|line| self.put_text(line));
        }
    }
}

/// The bytes that the table's fields would take, whatever they hold.
pub fn size(table: &Table) -> usize {
    let text = |text: &Vec<u8>| 1 + text.len();
    let cell = |cell: &Cell| 3 + cell.lines.iter().map(text).sum::<usize>();
    let row = |row: &Row| 2 + row.cells.iter().map(cell).sum::<usize>();
    let rows = |rows: &[Row]| 1 + rows.iter().map(row).sum::<usize>();
    let head = 5 + text(&table.indicator) + text(&table.style) + 1 + 11 * table.columns.len();
    head + rows(&table.header) + rows(&table.rows)
}

/// The table's sheet. "A table that no sheet describes gets the reader's number, with the place that the
/// field would have had."
pub fn written(table: &Table) -> Read<Vec<u8>> {
    let mut sheet = Sheet::default();
    sheet.table(table)?;
    Ok(sheet.bytes)
}

/// The sheet up to the next field.
#[derive(Default)]
struct Sheet {
    bytes: Vec<u8>,
}

fn printable(value: u16) -> bool {
    (0x20..=0x7E).contains(&value)
}

impl Sheet {
    fn test(&self, good: bool, number: u8) -> Read<()> {
        if good { Ok(()) } else { refuse(number, self.bytes.len()) }
    }

    /// One byte; "place being the field's first byte".
    fn byte(&mut self, value: u16, good: bool, number: u8) -> Read<()> {
        self.test(good, number)?;
        self.bytes.push(value as u8);
        Ok(())
    }

    /// "two-byte numbers are low byte first"
    fn word(&mut self, value: u16, most: u16) -> Read<()> {
        self.test(value <= most, 5)?;
        self.bytes.extend(value.to_le_bytes());
        Ok(())
    }

    fn code(&mut self, value: u16, most: u16) -> Read<()> {
        self.byte(value, value <= most, 4)
    }

    fn number(&mut self, value: u16, most: u16) -> Read<()> {
        self.byte(value, value <= most, 5)
    }

    fn count(&mut self, count: usize, least: usize, most: usize) -> Read<()> {
        self.byte(count as u16, (least..=most).contains(&count), 5)
    }

    fn character(&mut self, value: u16) -> Read<()> {
        self.byte(value, printable(value), 6)
    }

    fn character_or_none(&mut self, value: u16) -> Read<()> {
        self.byte(value, value == 0 || printable(value), 6)
    }

    fn table(&mut self, table: &Table) -> Read<()> {
        self.byte(table.edition, table.edition == 1, 3)?;
        self.code(table.arrangement, 2)?;
        self.word(table.target, 400)?;
        self.character_or_none(table.delimiter)?;
        self.count(table.indicator.len(), 0, 8)?;
        table.indicator.iter().try_for_each(|byte| self.character((*byte).into()))?;
        self.count(table.style.len(), STYLE_BYTES, STYLE_BYTES)?;
        table.style.iter().try_for_each(|byte| self.character_or_none((*byte).into()))?;
        let columns = table.columns.len();
        self.count(columns, 0, MOST_COLUMNS.into())?;
        table.columns.iter().try_for_each(|column| self.column(column))?;
        self.count(table.header.len(), 0, 1)?;
        table.header.iter().try_for_each(|row| self.row(row, columns))?;
        self.count(table.rows.len(), 0, 100)?;
        table.rows.iter().try_for_each(|row| self.row(row, columns))
    }

    /// "Unused widths are all zero: both for 0 to 2, the second for 3 to 5."
    fn column(&mut self, column: &Column) -> Read<()> {
        self.number(column.left, 20)?;
        self.number(column.right, 20)?;
        self.character_or_none(column.delimiter)?;
        self.code(column.alignment, 3)?;
        self.code(column.constraint, 6)?;
        let [first, second] = column.widths;
        self.width(first, column.constraint > 2)?;
        self.width(second, column.constraint == 6)
    }

    /// "Fixed is 0 to 400, percent any value."
    fn width(&mut self, Width { unit, value }: Width, used: bool) -> Read<()> {
        if !used {
            self.byte(unit, unit == 0, 8)?;
            // "Unused width byte not zero (that byte)": the low byte first, by itself.
            return value.to_le_bytes().iter().try_for_each(|byte| self.byte((*byte).into(), *byte == 0, 8));
        }
        self.code(unit, PERCENT.into())?;
        self.word(value, if unit == u16::from(PERCENT) { u16::MAX } else { 400 })
    }

    /// "More cells than columns (cell count at most 12)."
    fn row(&mut self, row: &Row, columns: usize) -> Read<()> {
        self.number(row.limit, 255)?;
        let cells = row.cells.len();
        self.test(cells <= MOST_COLUMNS.into(), 5)?;
        self.byte(cells as u16, cells <= columns, 7)?;
        row.cells.iter().try_for_each(|cell| self.cell(cell))
    }

    fn cell(&mut self, cell: &Cell) -> Read<()> {
        self.character_or_none(cell.delimiter)?;
        self.code(cell.alignment, 3)?;
        self.count(cell.lines.len(), 1, 8)?;
        cell.lines.iter().try_for_each(|line| self.line(line))
    }

    /// "Turned away: C2 without B0 after it in the same line, or B0 alone, under the existing 6 at that
    /// byte; a pair is one field".
    fn line(&mut self, line: &[u8]) -> Read<()> {
        self.count(line.len(), 0, 200)?;
        let mut left = line;
        while let Some((byte, rest)) = left.split_first() {
            if let Some(after) = left.strip_prefix(&SIGN) {
                self.bytes.extend(SIGN);
                left = after;
            } else {
                self.character((*byte).into())?;
                left = rest;
            }
        }
        Ok(())
    }
}
