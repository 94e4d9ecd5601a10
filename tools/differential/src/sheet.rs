//! Sheet, edition 1: the table it says, its decoder with the refusals, its encoder.

pub const LONGEST_SHEET: usize = 32_768;
pub const MOST_COLUMNS: u8 = 12;
pub const STYLE_BYTES: usize = 22;

pub const PERCENT: u8 = 1;

/// The degree sign: one character of cell text, two bytes.
pub const SIGN: [u8; 2] = [0xC2, 0xB0];

#[derive(Clone, Debug, PartialEq)]
pub struct Table {
    pub arrangement: u8,
    pub target: u16,
    pub delimiter: u8,
    pub indicator: Vec<u8>,
    pub style: [u8; STYLE_BYTES],
    pub columns: Vec<Column>,
    pub header: Option<Row>,
    pub rows: Vec<Row>,
}

#[derive(Clone, Debug, Default, PartialEq)]
pub struct Column {
    pub left: u8,
    pub right: u8,
    pub delimiter: u8,
    pub alignment: u8,
    pub constraint: u8,
    pub widths: [Width; 2],
}

#[derive(Clone, Copy, Debug, Default, PartialEq)]
pub struct Width {
    pub unit: u8,
    pub value: u16,
}

#[derive(Clone, Debug, Default, PartialEq)]
pub struct Row {
    pub height: u8,
    pub cells: Vec<Cell>,
}

#[derive(Clone, Debug, Default, PartialEq)]
pub struct Cell {
    pub delimiter: u8,
    pub alignment: u8,
    /// Printable bytes and whole signs.
    pub lines: Vec<Vec<u8>>,
}

impl Table {
    pub fn has_signs(&self) -> bool {
        let mut cells = self.header.iter().chain(&self.rows).flat_map(|row| &row.cells);
        cells.any(|cell| cell.lines.iter().any(|line| line.contains(&SIGN[0])))
    }
}

#[derive(Clone, Copy, Debug, PartialEq)]
pub struct Refusal {
    pub number: u8,
    pub place: usize,
}

/// How many of a constraint's two widths are used.
pub fn used_widths(constraint: u8) -> usize {
    match constraint {
        0..=2 => 0,
        3..=5 => 1,
        _ => 2,
    }
}

pub fn printable(byte: u8) -> bool {
    (0x20..=0x7E).contains(&byte)
}

type Read<T> = Result<T, Refusal>;

fn refuse<T>(number: u8, place: usize) -> Read<T> {
    Err(Refusal { number, place })
}

/// 2 is tested first, then fields left to right, then 9.
pub fn decode(bytes: &[u8]) -> Read<Table> {
    if bytes.len() > LONGEST_SHEET {
        return refuse(2, LONGEST_SHEET);
    }
    let (table, end) = decode_front(bytes)?;
    if end < bytes.len() {
        return refuse(9, end);
    }
    Ok(table)
}

/// The sheet that the bytes begin with, and where it ends, whatever follows and however long it is.
pub fn decode_front(bytes: &[u8]) -> Read<(Table, usize)> {
    let mut reader = Reader { bytes, at: 0 };
    let table = reader.table()?;
    Ok((table, reader.at))
}

struct Reader<'a> {
    bytes: &'a [u8],
    at: usize,
}

impl Reader<'_> {
    /// A field of `size` bytes: 1 comes before any other number at a field.
    fn field(&mut self, size: usize) -> Read<usize> {
        if self.bytes.len() - self.at < size {
            return refuse(1, self.bytes.len());
        }
        self.at += size;
        Ok(self.at - size)
    }

    fn byte(&mut self) -> Read<(usize, u8)> {
        let at = self.field(1)?;
        Ok((at, self.bytes[at]))
    }

    /// Two bytes, low byte first, are one field.
    fn number(&mut self, most: u16) -> Read<u16> {
        let at = self.field(2)?;
        let value = u16::from_le_bytes([self.bytes[at], self.bytes[at + 1]]);
        if value > most { refuse(5, at) } else { Ok(value) }
    }

    fn code(&mut self, most: u8) -> Read<u8> {
        let (at, byte) = self.byte()?;
        if byte > most { refuse(4, at) } else { Ok(byte) }
    }

    fn count(&mut self, least: u8, most: u8) -> Read<u8> {
        let (at, byte) = self.byte()?;
        if byte < least || byte > most { refuse(5, at) } else { Ok(byte) }
    }

    fn character(&mut self) -> Read<u8> {
        let (at, byte) = self.byte()?;
        if printable(byte) { Ok(byte) } else { refuse(6, at) }
    }

    fn character_or_none(&mut self) -> Read<u8> {
        let (at, byte) = self.byte()?;
        if byte == 0 || printable(byte) { Ok(byte) } else { refuse(6, at) }
    }

    fn characters(&mut self, count: u8) -> Read<Vec<u8>> {
        (0..count).map(|_| self.character()).collect()
    }

    fn table(&mut self) -> Read<Table> {
        let (at, edition) = self.byte()?;
        if edition != 1 {
            return refuse(3, at);
        }
        let arrangement = self.code(2)?;
        let target = self.number(400)?;
        let delimiter = self.character_or_none()?;
        let indicator_count = self.count(0, 8)?;
        let indicator = self.characters(indicator_count)?;
        let style = self.style()?;
        let column_count = self.count(0, MOST_COLUMNS)?;
        let columns = (0..column_count).map(|_| self.column()).collect::<Read<Vec<_>>>()?;
        let header = if self.count(0, 1)? == 1 { Some(self.row(column_count)?) } else { None };
        let row_count = self.count(0, 100)?;
        let rows = (0..row_count).map(|_| self.row(column_count)).collect::<Read<Vec<_>>>()?;
        Ok(Table { arrangement, target, delimiter, indicator, style, columns, header, rows })
    }

    fn style(&mut self) -> Read<[u8; STYLE_BYTES]> {
        self.count(STYLE_BYTES as u8, STYLE_BYTES as u8)?;
        let mut style = [0; STYLE_BYTES];
        for byte in &mut style {
            *byte = self.character_or_none()?;
        }
        Ok(style)
    }

    fn column(&mut self) -> Read<Column> {
        let left = self.count(0, 20)?;
        let right = self.count(0, 20)?;
        let delimiter = self.character_or_none()?;
        let alignment = self.code(3)?;
        let constraint = self.code(6)?;
        let used = used_widths(constraint);
        let widths = [self.width(used > 0)?, self.width(used > 1)?];
        Ok(Column { left, right, delimiter, alignment, constraint, widths })
    }

    fn width(&mut self, used: bool) -> Read<Width> {
        if !used {
            self.zeros(1)?;
            self.zeros(2)?;
            return Ok(Width::default());
        }
        let unit = self.code(PERCENT)?;
        let value = self.number(if unit == PERCENT { u16::MAX } else { 400 })?;
        Ok(Width { unit, value })
    }

    /// An unused field: 8 at its first byte that isn't 0.
    fn zeros(&mut self, size: usize) -> Read<()> {
        let at = self.field(size)?;
        match self.bytes[at..at + size].iter().position(|byte| *byte != 0) {
            Some(offset) => refuse(8, at + offset),
            None => Ok(()),
        }
    }

    fn row(&mut self, columns: u8) -> Read<Row> {
        let (_, height) = self.byte()?;
        let cell_count = self.count(0, MOST_COLUMNS)?;
        if cell_count > columns {
            return refuse(7, self.at - 1);
        }
        let cells = (0..cell_count).map(|_| self.cell()).collect::<Read<Vec<_>>>()?;
        Ok(Row { height, cells })
    }

    fn cell(&mut self) -> Read<Cell> {
        let delimiter = self.character_or_none()?;
        let alignment = self.code(3)?;
        let line_count = self.count(1, 8)?;
        let lines = (0..line_count).map(|_| self.line()).collect::<Read<Vec<_>>>()?;
        Ok(Cell { delimiter, alignment, lines })
    }

    /// "cell text may hold the pair C2 B0", and its length counts bytes.
    fn line(&mut self) -> Read<Vec<u8>> {
        let length = self.count(0, 200)?;
        let end = self.at + usize::from(length);
        let mut line = Vec::new();
        while self.at < end {
            // "C2 as a line's last byte gets 6 also where the sheet ends there": it begins no pair.
            let begins_pair = self.at + 1 < end && self.bytes.get(self.at) == Some(&SIGN[0]);
            if begins_pair {
                line.extend(self.pair()?);
            } else {
                line.push(self.character()?);
            }
        }
        Ok(line)
    }

    /// "a pair is one field"
    fn pair(&mut self) -> Read<[u8; 2]> {
        let at = self.field(2)?;
        if self.bytes[at..at + 2] == SIGN { Ok(SIGN) } else { refuse(6, at) }
    }
}

/// What a field is, so that damage can aim at each kind.
#[derive(Clone, Copy, Debug, PartialEq)]
pub enum Field {
    Edition,
    Code,
    Target,
    OptionalCharacter,
    /// Of the indicator.
    Character,
    /// Of a cell's line.
    Letter,
    Pair,
    IndicatorCount,
    StyleCount,
    ColumnCount,
    Padding,
    Unit,
    FixedValue,
    PercentValue,
    UnusedUnit,
    UnusedValue,
    HeaderCount,
    RowCount,
    Height,
    CellCount,
    LineCount,
    LineLength,
}

#[derive(Default)]
pub struct Encoded {
    pub bytes: Vec<u8>,
    pub fields: Vec<(usize, Field)>,
}

/// Counts are taken from the lists, so a table beyond the limits is written as such.
pub fn encode(table: &Table) -> Encoded {
    let mut out = Encoded::default();
    out.byte(Field::Edition, 1);
    out.byte(Field::Code, table.arrangement);
    out.number(Field::Target, table.target);
    out.byte(Field::OptionalCharacter, table.delimiter);
    out.byte(Field::IndicatorCount, table.indicator.len() as u8);
    for byte in &table.indicator {
        out.byte(Field::Character, *byte);
    }
    out.byte(Field::StyleCount, STYLE_BYTES as u8);
    for byte in table.style {
        out.byte(Field::OptionalCharacter, byte);
    }
    out.byte(Field::ColumnCount, table.columns.len() as u8);
    for column in &table.columns {
        out.column(column);
    }
    out.byte(Field::HeaderCount, table.header.is_some() as u8);
    if let Some(row) = &table.header {
        out.row(row);
    }
    out.byte(Field::RowCount, table.rows.len() as u8);
    for row in &table.rows {
        out.row(row);
    }
    out
}

impl Encoded {
    fn byte(&mut self, field: Field, byte: u8) {
        self.fields.push((self.bytes.len(), field));
        self.bytes.push(byte);
    }

    fn number(&mut self, field: Field, number: u16) {
        self.fields.push((self.bytes.len(), field));
        self.bytes.extend(number.to_le_bytes());
    }

    fn line(&mut self, line: &[u8]) {
        self.byte(Field::LineLength, line.len() as u8);
        for byte in line {
            match *byte {
                second if second == SIGN[1] => self.bytes.push(second),
                first if first == SIGN[0] => self.byte(Field::Pair, first),
                letter => self.byte(Field::Letter, letter),
            }
        }
    }

    fn column(&mut self, column: &Column) {
        self.byte(Field::Padding, column.left);
        self.byte(Field::Padding, column.right);
        self.byte(Field::OptionalCharacter, column.delimiter);
        self.byte(Field::Code, column.alignment);
        self.byte(Field::Code, column.constraint);
        for (index, width) in column.widths.iter().enumerate() {
            let used = index < used_widths(column.constraint);
            let value = match (used, width.unit) {
                (false, _) => Field::UnusedValue,
                (true, PERCENT) => Field::PercentValue,
                (true, _) => Field::FixedValue,
            };
            self.byte(if used { Field::Unit } else { Field::UnusedUnit }, width.unit);
            self.number(value, width.value);
        }
    }

    fn row(&mut self, row: &Row) {
        self.byte(Field::Height, row.height);
        self.byte(Field::CellCount, row.cells.len() as u8);
        for cell in &row.cells {
            self.byte(Field::OptionalCharacter, cell.delimiter);
            self.byte(Field::Code, cell.alignment);
            self.byte(Field::LineCount, cell.lines.len() as u8);
            for line in &cell.lines {
                self.line(line);
            }
        }
    }
}
