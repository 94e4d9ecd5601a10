//! A second reading of the writer: the slices as one row of fields, by a plan that grows as counts are
//! taken. What each field may hold and which number it earns else stand in one table.

use std::ops::Range;
use std::slice::from_ref;

use crate::marks::WriterSlip;
use crate::sheet::Refusal;
use crate::slices::Slices;

#[derive(Clone, Copy, Debug, PartialEq)]
enum Part {
    Edition,
    Arrangement,
    Target,
    Delimiter,
    Indicator,
    Style,
    Columns,
    Left,
    Right,
    Alignment,
    Constraint,
    /// Of the first or the second width.
    Unit(u8),
    Value(u8),
    Header,
    Rows,
    Limit,
    Cells,
    Lines,
    Line,
}

use Part::*;

const TABLE: &[Part] = &[Edition, Arrangement, Target, Delimiter, Indicator, Style, Columns, Header, Rows];
const COLUMN: &[Part] = &[Left, Right, Delimiter, Alignment, Constraint, Unit(1), Value(1), Unit(2), Value(2)];
const ROW: &[Part] = &[Limit, Cells];
const CELL: &[Part] = &[Delimiter, Alignment, Lines];
const EXCHANGED_CELL: &[Part] = &[Alignment, Delimiter, Lines];
const LINE: &[Part] = &[Line];

/// A field's number, and which bytes of the text stand behind it in the sheet.
#[derive(Debug)]
struct Field {
    part: Part,
    number: u16,
    text: Range<usize>,
}

/// What earlier fields say of the next ones.
#[derive(Default)]
struct Seen {
    columns: u16,
    constraint: u16,
    unit: u16,
}

struct Reading<'a> {
    slices: &'a Slices,
    slip: Option<WriterSlip>,
}

pub fn save(slices: &Slices, room: usize) -> Result<Vec<u8>, Refusal> {
    save_with(slices, room, None)
}

/// On request with a planted mistake.
pub fn save_with(slices: &Slices, room: usize, slip: Option<WriterSlip>) -> Result<Vec<u8>, Refusal> {
    let reading = Reading { slices, slip };
    let mut fields = reading.fields()?;
    reading.alter(&mut fields);
    let needed = reading.needed(&fields);
    let over = |most: usize, at_limit: WriterSlip| needed > most || (needed == most && reading.slips(at_limit));
    let long = over(32_768, WriterSlip::LongAtLimit).then_some(Refusal { number: 2, place: 32_768 });
    let place = if reading.slips(WriterSlip::RoomPlace) { room } else { needed };
    let short = over(room, WriterSlip::RoomAtLimit).then_some(Refusal { number: 22, place });
    let fault = reading.first_fault(&fields);
    let tests = match slip {
        Some(WriterSlip::LongLast) => [fault, long, short],
        Some(WriterSlip::RoomFirst) => [long, short, fault],
        _ => [long, fault, short],
    };
    match tests.into_iter().flatten().next() {
        Some(refusal) => Err(refusal),
        None => Ok(fields.iter().flat_map(|field| reading.bytes(field)).collect()),
    }
}

impl Reading<'_> {
    fn slips(&self, slip: WriterSlip) -> bool {
        self.slip == Some(slip)
    }

    fn announced(&self, part: Part) -> Option<&'static [Part]> {
        match part {
            Columns => Some(COLUMN),
            Header | Rows => Some(ROW),
            Cells if self.slips(WriterSlip::CellFieldsExchanged) => Some(EXCHANGED_CELL),
            Cells => Some(CELL),
            Lines => Some(LINE),
            _ => None,
        }
    }

    /// The row of fields; 1 and 9 of the slices.
    fn fields(&self) -> Result<Vec<Field>, Refusal> {
        let Slices { numbers, text } = self.slices;
        let (mut plan, mut fields, mut at) = (vec![(1, TABLE)], Vec::new(), 0);
        while let Some((times, parts)) = plan.pop() {
            if times > 1 {
                plan.push((times - 1, parts));
            }
            let [part] = parts else {
                plan.extend(parts.iter().rev().map(|part| (1, from_ref(part))));
                continue;
            };
            let Some(number) = numbers.get(fields.len()) else {
                let left = at < text.len();
                return Err(self.missing(fields.len(), left));
            };
            let mut end = at;
            if let Indicator | Style | Line = part {
                end += usize::from(*number);
            }
            if end > text.len() && self.slips(WriterSlip::ShortText) {
                end = text.len();
            }
            if end > text.len() {
                let taken = fields.len() + usize::from(!self.slips(WriterSlip::LengthNotTaken));
                return Err(self.missing(taken, fields.len() + 1 < numbers.len()));
            }
            fields.push(Field { part: *part, number: *number, text: at..end });
            at = end;
            if let (Some(parts), 1..) = (self.announced(*part), *number) {
                plan.push((usize::from(*number), parts));
            }
        }
        let numbers_left = fields.len() < numbers.len() && !self.slips(WriterSlip::NumbersLeft);
        let text_left = at < text.len() && !self.slips(WriterSlip::TextLeft);
        if numbers_left || text_left {
            let text = if self.slips(WriterSlip::TextBytesTaken) { at } else { 0 };
            return Err(Refusal { number: 9, place: fields.len() + text });
        }
        Ok(fields)
    }

    fn missing(&self, taken: usize, left: bool) -> Refusal {
        Refusal { number: if left && self.slips(WriterSlip::LeftFirst) { 9 } else { 1 }, place: taken }
    }

    /// Mistakes that concern several fields.
    fn alter(&self, fields: &mut Vec<Field>) {
        if self.slips(WriterSlip::PaddingsExchanged) {
            for at in (1..fields.len()).filter(|at| fields[*at].part == Right).collect::<Vec<_>>() {
                (fields[at - 1].number, fields[at].number) = (fields[at].number, fields[at - 1].number);
            }
        }
        let header = fields.iter().position(|field| field.part == Header).expect("a table has a header count");
        if self.slips(WriterSlip::BareHeaderLeftOut) && fields[header].number == 1 && fields[header + 2].number == 0 {
            fields[header].number = 0;
            fields.drain(header + 1..header + 3);
        }
    }

    /// Each number is a byte, but the target and two values of each column have two; and the text.
    fn needed(&self, fields: &[Field]) -> usize {
        let columns = fields.iter().filter(|field| field.part == Constraint).count();
        let seconds = if self.slips(WriterSlip::WordOne) { 0 } else { 1 + 2 * columns };
        let long = fields.iter().filter(|field| field.number > 255 && self.counts(field.part)).count();
        let long = if self.slips(WriterSlip::LongCountTwo) { long } else { 0 };
        fields.len() + seconds + long + fields.iter().map(|field| field.text.len()).sum::<usize>()
    }

    fn counts(&self, part: Part) -> bool {
        matches!(part, Indicator | Style | Line) || self.announced(part).is_some()
    }

    fn first_fault(&self, fields: &[Field]) -> Option<Refusal> {
        let (mut place, mut seen) = (0, Seen::default());
        for field in fields {
            let wide = matches!(field.part, Target | Value(_));
            let number = if self.slips(WriterSlip::Modulo) && !wide { field.number % 256 } else { field.number };
            match field.part {
                Columns => seen.columns = number,
                Constraint => seen.constraint = number,
                Unit(_) => seen.unit = number,
                _ => {}
            }
            if let Some((number, offset)) = self.fault(field.part, number, &seen) {
                return Some(Refusal { number, place: place + offset });
            }
            place += 1 + usize::from(wide);
            if let Some(at) = field.text.clone().position(|at| !self.character(field, at)) {
                return Some(Refusal { number: 6, place: place + at });
            }
            place += field.text.len();
            if field.part == Indicator && self.slips(WriterSlip::AfterIndicator) {
                place += 1;
            }
        }
        None
    }

    /// The number that a field earns, and where in the field.
    fn fault(&self, part: Part, number: u16, seen: &Seen) -> Option<(u8, usize)> {
        let beyond = |least: u16, most: u16, refusal: u8| (number < least || number > most).then_some((refusal, 0));
        let used = |which: u8| seen.constraint > 2 && (which == 1 || seen.constraint > 5);
        match part {
            Edition => beyond(1, 1, 3),
            Arrangement => beyond(0, 2, 4),
            Target => beyond(0, 400, 5),
            Delimiter if number == 0 => None,
            Delimiter => beyond(32, 126, 6),
            Indicator => beyond(0, 8, 5),
            Style if self.slips(WriterSlip::StyleUntested) => None,
            Style => beyond(22, 22, 5),
            Columns => beyond(0, 12, 5),
            Left | Right if self.slips(WriterSlip::PaddingUntested) => None,
            Left | Right => beyond(0, 20, 5),
            Alignment => beyond(0, 3, 4),
            Constraint => beyond(0, 6, 4),
            Unit(which) if used(which) => beyond(0, 1, 4),
            Unit(_) if self.slips(WriterSlip::UnusedUnitCode) => beyond(0, 0, 4),
            Unit(_) => beyond(0, 0, 8),
            Value(which) if used(which) => {
                let any = seen.unit == 1 && !self.slips(WriterSlip::PercentLimited);
                beyond(0, if any { 65_535 } else { 400 }, 5)
            }
            Value(_) => self.unused_value(number),
            Header => beyond(0, 1, 5),
            Rows => beyond(0, 100, 5),
            Limit if self.slips(WriterSlip::LimitUntested) => None,
            Limit => beyond(0, 255, 5),
            Cells => match self.slip {
                Some(WriterSlip::CellsExchanged) => beyond(0, 12, 7).or(beyond(0, seen.columns, 5)),
                Some(WriterSlip::CellsInColumnsOnly) => beyond(0, seen.columns, 7),
                _ => beyond(0, 12, 5).or(beyond(0, seen.columns, 7)),
            },
            Lines => beyond(u16::from(!self.slips(WriterSlip::NoLineUntested)), 8, 5),
            Line => beyond(0, 200, 5),
        }
    }

    fn unused_value(&self, value: u16) -> Option<(u8, usize)> {
        let offset = match value.to_le_bytes() {
            [0, 0] => return None,
            _ if self.slips(WriterSlip::UnusedValuePlace) => 0,
            [_, high] if high > 0 && self.slips(WriterSlip::UnusedHighFirst) => 1,
            [low, _] => usize::from(low == 0),
        };
        Some((8, offset))
    }

    /// Whether the byte of the text may stand there: by itself or, in a cell's line, by its neighbour.
    fn character(&self, field: &Field, at: usize) -> bool {
        let text = &self.slices.text;
        let line = if self.slips(WriterSlip::PairAcrossLines) { 0..text.len() } else { field.text.clone() };
        let neighbour = |at: usize| if line.contains(&at) { text[at] } else { 0 };
        let paired = field.part == Line || (field.part == Indicator && self.slips(WriterSlip::SignInIndicator));
        match text[at] {
            0 => field.part == Style,
            194 if paired && at + 1 == line.end && self.slips(WriterSlip::LastFirst) => true,
            194 => paired && neighbour(at + 1) == 176,
            176 if paired && self.slips(WriterSlip::LoneSecond) => true,
            176 => paired && neighbour(at.wrapping_sub(1)) == 194,
            byte => (32..127).contains(&byte),
        }
    }

    fn bytes(&self, field: &Field) -> Vec<u8> {
        let number = match (field.part, field.number) {
            (Delimiter, 0) if self.slips(WriterSlip::DelimiterSpace) => 32,
            (Alignment, 0) if self.slips(WriterSlip::AlignmentLeft) => 1,
            (_, number) => number,
        };
        let mut bytes = match field.part {
            Target | Value(_) if self.slips(WriterSlip::HighFirst) => number.to_be_bytes().to_vec(),
            Target | Value(_) => number.to_le_bytes().to_vec(),
            _ => vec![number as u8],
        };
        bytes.extend(&self.slices.text[field.text.clone()]);
        bytes
    }
}
