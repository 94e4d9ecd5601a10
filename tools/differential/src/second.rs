//! A second reading of the refusals: the sheet as a plan of fields that grows as counts are read.

use crate::marks::RefusalSlip;
use crate::sheet::Refusal;

#[derive(Clone, Copy, Debug)]
pub enum Part {
    Edition,
    /// A code up to this.
    Code(u8),
    Target,
    Text,
    TextOrNone,
    /// A byte of a cell's line; whether the line has one before it, and one after it.
    InLine(bool, bool),
    /// A count with its limits, and what it announces.
    Count(u8, u8, Announced),
    Padding,
    Constraint,
    Unit,
    Fixed,
    Percent,
    Unused(usize),
    Height,
    CellCount,
}

#[derive(Clone, Copy, Debug)]
pub enum Announced {
    Characters,
    Style,
    Columns,
    Rows,
    Lines,
    Bytes,
}

const COLUMN: [Part; 5] = [Part::Padding, Part::Padding, Part::TextOrNone, Part::Code(3), Part::Constraint];
const UNUSED: [Part; 2] = [Part::Unused(1), Part::Unused(2)];
const ROW: [Part; 2] = [Part::Height, Part::CellCount];
const CELL: [Part; 3] = [Part::TextOrNone, Part::Code(3), Part::Count(1, 8, Announced::Lines)];
const LINE: [Part; 1] = [Part::Count(0, 200, Announced::Bytes)];
const SHEET: [Part; 9] = [
    Part::Edition,
    Part::Code(2),
    Part::Target,
    Part::TextOrNone,
    Part::Count(0, 8, Announced::Characters),
    Part::Count(22, 22, Announced::Style),
    Part::Count(0, 12, Announced::Columns),
    Part::Count(0, 1, Announced::Rows),
    Part::Count(0, 100, Announced::Rows),
];

/// What is still to come, the next part last.
type Plan = Vec<Part>;

fn announce(plan: &mut Plan, parts: &[Part], times: usize) {
    for _ in 0..times {
        plan.extend(parts.iter().rev());
    }
}

pub fn refusal(sheet: &[u8]) -> Option<Refusal> {
    refusal_with(sheet, None)
}

/// On request with a planted mistake.
pub fn refusal_with(sheet: &[u8], slip: Option<RefusalSlip>) -> Option<Refusal> {
    refusal_at(sheet, slip).map(|(refusal, _)| refusal)
}

/// The refusal, and the part of the plan that earned it, if one did.
pub fn refusal_at(sheet: &[u8], slip: Option<RefusalSlip>) -> Option<(Refusal, Option<Part>)> {
    if sheet.len() > 32_768 {
        return Some((Refusal { number: 2, place: 32_768 }, None));
    }
    let (mut plan, mut at, mut columns) = (Plan::new(), 0, 0);
    announce(&mut plan, &SHEET, 1);
    while let Some(part) = plan.pop() {
        let size = size(part);
        let Some(field) = sheet.get(at..at + size) else {
            return Some((Refusal { number: 1, place: sheet.len() }, Some(part)));
        };
        let wrong = match part {
            Part::InLine(before, after) => fault_in_line(&sheet[..at], &sheet[at..], before, after, slip),
            Part::Text if slip == Some(RefusalSlip::SignInIndicator) && [194, 176].contains(&field[0]) => None,
            _ => fault(part, field, columns),
        };
        if let Some((number, offset)) = wrong {
            return Some((Refusal { number, place: at + offset }, Some(part)));
        }
        if let Part::Count(_, _, Announced::Columns) = part {
            columns = field[0];
        }
        extend(&mut plan, part, field[0]);
        if let (Part::InLine(..), 194, Some(RefusalSlip::LengthInCharacters)) = (part, field[0], slip) {
            plan.push(Part::InLine(true, true));
        }
        at += size;
    }
    (at < sheet.len()).then_some((Refusal { number: 9, place: at }, None))
}

fn size(part: Part) -> usize {
    match part {
        Part::Target | Part::Fixed | Part::Percent => 2,
        Part::Unused(size) => size,
        _ => 1,
    }
}

/// The number that a whole field earns, and where in the field.
fn fault(part: Part, field: &[u8], columns: u8) -> Option<(u8, usize)> {
    let byte = field[0];
    let text = (32..127).contains(&byte);
    let wrong = match part {
        Part::Edition => (byte != 1).then_some(3),
        Part::Code(most) => (byte > most).then_some(4),
        Part::Constraint => (byte > 6).then_some(4),
        Part::Unit => (byte > 1).then_some(4),
        Part::Target | Part::Fixed => (usize::from(byte) + 256 * usize::from(field[1]) > 400).then_some(5),
        Part::Count(least, most, _) => (byte < least || byte > most).then_some(5),
        Part::Padding => (byte > 20).then_some(5),
        Part::CellCount if byte > 12 => Some(5),
        Part::CellCount => (byte > columns).then_some(7),
        Part::Text => (!text).then_some(6),
        Part::TextOrNone => (!text && byte != 0).then_some(6),
        Part::Unused(_) => return field.iter().position(|byte| *byte != 0).map(|offset| (8, offset)),
        Part::Percent | Part::Height | Part::InLine(..) => None,
    };
    wrong.map(|number| (number, 0))
}

/// A byte of a cell's line is right by itself or by its neighbour: "C2 without B0 after it in the same
/// line, or B0 alone, under the existing 6 at that byte". "a pair is one field": where the sheet ends
/// right after C2, the part after it will find no byte, unless the line ends there too.
fn fault_in_line(
    left: &[u8],
    here: &[u8],
    before: bool,
    after: bool,
    slip: Option<RefusalSlip>,
) -> Option<(u8, usize)> {
    let slips = |each: RefusalSlip| slip == Some(each);
    let next = here.get(1);
    let wrong = match here[0] {
        194 if !after && next.is_none() && slips(RefusalSlip::LastFirstEndsEarly) => return Some((1, 1)),
        194 if !after && next == Some(&176) && slips(RefusalSlip::PairAcrossLines) => false,
        194 if after && next.is_none() => slips(RefusalSlip::OpenPairIsWrong),
        194 if after && next != Some(&176) && slips(RefusalSlip::PlaceAfterFirst) => return Some((6, 1)),
        194 => !after || next != Some(&176),
        176 if slips(RefusalSlip::LoneSecond) => false,
        176 => !before || left.last() != Some(&194),
        byte => !(32..127).contains(&byte),
    };
    wrong.then_some((6, 0))
}

/// What a field announces stands before the rest of the plan.
fn extend(plan: &mut Plan, part: Part, value: u8) {
    let times = usize::from(value);
    match part {
        Part::Count(_, _, Announced::Characters) => announce(plan, &[Part::Text], times),
        Part::Count(_, _, Announced::Style) => announce(plan, &[Part::TextOrNone], times),
        Part::Count(_, _, Announced::Columns) => announce(plan, &COLUMN, times),
        Part::Count(_, _, Announced::Rows) => announce(plan, &ROW, times),
        Part::Count(_, _, Announced::Lines) => announce(plan, &LINE, times),
        Part::Count(_, _, Announced::Bytes) => {
            plan.extend((0..times).rev().map(|at| Part::InLine(at > 0, at + 1 < times)));
        }
        Part::CellCount => announce(plan, &CELL, times),
        Part::Constraint => {
            let used = if value == 6 { 2 } else { usize::from(value > 2) };
            announce(plan, &UNUSED, 2 - used);
            announce(plan, &[Part::Unit], used);
        }
        Part::Unit => plan.push(if value == 1 { Part::Percent } else { Part::Fixed }),
        _ => {}
    }
}
