//! Cutting, aligning, drawing.

use super::{DEGREE, JUNCTIONS, LEFTS, RIGHTS, Reading, SPACE, Text, byte_length, put, split_at_byte};
use crate::marks::{Rule, Slip};
use crate::sheet::{Cell, Row};

const TOP: usize = 0;
const HEADER_LINES: usize = 4;
const HEADER_RULE: usize = 7;
const CONTENT_LINES: usize = 11;
const ROW_RULE: usize = 14;
const BOTTOM: usize = 18;

/// A page, its counts, and the report's difference.
pub struct Printed {
    pub lines: usize,
    pub bytes: usize,
    pub page: Vec<u8>,
    pub difference: Option<i32>,
}

/// A line of the page: of a row, or a border or rule.
struct Line {
    characters: Text,
    is_text: bool,
}

impl Reading<'_> {
    /// "A cell with more lines than the height limit keeps that many; the last is shortened until it
    /// and the indicator fit."
    fn cut(&self, mut lines: Vec<Text>, height: usize, width: usize) -> Vec<Text> {
        self.fire_if(height > lines.len(), Rule::CutNot);
        self.fire_if(height > 0 && height == lines.len(), Rule::CutEqual);
        let reached = lines.len() == height && self.slips(Slip::CutAtLimit);
        if height == 0 || (lines.len() <= height && !reached) {
            return lines;
        }
        lines.truncate(height);
        let last = lines.pop().expect("a limit is at least 1");
        lines.push(self.shorten(last, width));
        lines
    }

    /// "An indicator wider than the content is dropped."
    fn shorten(&self, mut last: Text, width: usize) -> Text {
        let whole = self.characters(&self.table.indicator);
        let mut indicator: &[u16] = &whole;
        self.fire_if(indicator.is_empty(), Rule::IndicatorNone);
        self.fire_if(indicator.len() == width, Rule::IndicatorWhole);
        if indicator.len() > width && !self.slips(Slip::WideIndicatorKept) {
            self.fire(Rule::IndicatorDropped);
            indicator = &[];
        }
        let room = width.saturating_sub(indicator.len());
        self.fire(if last.len() > room { Rule::CutShort } else { Rule::CutFits });
        self.fire_if(last.len() == room, Rule::CutFitsExactly);
        self.fire_if(last.is_empty(), Rule::CutEmpty);
        if last.len() <= room && self.slips(Slip::IndicatorIfShortened) {
            return last;
        }
        self.fire_if(last.get(room) == Some(&DEGREE), Rule::SignCutOff);
        match self.slips(Slip::CutInBytes) {
            true => last = split_at_byte(&last, room).0,
            false => last.truncate(room),
        }
        self.fire_if(!indicator.is_empty() && last.last() == Some(&DEGREE), Rule::SignBeforeCut);
        last.extend(indicator);
        last
    }

    /// "Alignment: the cell's, else column's, else left."
    fn alignment(&self, cell: &Cell, at: usize) -> u8 {
        let (cell, column) = (cell.alignment, self.column(at).alignment);
        if self.slips(Slip::ColumnAlignmentFirst) && column != 0 {
            return column;
        }
        let choices = [(cell, Rule::AlignByCell), (column, Rule::AlignByColumn), (1, Rule::AlignByDefault)];
        let (chosen, rule) = choices.into_iter().find(|(code, _)| *code != 0).expect("left is set");
        self.fire(rule);
        chosen
    }

    /// "Centre puts the odd space left." Paddings stand on both sides.
    fn align(&self, line: &[u16], alignment: u8, at: usize, width: usize) -> Text {
        let length = if self.slips(Slip::AlignInBytes) { byte_length(line) } else { line.len() };
        let free = width.saturating_sub(length);
        let odd = usize::from(!self.slips(Slip::CentreOddRight));
        let (before, rule) = match alignment {
            2 => (free, Rule::AlignRight),
            3 if free % 2 == 1 => ((free + odd) / 2, Rule::AlignCentreOdd),
            3 => (free / 2, Rule::AlignCentreEven),
            _ => (0, Rule::AlignLeft),
        };
        self.fire_if(free > 0, rule);
        let signs = free > 0 && line.contains(&DEGREE);
        self.fire_if(signs && alignment == 2, Rule::SignsRight);
        self.fire_if(signs && alignment == 3, Rule::SignsCentred);
        let mut sides = [self.column(at).left, self.column(at).right].map(usize::from);
        if self.slips(Slip::PaddingsSwapped) {
            sides.reverse();
        }
        let mut area = vec![SPACE; sides[0] + before];
        area.extend(line);
        area.resize(area.len() + free - before + sides[1], SPACE);
        area
    }

    /// The areas of one cell. "A missing cell is one blank line"
    fn areas(&self, row: &Row, is_header: bool, at: usize, width: usize) -> Vec<Text> {
        let Some(cell) = row.cells.get(at) else {
            self.fire(Rule::MissingCell);
            let lines = usize::from(!self.slips(Slip::MissingNoLine));
            return vec![vec![SPACE; width + self.padding(at)]; lines];
        };
        let height = if is_header && self.slips(Slip::HeaderUncut) { 0 } else { row.height };
        let wrapped = self.wrap(cell, at, width);
        self.fire_if(is_header && height > 0 && wrapped.len() > height.into(), Rule::HeaderCut);
        let lines = self.cut(wrapped, height.into(), width);
        let alignment = self.alignment(cell, at);
        lines.iter().map(|line| self.align(line, alignment, at, width)).collect()
    }

    /// "a cell with fewer lines than its row gets blank ones below."
    fn row_lines(&self, row: &Row, is_header: bool, widths: &[usize]) -> Vec<Vec<Text>> {
        let areas = |at: usize| (at, self.areas(row, is_header, at, widths[at]));
        let cells: Vec<(usize, Vec<Text>)> = self.visible().map(areas).collect();
        let mut height = cells.iter().map(|(_, areas)| areas.len()).max().unwrap_or(0);
        self.fire_if(row.cells.is_empty(), Rule::BareRow);
        self.fire_if(height == 0 && !cells.is_empty(), Rule::RowNoLine);
        if height == 0 && !cells.is_empty() && self.slips(Slip::EmptyRowLine) {
            height = 1;
        }
        let area = |(at, areas): &(usize, Vec<Text>), k: usize| {
            self.fire_if(k >= areas.len(), Rule::BlankBelow);
            let above = if self.slips(Slip::BlankAbove) { height - areas.len() } else { 0 };
            k.checked_sub(above)
                .and_then(|k| areas.get(k))
                .cloned()
                .unwrap_or_else(|| vec![SPACE; widths[*at] + self.padding(*at)])
        };
        (0..height).map(|k| cells.iter().map(|cell| area(cell, k)).collect()).collect()
    }

    /// "Unset characters print as a space."
    fn shown(&self, place: usize) -> u16 {
        let byte = self.table.style[place];
        self.fire_if(byte == 0, Rule::UnsetSpace);
        if byte == 0 { SPACE } else { byte.into() }
    }

    /// One line of the page out of its areas.
    fn line(&self, areas: &[Text], left: usize, junction: Option<usize>, right: usize) -> Text {
        let mut line = Vec::new();
        let own = self.slips(Slip::OwnLeftOnly) && self.table.style[left] == 0;
        if self.set(&LEFTS) && !own {
            line.push(self.shown(left));
        }
        for (position, area) in areas.iter().enumerate() {
            if let Some(junction) = junction.filter(|_| position > 0) {
                line.push(self.shown(junction));
            }
            line.extend(area);
        }
        if self.set(&RIGHTS) {
            line.push(self.shown(right));
        }
        self.fire_if(line.is_empty(), Rule::EmptyLine);
        line
    }

    /// "Top and bottom borders always put a junction between columns; rules and text lines do so only
    /// if some junction is set."
    fn joined(&self, always: bool, slip: Slip, unjoined: Rule) -> bool {
        let set = self.set(&JUNCTIONS);
        self.fire_if(!set && self.visible().count() > 1, unjoined);
        set || always != self.slips(slip)
    }

    /// A border or rule, its four characters standing from `style` on.
    fn rule(&self, style: usize, widths: &[usize]) -> Text {
        let joined = match style {
            TOP => self.joined(true, Slip::NoTopJunction, Rule::TopUnjoined),
            BOTTOM => self.joined(true, Slip::NoBottomJunction, Rule::BottomUnjoined),
            _ => self.joined(false, Slip::RuleJunctionAlways, Rule::RuleUnjoined),
        };
        let fill = |at: usize| vec![self.shown(style + 1); widths[at] + self.padding(at)];
        let areas: Vec<Text> = self.visible().map(fill).collect();
        self.line(&areas, style, joined.then_some(style + 2), style + 3)
    }

    /// "A border or rule is visible if one of its characters is set."
    fn push_rule(&self, page: &mut Vec<Line>, style: usize, widths: &[usize], shown: Rule, not: Rule) {
        let visible = self.set(&[style, style + 1, style + 2, style + 3]);
        self.fire(if visible { shown } else { not });
        if visible {
            page.push(Line { characters: self.rule(style, widths), is_text: false });
        }
    }

    fn push_row(&self, page: &mut Vec<Line>, row: &Row, is_header: bool, widths: &[usize]) {
        let style = if is_header { HEADER_LINES } else { CONTENT_LINES };
        for areas in self.row_lines(row, is_header, widths) {
            let joined = self.joined(false, Slip::TextJunctionAlways, Rule::TextUnjoined);
            let characters = self.line(&areas, style, joined.then_some(style + 1), style + 2);
            page.push(Line { characters, is_text: true });
        }
    }

    /// "The header rule follows the header, a row rule stands between two rows."
    pub fn page(&self, widths: &[usize]) -> Printed {
        let mut page = Vec::new();
        self.push_rule(&mut page, TOP, widths, Rule::TopBorder, Rule::NoTop);
        if let Some(header) = &self.table.header {
            self.push_row(&mut page, header, true, widths);
            let alone = self.table.rows.is_empty();
            if !(alone && self.slips(Slip::HeaderRuleBeforeRows)) {
                let shown = if alone { Rule::HeaderRuleAlone } else { Rule::HeaderRule };
                self.push_rule(&mut page, HEADER_RULE, widths, shown, Rule::NoHeaderRule);
            }
        }
        for (position, row) in self.table.rows.iter().enumerate() {
            let below_header = self.table.header.is_some() && self.slips(Slip::RowRuleAfterHeader);
            if position > 0 || below_header {
                self.push_rule(&mut page, ROW_RULE, widths, Rule::RowRule, Rule::NoRowRule);
            }
            self.push_row(&mut page, row, false, widths);
        }
        self.push_rule(&mut page, BOTTOM, widths, Rule::BottomBorder, Rule::NoBottom);
        self.fire_page(&page);
        self.printed(&page, self.difference(&page, widths))
    }

    /// Counts of the page count bytes, a pair's two.
    fn printed(&self, page: &[Line], difference: Option<i32>) -> Printed {
        let columns = self.slips(Slip::BytesFromColumns);
        let length = |line: &Line| 1 + if columns { line.characters.len() } else { byte_length(&line.characters) };
        let closed = |line: &Line| put(&line.characters).into_iter().chain(*b"\n");
        Printed {
            lines: page.len(),
            bytes: page.iter().map(length).sum(),
            page: page.iter().flat_map(closed).collect(),
            difference,
        }
    }

    /// "With a target, the report also gives target minus the longest printed line"
    fn difference(&self, page: &[Line], widths: &[usize]) -> Option<i32> {
        let disabled = self.table.arrangement == 0 && self.slips(Slip::DisabledNoDifference);
        let no_page = page.is_empty() && self.slips(Slip::NoPageNoDifference);
        if self.table.target == 0 || disabled || no_page {
            return None;
        }
        let longest = if self.slips(Slip::LineFromWidths) { self.breadth(widths) } else { self.longest_line(page) };
        let difference = i32::from(self.table.target) - longest as i32;
        Some(match self.slip {
            Some(Slip::DifferenceTurned) => -difference,
            Some(Slip::OverrunIsZero) => difference.max(0),
            _ => difference,
        })
    }

    /// "Lengths count characters without 0A; a page without lines has length 0."
    fn longest_line(&self, page: &[Line]) -> usize {
        let (in_bytes, end) = (self.slips(Slip::LineInBytes), usize::from(self.slips(Slip::LineEndCounted)));
        let length = |line: &Line| if in_bytes { byte_length(&line.characters) } else { line.characters.len() };
        let counted = |line: &&Line| line.is_text || !self.slips(Slip::TextLinesOnly);
        let asked = if self.slips(Slip::FirstLineOnly) { 1 } else { page.len() };
        page.iter().take(asked).filter(counted).map(|line| length(line) + end).max().unwrap_or(0)
    }

    /// What the widths take, whatever is drawn; for a mistake.
    fn breadth(&self, widths: &[usize]) -> usize {
        self.borders() + self.visible().map(|at| widths[at] + self.padding(at)).sum::<usize>()
    }

    fn fire_page(&self, page: &[Line]) {
        self.fire_if(page.is_empty(), Rule::NoPage);
        self.fire_if(self.table.header.is_none(), Rule::NoHeader);
        self.fire_if(self.visible().count() == 0, Rule::NoColumn);
        self.fire_if(!self.set(&LEFTS), Rule::NoLeft);
        self.fire_if(!self.set(&RIGHTS), Rule::NoRight);
    }
}
