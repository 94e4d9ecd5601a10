//! The steps that set the columns' widths, found in another way than by the reading, from document 01 too:
//! which columns are decided at the start and after each of the steps 1 to 3. A column's step is the first
//! after which it is decided. The Rust splits the lines of the trials.

use std::collections::BTreeMap;

use crate::marks::Step;
use crate::oracle;
use crate::reasons::Reason;
use crate::sheet::{Column, PERCENT, STYLE_BYTES, Table, Width};

/// What the rules ask of a column.
struct Asked {
    hidden: bool,
    padding: usize,
    longest: usize,
    /// The constraint width of `Absolute`.
    absolute: Option<usize>,
    lower: Option<usize>,
    upper: Option<usize>,
    takes_longest: bool,
}

impl Asked {
    /// "takes off both paddings, stops at 0, and makes 0 into 1"
    fn content(&self, width: usize) -> usize {
        width.saturating_sub(self.padding).max(1)
    }

    fn full(&self) -> usize {
        self.longest + self.padding
    }

    /// "First (`evaluate`)"
    fn first(&self) -> Option<usize> {
        let lower = self.lower.filter(|bound| *bound >= self.full());
        let longest = self.takes_longest.then_some(self.longest.max(1));
        longest.or(self.absolute.or(lower).map(|width| self.content(width)))
    }

    /// The upper bound, where it is "at most longest plus padding". Then it alone can fix the column in
    /// step 2: if the longest is at most the average, the bound is at most average plus padding.
    fn short_bound(&self) -> Option<usize> {
        self.upper.filter(|bound| *bound <= self.full())
    }

    fn fitting(&self, average: usize) -> Option<usize> {
        let room = average + self.padding;
        match self.short_bound() {
            Some(bound) => (bound <= room).then(|| self.content(bound)),
            None => (self.full() <= room).then_some(self.longest),
        }
    }
}

fn borders(style: &[u8; STYLE_BYTES], visible: usize) -> usize {
    // Left, junction and right by their places in the six parts of the style; two parts have no fill.
    let parts = [(0, 4), (4, 3), (7, 4), (11, 3), (14, 4), (18, 4)];
    let any = |from_end: usize| parts.iter().any(|(start, size)| style[start + size - from_end] != 0);
    let left = parts.iter().any(|(start, _)| style[*start] != 0);
    let junctions = if any(2) { visible.max(1) - 1 } else { 0 };
    usize::from(left) + usize::from(any(1)) + junctions
}

fn asked(table: &Table, at: usize, column: &Column) -> Asked {
    let visible = table.columns.iter().filter(|column| column.constraint != 1).count();
    let whole = usize::from(table.target).saturating_sub(borders(&table.style, visible));
    let width = |width: Width| match width.unit {
        PERCENT if table.target == 0 => None,
        PERCENT => Some(whole * usize::from(width.value.min(100)) / 100),
        _ => Some(usize::from(width.value)),
    };
    let [first, second] = column.widths.map(width);
    let (absolute, lower, upper) = match column.constraint {
        3 => (first, None, None),
        4 => (None, first, None),
        5 => (None, None, first),
        6 => (None, first, second),
        _ => (None, None, None),
    };
    Asked {
        hidden: column.constraint == 1,
        padding: usize::from(column.left + column.right),
        longest: longest_part(table, at, usize::MAX).unwrap_or(0),
        absolute,
        lower,
        upper,
        takes_longest: matches!(column.constraint, 1 | 2),
    }
}

/// The longest part of the column's lines, split at a width; nothing if it has no cell. An empty line is
/// of length 0 in a trial, and "at least 1 per cell present" where nothing is split.
fn longest_part(table: &Table, at: usize, width: usize) -> Option<usize> {
    let least = usize::from(width == usize::MAX);
    let cells = table.header.iter().chain(&table.rows).filter_map(|row| row.cells.get(at));
    let lines = cells.flat_map(|cell| cell.lines.iter().map(|line| (cell.delimiter, line)));
    let lengths = lines.map(|(own, line)| {
        let choices = [own, table.columns[at].delimiter, table.delimiter];
        let delimiter = choices.into_iter().find(|byte| *byte != 0).unwrap_or(b' ');
        oracle::longest_part(line, width, delimiter).max(least)
    });
    lengths.max()
}

/// The columns that are decided, each with the width that it was offered, and what is left.
#[derive(Clone)]
struct Stage {
    decided: BTreeMap<usize, usize>,
    remaining: usize,
}

impl Stage {
    fn start(table: &Table, columns: &[Asked]) -> Self {
        let decided: BTreeMap<usize, usize> =
            columns.iter().enumerate().filter_map(|(at, column)| Some((at, column.first()?))).collect();
        let visible: Vec<usize> = (0..columns.len()).filter(|at| !columns[*at].hidden).collect();
        let taken = |at: &usize| columns[*at].padding + decided.get(at).unwrap_or(&0);
        let taken = borders(&table.style, visible.len()) + visible.iter().map(taken).sum::<usize>();
        Stage { remaining: usize::from(table.target).saturating_sub(taken), decided }
    }

    fn open(&self, columns: &[Asked]) -> Vec<usize> {
        (0..columns.len()).filter(|at| !self.decided.contains_key(at)).collect()
    }

    fn average(&self, columns: &[Asked]) -> usize {
        self.remaining.checked_div(columns.len() - self.decided.len()).unwrap_or(0)
    }

    /// After a step: "Column order; a pass that fixed a column is repeated." A pass begins only from an
    /// average of `least` on.
    fn after(&self, columns: &[Asked], least: usize, offered: impl Fn(usize, usize) -> Option<usize>) -> Stage {
        let mut stage = self.clone();
        if stage.average(columns) < least {
            return stage;
        }
        for at in stage.open(columns) {
            if let Some(width) = offered(at, stage.average(columns)) {
                stage.remaining = stage.remaining.saturating_sub(width);
                stage.decided.insert(at, width);
            }
        }
        if stage.decided.len() == self.decided.len() { stage } else { stage.after(columns, least, offered) }
    }

    fn width(&self, at: usize) -> Option<usize> {
        self.decided.get(&at).map(|width| *width.max(&1))
    }
}

/// One to each in turn, as long as there are any: "share evenly, the first ones taking the excess".
fn deal(total: usize, columns: &[usize], widths: &mut [usize]) {
    for (_, at) in (0..total).zip(columns.iter().cycle()) {
        widths[*at] += 1;
    }
}

/// Each column's content width, and what set it.
pub fn found(table: &Table) -> Vec<(usize, Reason)> {
    let columns: Vec<Asked> = table.columns.iter().enumerate().map(|(at, column)| asked(table, at, column)).collect();
    if table.target == 0 || table.arrangement == 0 { undirected(&columns) } else { arranged(table, &columns) }
}

fn named(column: &Asked, step: Step, widened: bool) -> Reason {
    if column.hidden { Reason::default() } else { Reason { step: Some(step), widened } }
}

/// "No target, or `Disabled`"
fn undirected(columns: &[Asked]) -> Vec<(usize, Reason)> {
    let found = |column: &Asked| {
        let bound = column.upper.filter(|bound| *bound < column.longest).map(|bound| column.content(bound));
        let (width, step) = match (column.first(), bound) {
            (Some(width), _) => (width, Step::First),
            (None, Some(width)) => (width, Step::PlainUpper),
            (None, None) => (column.longest.max(1), Step::PlainLongest),
        };
        (width, named(column, step, false))
    };
    columns.iter().map(found).collect()
}

/// A column is widened if its width in the end is above the one that its step set.
fn arranged(table: &Table, columns: &[Asked]) -> Vec<(usize, Reason)> {
    let start = Stage::start(table, columns);
    let lower = start.after(columns, 0, |at, average| {
        columns[at].lower.filter(|bound| *bound > average).map(|bound| columns[at].content(bound))
    });
    let fitting = lower.after(columns, 1, |at, average| columns[at].fitting(average));
    let split = fitting.after(columns, 0, |at, average| {
        let part = longest_part(table, at, average).unwrap_or(0);
        (part + 3 <= average).then_some(part)
    });
    let widths = shared(table, columns, &split);
    let step = |at: usize| match [&start, &lower, &fitting, &split].iter().position(|stage| stage.width(at).is_some()) {
        Some(0) => Step::First,
        Some(1) => Step::Lower,
        Some(2) if columns[at].short_bound().is_some() => Step::Upper,
        Some(2) => Step::Longest,
        Some(_) => Step::Part,
        None => Step::Share,
    };
    let widened = |at: usize| split.width(at).is_some_and(|width| width < widths[at]);
    (0..columns.len()).map(|at| (widths[at], named(&columns[at], step(at), widened(at)))).collect()
}

/// Step 4.
fn shared(table: &Table, columns: &[Asked], split: &Stage) -> Vec<usize> {
    let mut widths: Vec<usize> = (0..columns.len()).map(|at| split.width(at).unwrap_or(0)).collect();
    let open = split.open(columns);
    let visible: Vec<usize> = (0..columns.len()).filter(|at| !columns[*at].hidden).collect();
    if !open.is_empty() {
        deal(split.remaining.max(open.len()), &open, &mut widths);
    } else if table.arrangement == 2 {
        deal(split.remaining, &visible, &mut widths);
    }
    widths
}
