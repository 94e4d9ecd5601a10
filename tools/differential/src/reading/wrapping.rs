//! Wrapping.

use std::collections::VecDeque;

use super::{DEGREE, Reading, Text, byte_length, split_at_byte};
use crate::marks::{Rule, Slip};
use crate::sheet::Cell;

impl Reading<'_> {
    /// "Delimiter: the cell's, else column's, table's, a space."
    fn delimiter(&self, cell: &Cell, at: usize) -> u8 {
        let (cell, column) = (cell.delimiter, self.column(at).delimiter);
        let choices = [
            (cell, Rule::DelimiterCell),
            (column, Rule::DelimiterColumn),
            (self.table.delimiter, Rule::DelimiterTable),
            (b' ', Rule::DelimiterSpace),
        ];
        if self.slips(Slip::ColumnDelimiterFirst) && column != 0 {
            return column;
        }
        let (chosen, rule) = choices.into_iter().find(|(byte, _)| *byte != 0).expect("a space is set");
        self.fire_wrap(true, rule);
        chosen
    }

    /// "Only lines longer than the content width are split"
    pub(super) fn wrap(&self, cell: &Cell, at: usize, width: usize) -> Vec<Text> {
        let mut lines = Vec::new();
        for line in &cell.lines {
            let line = self.characters(line);
            let length = if self.slips(Slip::WrapTestInBytes) { byte_length(&line) } else { line.len() };
            let splits = length > width || (length == width && self.slips(Slip::WrapsExact));
            self.fire_signs(&line, width);
            if splits {
                lines.extend(self.split(&line, self.delimiter(cell, at).into(), width));
            } else {
                self.fire_wrap(true, if length == width { Rule::LineExact } else { Rule::LineShorter });
                lines.push(line);
            }
        }
        lines
    }

    fn fire_signs(&self, line: &[u16], width: usize) {
        let signs = line.iter().filter(|character| **character == DEGREE).count();
        self.fire_wrap(signs > 1 && signs == line.len(), Rule::SignsOnly);
        self.fire_wrap(signs > 0 && line.len() == width, Rule::SignsExact);
        self.fire_wrap(line.len() <= width && line.len() + signs > width, Rule::SignsFitInColumns);
    }

    /// "into the pieces between delimiters, empty ones kept."
    fn split(&self, text: &[u16], delimiter: u16, width: usize) -> Vec<Text> {
        let dropped = self.slips(Slip::EmptyPiecesDropped);
        let pieces = text.split(|each| *each == delimiter).filter(|piece| !(dropped && piece.is_empty()));
        let mut pieces: VecDeque<Text> = pieces.map(<[u16]>::to_vec).collect();
        let mut wrapping = Wrapping { reading: self, delimiter, width, line: vec![], done: vec![] };
        while let Some(piece) = pieces.pop_front() {
            if let Some(again) = wrapping.take(piece) {
                pieces.push_front(again);
            }
        }
        wrapping.finish()
    }
}

/// The wrapping of one line.
struct Wrapping<'a> {
    reading: &'a Reading<'a>,
    delimiter: u16,
    width: usize,
    line: Text,
    done: Vec<Text>,
}

impl Wrapping<'_> {
    fn fire(&self, condition: bool, rule: Rule) {
        self.reading.fire_wrap(condition, rule);
    }

    fn flush(&mut self) {
        let line = std::mem::take(&mut self.line);
        self.fire(line.last() == Some(&DEGREE), Rule::SignLast);
        self.fire(!self.done.is_empty() && line.first() == Some(&DEGREE), Rule::SignNext);
        self.done.push(line);
    }

    fn join(&mut self, piece: &[u16]) {
        if !self.line.is_empty() {
            let beside = self.line.last() == Some(&DEGREE) || piece.first() == Some(&DEGREE);
            self.fire(beside, Rule::SignAtDelimiter);
            self.line.push(self.delimiter);
        }
        self.line.extend(piece);
    }

    /// "After a piece joins or begins a line, a line longer than width less 2 (not below 0) is
    /// flushed."
    fn flush_if_full(&mut self) {
        let spare = if self.reading.slips(Slip::FullAtOne) { 1 } else { 2 };
        let most = self.width.saturating_sub(spare);
        self.fire(self.line.len() == most && most > 0, Rule::FullNotYet);
        self.fire(self.line.len() == most + 1, Rule::FullJust);
        if self.line.len() > most {
            self.fire(true, Rule::FullFlush);
            self.flush();
        }
    }

    /// Takes a piece; answers what is to be tried next.
    fn take(&mut self, piece: Text) -> Option<Text> {
        let fresh = self.line.is_empty();
        let used = self.line.len() + usize::from(!fresh);
        let free = self.width.saturating_sub(used);
        let least = if self.reading.slips(Slip::RetryAtOne) { 1 } else { 2 };
        // "A piece joins the line, after a delimiter if the line isn't empty, where the sum is at most
        // the width."
        if used + piece.len() <= self.width {
            self.fire_join(&piece, fresh, used);
            self.join(&piece);
            self.flush_if_full();
            return None;
        }
        // "Else a nonempty line with at most 2 columns free after a delimiter is flushed and the piece
        // tried again."
        if !fresh && free <= least {
            self.fire(true, if free == 2 { Rule::RetryTwo } else { Rule::RetryOne });
            self.flush();
            return Some(piece);
        }
        if piece.len() > self.width {
            return self.fill(piece, free);
        }
        // "Else the line is flushed and the piece begins another."
        self.fire(true, Rule::BeginLine);
        self.flush();
        self.line = piece;
        self.flush_if_full();
        None
    }

    fn fire_join(&self, piece: &[u16], fresh: bool, used: usize) {
        self.fire(
            true,
            match (fresh, piece.is_empty()) {
                (true, false) => Rule::JoinFirst,
                (false, false) => Rule::JoinMore,
                (true, true) => Rule::EmptyPiece,
                (false, true) => Rule::EmptyPieceMore,
            },
        );
        self.fire(used + piece.len() == self.width, Rule::JoinExact);
    }

    /// "Else a piece longer than the width fills the line, after a delimiter if the line isn't empty;
    /// the line is flushed, and the piece's rest is tried next."
    fn fill(&mut self, piece: Text, free: usize) -> Option<Text> {
        let fresh = self.line.is_empty();
        if !fresh && self.reading.slips(Slip::FillsFresh) {
            self.flush();
            return Some(piece);
        }
        self.fire(true, if fresh { Rule::FillFresh } else { Rule::FillMore });
        self.fire(!fresh && free == 3, Rule::FillThree);
        self.fire(piece[..=free].iter().rev().take(2).eq(&[DEGREE; 2]), Rule::SignFills);
        let (head, rest) = match self.reading.slips(Slip::FillInBytes) {
            true => split_at_byte(&piece, free),
            false => (piece[..free].to_vec(), piece[free..].to_vec()),
        };
        self.join(&head);
        self.flush();
        Some(rest)
    }

    /// "A nonempty last line is kept."
    fn finish(mut self) -> Vec<Text> {
        let left = !self.line.is_empty();
        self.fire(true, if left { Rule::LastKept } else { Rule::LastEmpty });
        if left || self.reading.slips(Slip::EmptyLastKept) {
            self.flush();
        }
        self.fire(self.done.is_empty(), Rule::NoLine);
        self.done
    }
}
