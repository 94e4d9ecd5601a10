//! Widths.

use super::{HIDDEN, JUNCTIONS, LEFTS, RIGHTS, Reading};
use crate::marks::{Rule, Slip, Step};
use crate::reasons::Reason;
use crate::sheet::{Cell, PERCENT, SIGN, Width};

const ABSOLUTE: u8 = 3;

struct State {
    content: Vec<Option<usize>>,
    /// Noted where a rule fixes or widens the column.
    reasons: Vec<Reason>,
    remaining: usize,
    /// The average at the start of the pass, for the slip that holds it.
    held: usize,
}

/// What a step would fix a column at, and take off the remaining width for it.
struct Offer {
    step: Step,
    width: usize,
    charged: usize,
}

impl Reading<'_> {
    /// "A column's longest: greatest line length over header and rows, at least 1 per cell present;
    /// 0 with no cell."
    pub(super) fn longest(&self, at: usize) -> usize {
        let lines = self.measured_cells(at).into_iter().flat_map(|cell| self.measured_lines(cell));
        let (longest, has_sign) = lines.map(|line| self.measured(line)).max().unwrap_or_default();
        self.fire_if(has_sign, Rule::SignMeasured);
        longest
    }

    /// The cells whose lines are column `at`'s: its own, but for the slips.
    fn measured_cells(&self, at: usize) -> Vec<&Cell> {
        let left_out = usize::from(self.slips(Slip::HeaderNotMeasured) && self.table.header.is_some());
        if self.slips(Slip::ColumnNotAdvanced) {
            let columns = if at == 0 { self.table.columns.len() } else { 0 };
            return (0..columns).flat_map(|at| self.cells(at, left_out)).collect();
        }
        if self.slips(Slip::HiddenNotMeasured) && self.hidden(at) {
            return Vec::new();
        }
        if self.slips(Slip::EmptyRowLast) {
            let rows = self.table.header.iter().chain(&self.table.rows);
            return rows.take_while(|row| !row.cells.is_empty()).filter_map(|row| row.cells.get(at)).collect();
        }
        self.cells(at, left_out).collect()
    }

    fn measured_lines<'c>(&self, cell: &'c Cell) -> &'c [Vec<u8>] {
        let lines = &cell.lines;
        if lines.len() > 1 && self.slips(Slip::LineTwice) { &lines[..lines.len() - 1] } else { lines }
    }

    /// A line's length, and whether it has a degree sign.
    fn measured(&self, line: &[u8]) -> (usize, bool) {
        let length = if self.slips(Slip::LongestInBytes) { line.len() } else { self.characters(line).len() };
        let more = usize::from(self.slips(Slip::LengthByteMeasured));
        let least = usize::from(!self.slips(Slip::EmptyLineNothing));
        ((length + more).max(least), line.contains(&SIGN[0]))
    }

    /// "Borders drawn: left if any `left` is set, right likewise, and visible columns less one, not
    /// below 0, if any `junction` is set."
    pub(super) fn borders(&self) -> usize {
        let all = self.slips(Slip::HiddenVisible);
        let columns = if all { self.table.columns.len() } else { self.visible().count() };
        let between = if self.set(&JUNCTIONS) { columns.saturating_sub(1) } else { 0 };
        usize::from(self.set(&LEFTS)) + usize::from(self.set(&RIGHTS)) + between
    }

    /// "Percent: at most 100, of target less borders (not below 0), rounded down; without a target
    /// it gives no width."
    fn constraint_width(&self, width: Width) -> Option<usize> {
        let (value, target) = (usize::from(width.value), usize::from(self.table.target));
        if width.unit != PERCENT {
            return Some(value);
        }
        if target == 0 {
            self.fire(Rule::PercentNoTarget);
            return None;
        }
        let whole = if self.slips(Slip::PercentOfTarget) { target } else { target.saturating_sub(self.borders()) };
        self.fire(if value > 100 { Rule::PercentCapped } else { Rule::PercentPlain });
        self.fire_if(whole == 0, Rule::PercentNothing);
        let percent = if self.slips(Slip::PercentUncapped) { value } else { value.min(100) };
        let up = if self.slips(Slip::PercentRounded) { 99 } else { 0 };
        Some((whole * percent + up) / 100)
    }

    /// "Going from constraint to content takes off both paddings, stops at 0, and makes 0 into 1."
    fn content(&self, at: usize, width: usize) -> usize {
        width.saturating_sub(self.padding(at)).max(1)
    }

    fn lower(&self, at: usize) -> Option<usize> {
        let [first, second] = self.column(at).widths;
        match self.column(at).constraint {
            6 if self.slips(Slip::BoundsSwapped) => self.constraint_width(second),
            4 | 6 => self.constraint_width(first),
            _ => None,
        }
    }

    fn upper(&self, at: usize) -> Option<usize> {
        let [first, second] = self.column(at).widths;
        match self.column(at).constraint {
            6 if self.slips(Slip::BoundsSwapped) => self.constraint_width(first),
            5 => self.constraint_width(first),
            6 => self.constraint_width(second),
            _ => None,
        }
    }

    /// Content widths of all columns.
    pub fn widths(&self) -> Vec<usize> {
        self.arranged().0
    }

    /// Content widths of all columns, and what set them.
    pub fn arranged(&self) -> (Vec<usize>, Vec<Reason>) {
        let mut state = self.decided_first();
        if self.table.target == 0 || self.table.arrangement == 0 {
            self.fire_if(self.table.target > 0, Rule::DisabledTarget);
            self.decide_undirected(&mut state);
        } else {
            state.remaining = self.start(&state.content);
            self.fix_lower_bounds(&mut state);
            self.fix_fitting(&mut state);
            self.fix_after_trial(&mut state);
            self.share_rest(&mut state);
        }
        let decided = |width: Option<usize>| width.expect("every column is decided");
        (state.content.into_iter().map(decided).collect(), state.reasons)
    }

    /// "A hidden column names no step"
    fn decide(&self, state: &mut State, at: usize, width: usize, step: Step) {
        state.content[at] = Some(width.max(1));
        if !self.hidden(at) || self.slips(Slip::HiddenNamed) {
            state.reasons[at].step = Some(step);
        }
    }

    fn decided_first(&self) -> State {
        let count = self.table.columns.len();
        let (content, reasons) = (vec![None; count], vec![Reason::default(); count]);
        let mut state = State { content, reasons, remaining: 0, held: 0 };
        for at in 0..count {
            if let Some(width) = self.first(at) {
                self.decide(&mut state, at, width, self.first_step(at));
            }
        }
        state
    }

    /// A lower bound that fixes the column here is of this step too.
    fn first_step(&self, at: usize) -> Step {
        let lower = matches!(self.column(at).constraint, 4 | 6);
        if lower && self.slips(Slip::FirstNamedLower) { Step::Lower } else { Step::First }
    }

    /// "First (`evaluate`): `ContentWidth` and `Hidden` take the longest; `Absolute` its width; a lower
    /// bound fixes the column when longest plus padding is at most the bound."
    fn first(&self, at: usize) -> Option<usize> {
        let column = self.column(at);
        match column.constraint {
            HIDDEN | 2 => Some(self.first_longest(at)),
            ABSOLUTE => self.first_absolute(at, column.widths[0]),
            4 | 6 => self.first_lower(at),
            _ => None,
        }
    }

    fn first_longest(&self, at: usize) -> usize {
        self.fire(match (self.hidden(at), self.longest[at]) {
            (true, 0) => Rule::FirstHiddenBare,
            (true, _) => Rule::FirstHidden,
            (false, 0) => Rule::FirstContentBare,
            (false, _) => Rule::FirstContent,
        });
        self.longest[at]
    }

    fn first_absolute(&self, at: usize, width: Width) -> Option<usize> {
        let width = self.constraint_width(width);
        self.fire(match width {
            None => Rule::AbsoluteOpen,
            Some(width) if width <= self.padding(at) => Rule::FirstAbsoluteEaten,
            Some(_) => Rule::FirstAbsolute,
        });
        width.map(|width| self.content(at, width))
    }

    fn first_lower(&self, at: usize) -> Option<usize> {
        let bound = self.lower(at)?;
        let padding = if self.slips(Slip::LowerWithoutPadding) { 0 } else { self.padding(at) };
        let full = self.longest[at] + padding;
        if full > bound || (full == bound && self.slips(Slip::LowerStrict)) {
            return None;
        }
        self.fire(if full == bound { Rule::FirstLowerEqual } else { Rule::FirstLower });
        Some(self.content(at, bound))
    }

    fn decide_undirected(&self, state: &mut State) {
        for at in 0..state.content.len() {
            if state.content[at].is_none() {
                let (width, step) = self.undirected(at);
                self.decide(state, at, width, step);
            }
        }
    }

    /// "No target, or `Disabled`: the longest; if an upper bound is below the longest (padding not
    /// counted), the bound made content."
    fn undirected(&self, at: usize) -> (usize, Step) {
        let longest = self.longest[at];
        let counted = if self.slips(Slip::DisabledCountsPadding) { self.padding(at) } else { 0 };
        let bound = self.upper(at);
        if let Some(bound) = bound.filter(|bound| *bound < longest + counted) {
            self.fire(Rule::PlainUpper);
            return (self.content(at, bound), Step::PlainUpper);
        }
        let below_full = bound.is_some_and(|bound| bound < longest + self.padding(at));
        self.fire_if(below_full, Rule::PlainUpperPadding);
        self.fire(if longest == 0 { Rule::PlainBare } else { Rule::PlainLongest });
        let step = match self.slip {
            Some(Slip::UpperNamedByPadding) if below_full => Step::PlainUpper,
            Some(Slip::OpenNamedFirst) if self.column(at).constraint == ABSOLUTE => Step::First,
            _ => Step::PlainLongest,
        };
        (longest, step)
    }

    /// "the remaining width is target less borders, undecided paddings and decided visible full
    /// widths, never below 0."
    fn start(&self, first: &[Option<usize>]) -> usize {
        let mut taken = self.borders();
        for (at, content) in first.iter().enumerate() {
            if self.hidden(at) && !self.slips(Slip::HiddenCharged) {
                continue;
            }
            let bare = self.slips(Slip::DecidedEmptyFree) && self.column(at).constraint == 2;
            let content = if bare { self.longest[at] } else { content.unwrap_or(0) };
            taken += content + self.padding(at);
        }
        self.fire_if(taken > self.table.target.into(), Rule::StartStopped);
        self.less(self.table.target.into(), taken)
    }

    fn less(&self, width: usize, taken: usize) -> usize {
        if self.slips(Slip::RemainingWraps) {
            return (width as u16).wrapping_sub(taken as u16).into();
        }
        width.saturating_sub(taken)
    }

    fn undecided(&self, state: &State) -> usize {
        state.content.iter().filter(|content| content.is_none()).count()
    }

    /// "Average is remaining over undecided count, 0 if none."
    fn average(&self, state: &State) -> usize {
        state.remaining.checked_div(self.undecided(state)).unwrap_or(0)
    }

    fn average_in_pass(&self, state: &State) -> usize {
        if self.slips(Slip::AverageHeld) { state.held } else { self.average(state) }
    }

    /// "Fixing takes off the width offered, before 0 becomes 1, and the remaining width stops at 0."
    fn fix(&self, state: &mut State, at: usize, offer: Offer) {
        self.fire_if(offer.charged > state.remaining, Rule::RemainingStopped);
        state.remaining = self.less(state.remaining, offer.charged);
        self.decide(state, at, offer.width, offer.step);
        if self.longest[at] == 0 && self.slips(Slip::BareNotNamed) {
            state.reasons[at].step = None;
        }
    }

    /// "Column order; a pass that fixed a column is repeated." True if it fixed one.
    fn pass(&self, state: &mut State, offer: impl Fn(&State, usize) -> Option<Offer>) -> bool {
        let before = self.undecided(state);
        state.held = self.average(state);
        for at in 0..state.content.len() {
            if state.content[at].is_some() {
                continue;
            }
            if let Some(offer) = offer(state, at) {
                self.fix(state, at, offer);
            }
        }
        self.undecided(state) < before
    }

    /// A bound is made content before it is offered, so one eaten up by padding is charged 1.
    fn offer_bound(&self, step: Step, at: usize, bound: usize, eaten: Rule) -> Offer {
        let width = self.content(at, bound);
        self.fire_if(bound <= self.padding(at), eaten);
        let free = self.slips(Slip::EatenFree) && bound <= self.padding(at);
        Offer { step, width, charged: if free { 0 } else { width } }
    }

    /// "1. Lower bounds above the average are fixed."
    fn fix_lower_bounds(&self, state: &mut State) {
        let offer = |state: &State, at: usize| self.offer_lower(at, self.average_in_pass(state));
        if !self.pass(state, offer) || self.slips(Slip::OneLowerPass) {
            return;
        }
        while self.pass(state, offer) {
            self.fire(Rule::LowerAgain);
        }
    }

    fn offer_lower(&self, at: usize, average: usize) -> Option<Offer> {
        let bound = self.lower(at)?;
        let compared = if self.slips(Slip::LowerLessPadding) { self.content(at, bound) } else { bound };
        self.fire_if(compared == average, Rule::LowerEqual);
        if compared <= average {
            return None;
        }
        self.fire(Rule::LowerFixed);
        let step = if self.slips(Slip::LowerNamedFirst) { Step::First } else { Step::Lower };
        Some(self.offer_bound(step, at, bound, Rule::LowerEaten))
    }

    /// "2. A pass begins only if the average isn't 0"
    fn fix_fitting(&self, state: &mut State) {
        let offer = |state: &State, at: usize| self.offer_fitting(at, self.average_in_pass(state));
        let mut again = false;
        while self.undecided(state) > 0 {
            let barred = self.average(state) == 0;
            self.fire_if(barred, Rule::FitBarred);
            if barred && !self.slips(Slip::PassAtZero) || !self.pass(state, offer) {
                return;
            }
            self.fire_if(again, Rule::FitAgain);
            if self.slips(Slip::OneFittingPass) {
                return;
            }
            again = true;
        }
    }

    /// "fix at an upper bound that is at most average plus padding and at most longest plus padding;
    /// else at the longest if at most the average."
    fn offer_fitting(&self, at: usize, average: usize) -> Option<Offer> {
        let exchanged = self.slips(Slip::UpperAndLongest);
        if let Some(bound) = self.upper(at).filter(|bound| self.upper_fits(at, *bound, average)) {
            self.fire(Rule::UpperFixed);
            let equal = bound == self.longest[at] + self.padding(at) && self.slips(Slip::EqualNamedLongest);
            let step = if exchanged || equal { Step::Longest } else { Step::Upper };
            return Some(self.offer_bound(step, at, bound, Rule::UpperEaten));
        }
        let longest = self.longest[at];
        if longest > average || (longest == average && self.slips(Slip::LongestStrict)) {
            return None;
        }
        self.fire_if(longest == average, Rule::FitEqual);
        self.fire(if longest == 0 { Rule::FitBare } else { Rule::FitFixed });
        let charged = if self.slips(Slip::ChargesOne) { longest.max(1) } else { longest };
        let step = if exchanged { Step::Upper } else { Step::Longest };
        Some(Offer { step, width: longest, charged })
    }

    fn upper_fits(&self, at: usize, bound: usize, average: usize) -> bool {
        let padding = self.padding(at);
        let room = if self.slips(Slip::UpperLessPadding) { average } else { average + padding };
        let full = self.longest[at] + padding;
        self.fire_if(bound > room, Rule::UpperOverAverage);
        self.fire_if(bound > full, Rule::UpperOverLongest);
        let fits = bound <= room && (bound <= full || self.slips(Slip::UpperAnyLongest));
        self.fire_if(fits && bound == room, Rule::UpperAtAverage);
        self.fire_if(fits && bound == full, Rule::UpperAtLongest);
        fits
    }

    /// "3. Split the column's lines at the average; fix at the longest part if it is shorter by 3 or
    /// more."
    fn fix_after_trial(&self, state: &mut State) {
        let offer = |state: &State, at: usize| self.offer_trial(at, self.average_in_pass(state));
        if !self.pass(state, offer) || self.slips(Slip::OneTrialPass) {
            return;
        }
        while self.pass(state, offer) {
            self.fire(Rule::TrialAgain);
        }
    }

    fn offer_trial(&self, at: usize, average: usize) -> Option<Offer> {
        let part = self.longest_part(at, average);
        let saved = average.saturating_sub(part);
        self.fire_if(average == 0, Rule::TrialZero);
        self.fire_if(saved == 2, Rule::TrialTwo);
        let enough = match self.slip {
            Some(Slip::TwoSaved) => 2,
            Some(Slip::FourSaved) => 4,
            _ => 3,
        };
        if saved < enough {
            return None;
        }
        self.fire_if(saved == 3, Rule::TrialThree);
        self.fire(if part == 0 { Rule::TrialNothing } else { Rule::TrialFixed });
        let charged = if self.slips(Slip::TrialAtLeastOne) { part.max(1) } else { part };
        let step = if self.slips(Slip::PartNamedShare) { Step::Share } else { Step::Part };
        Some(Offer { step, width: part, charged })
    }

    fn longest_part(&self, at: usize, average: usize) -> usize {
        self.trial.set(true);
        let left_out = usize::from(self.slips(Slip::HeaderNotTried) && self.table.header.is_some());
        let parts = self.cells(at, left_out).flat_map(|cell| self.wrap(cell, at, average.max(1)));
        let longest = parts.map(|part| part.len()).max().unwrap_or(0);
        self.trial.set(false);
        longest
    }

    /// "4. If columns are left, raise remaining to their number, share evenly, the first ones taking
    /// the excess. If none is left and arrangement is 2, the remainder is shared so among visible
    /// columns."
    fn share_rest(&self, state: &mut State) {
        let left = self.undecided(state);
        if left > 0 {
            self.fire_if(state.remaining < left, Rule::ShareRaised);
            let total = state.remaining.max(left);
            self.fire(if total % left == 0 { Rule::ShareEven } else { Rule::ShareExcess });
            let open: Vec<usize> = (0..state.content.len()).filter(|at| state.content[*at].is_none()).collect();
            for (at, share) in open.into_iter().zip(self.share(total, left)) {
                self.decide(state, at, share, Step::Share);
                state.reasons[at].widened = self.table.arrangement == 2 && self.slips(Slip::ShareWidens);
            }
        } else if self.table.arrangement == 2 {
            self.widen(state);
        }
    }

    fn widen(&self, state: &mut State) {
        let skips = |at: &usize| self.slips(Slip::FullSkipsAbsolute) && self.column(*at).constraint == ABSOLUTE;
        let widened: Vec<usize> = self.visible().filter(|at| !skips(at)).collect();
        self.fire(match (widened.len(), state.remaining) {
            (0, _) => Rule::FullNoColumn,
            (_, 0) => Rule::FullNothing,
            (count, rest) if rest % count == 0 => Rule::FullEven,
            _ => Rule::FullExcess,
        });
        let rest = state.remaining;
        let marked = |share: usize| match self.slip {
            Some(Slip::NothingWidens) => rest > 0,
            Some(Slip::NoRemainderWidens) => share > 0 || rest == 0,
            _ => share > 0,
        };
        for (at, share) in widened.iter().zip(self.share(rest, widened.len())) {
            state.content[*at] = state.content[*at].map(|content| content + share);
            state.reasons[*at].widened = marked(share);
        }
        if rest > 0 && self.slips(Slip::HiddenWidened) {
            state.reasons.iter_mut().for_each(|reason| reason.widened |= reason.step.is_none());
        }
    }

    fn share(&self, total: usize, count: usize) -> Vec<usize> {
        let last = self.slips(Slip::ExcessLast);
        let extra = |at: usize| usize::from(if last { at >= count - total % count } else { at < total % count });
        (0..count).map(|at| total / count + extra(at)).collect()
    }
}
