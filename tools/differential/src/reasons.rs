//! Document 02's order 5, "the reason for a width": what a report says, and how often it says what.

use crate::marks::Step;

/// Of one column: "the step that set its content width", "and whether the full-width remainder widened
/// it". "A hidden column names no step and isn't widened"
#[derive(Clone, Copy, Debug, Default, PartialEq)]
pub struct Reason {
    pub step: Option<Step>,
    pub widened: bool,
}

/// On an accepted sheet.
#[derive(Clone, Debug, PartialEq)]
pub struct Report {
    pub columns: Vec<Reason>,
    /// "without a target the difference is 0 and marked absent"
    pub difference: Option<i32>,
}

/// "With a target, the report also gives target minus the longest printed line"
pub fn difference(target: u16, page: &[u8]) -> Option<i32> {
    (target > 0).then(|| i32::from(target) - longest_line(page) as i32)
}

/// "Lengths count characters without 0A; a page without lines has length 0."
fn longest_line(page: &[u8]) -> usize {
    let page = String::from_utf8_lossy(page);
    page.split('\n').map(|line| line.chars().count()).max().unwrap_or(0)
}

/// Columns by their step, widened columns, sheets that have columns of both kinds, and differences above
/// zero, zero and below zero.
#[derive(Default)]
pub struct Counts {
    steps: [u64; Step::ALL.len()],
    widened: u64,
    both: u64,
    differences: [u64; 3],
    absent: u64,
}

impl Counts {
    pub fn add(&mut self, report: &Report) {
        for step in report.columns.iter().filter_map(|reason| reason.step) {
            self.steps[step as usize] += 1;
        }
        let visible = report.columns.iter().filter(|reason| reason.step.is_some()).count();
        let widened = report.columns.iter().filter(|reason| reason.widened).count();
        self.widened += widened as u64;
        self.both += u64::from(0 < widened && widened < visible);
        match report.difference {
            None => self.absent += 1,
            Some(difference) => self.differences[difference.signum().abs_diff(1) as usize] += 1,
        }
    }

    pub fn print(&self) {
        println!("columns by the step that set them:");
        for step in Step::ALL {
            println!("{:8} {}", self.steps[*step as usize], step.words());
        }
        println!("{} columns widened; {} sheets have both widened columns and others", self.widened, self.both);
        let [above, zero, below] = self.differences;
        println!("difference above zero {above}, zero {zero}, below zero {below}, absent {}", self.absent);
    }
}
