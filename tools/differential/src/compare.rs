//! The oracle against the reading.

use std::panic::{AssertUnwindSafe, catch_unwind};

use crate::marks::{RefusalSlip, Rule, Rules, Slip, WriterSlip};
use crate::oracle::{self, Answer};
use crate::reading::Reading;
use crate::reasons::{self, Counts, Report};
use crate::sheet::{self, SIGN, Table};
use crate::{damage, generate, second, steps, writer};

/// What is expected of an accepted sheet: the oracle's answer, and the report that follows from its page
/// and from the steps as they are found apart from the reading. None if these steps lead to other widths.
pub struct Expected<'a> {
    table: &'a Table,
    answer: &'a Answer,
    report: Option<Report>,
}

impl<'a> Expected<'a> {
    pub fn new(table: &'a Table, answer: &'a Answer) -> Self {
        let found = steps::found(table);
        let widths: Vec<usize> = found.iter().map(|(width, _)| *width).collect();
        let report = same_widths(table, &widths, answer).then(|| Report {
            columns: found.into_iter().map(|(_, reason)| reason).collect(),
            difference: reasons::difference(table.target, &answer.page),
        });
        Expected { table, answer, report }
    }

    /// Whether the reading answers so, on request with a mistake. Widths come first: a mistaken width can
    /// make a page of any size. A mistake of theirs or of the page has to show in what the oracle answers.
    pub fn agrees(&self, slip: Option<Slip>) -> (bool, Rules) {
        let reading = Reading::new(self.table, slip);
        let (widths, columns) = reading.arranged();
        if !same_widths(self.table, &widths, self.answer) {
            return (false, reading.fired());
        }
        let printed = reading.page(&widths);
        let counted = (printed.lines, printed.bytes) == (self.answer.lines, self.answer.page.len());
        let given = Some(Report { columns, difference: printed.difference });
        let reported = self.report == given || slip.is_some_and(|slip| !slip.of_report());
        (counted && reported && printed.page == self.answer.page, reading.fired())
    }

    /// The report, if the reading's run names the same steps.
    pub fn report(&self) -> Option<&Report> {
        let (_, columns) = Reading::new(self.table, None).arranged();
        self.report.as_ref().filter(|report| report.columns == columns)
    }
}

fn same_widths(table: &Table, widths: &[usize], answer: &Answer) -> bool {
    let same = |(width, (at, (content, hidden))): (&usize, (usize, &(u16, bool)))| {
        *width == usize::from(*content) && *hidden == (table.columns[at].constraint == 1)
    };
    widths.len() == answer.widths.len() && widths.iter().zip(answer.widths.iter().enumerate()).all(same)
}

pub fn agrees(table: &Table, answer: &Answer) -> bool {
    Expected::new(table, answer).agrees(None).0
}

pub fn hexadecimal(bytes: &[u8]) -> String {
    bytes.iter().map(|byte| format!("{byte:02X}")).collect::<Vec<_>>().join(" ")
}

/// The oracle's answer, or nothing if it panicked.
fn asked(table: &Table) -> Option<Answer> {
    catch_unwind(AssertUnwindSafe(|| oracle::answer(table))).ok()
}

/// What a run has seen: how often each rule, and what was reported.
pub struct Seen {
    rules: Vec<u64>,
    reported: Counts,
}

impl Seen {
    pub fn new() -> Self {
        Seen { rules: vec![0; Rule::ALL.len()], reported: Counts::default() }
    }
}

/// One accepted sheet: decoded from its own bytes, printed and reported on by both.
pub fn difference(table: &Table, bytes: &[u8], seen: &mut Seen) -> Option<&'static str> {
    if sheet::decode(bytes).as_ref() != Ok(table) || second::refusal(bytes).is_some() {
        return Some("the sheet isn't read back as the table it was made from");
    }
    let Some(answer) = asked(table) else { return Some("the oracle panicked") };
    let expected = Expected::new(table, &answer);
    let Some(report) = &expected.report else { return Some("the steps lead to other widths") };
    seen.reported.add(report);
    let (same, fired) = expected.agrees(None);
    for rule in fired.iter() {
        seen.rules[rule as usize] += 1;
    }
    if same { None } else { Some("page, widths or report differ") }
}

/// Sheets and differences, first of those without C2 or B0 in them, then of the others.
#[derive(Default)]
pub struct Tally {
    sheets: [u64; 2],
    differences: [u64; 2],
    /// Accepted, and refused with 1 to 9.
    numbers: [u64; 10],
}

impl Tally {
    pub fn add(&mut self, index: u64, sheet: &[u8], number: u8, difference: Option<&str>) {
        let kind = usize::from(sheet.iter().any(|byte| SIGN.contains(byte)));
        self.sheets[kind] += 1;
        self.numbers[usize::from(number)] += 1;
        if let Some(why) = difference {
            if self.differences == [0; 2] {
                println!("first difference, sheet {index}: {why}\n{}", hexadecimal(sheet));
            }
            self.differences[kind] += 1;
        }
    }

    /// True if there was no difference.
    pub fn report(&self, words: &str) -> bool {
        let ([plain, signed], [at_plain, at_signed]) = (self.sheets, self.differences);
        println!("{} {words}: {} differences", plain + signed, at_plain + at_signed);
        println!("without C2 or B0 {plain}: {at_plain} differences; with either {signed}: {at_signed} differences");
        println!("accepted {}, refused with 1 to 9: {:?}", self.numbers[0], &self.numbers[1..]);
        self.differences == [0; 2]
    }
}

/// True if there was no difference.
pub fn accepted(seed: u64, count: u64) -> bool {
    let mut seen = Seen::new();
    let mut tally = Tally::default();
    for index in 0..count {
        let table = generate::table(seed, index);
        let bytes = sheet::encode(&table).bytes;
        tally.add(index, &bytes, 0, difference(&table, &bytes, &mut seen));
    }
    let same = tally.report(&format!("accepted sheets from seed {seed}"));
    print_rules(&seen.rules);
    seen.reported.print();
    same
}

fn print_rules(seen: &[u64]) {
    let shown = seen.iter().filter(|count| **count > 0).count();
    println!("{shown} of {} rules seen; the rarest:", seen.len());
    let mut order: Vec<Rule> = Rule::ALL.to_vec();
    order.sort_by_key(|rule| seen[*rule as usize]);
    for rule in order.iter().take(8) {
        println!("{:8} {}", seen[*rule as usize], rule.words());
    }
}

/// Damaged sheets: both readings of the refusals, and the page of those that are still accepted.
pub fn damaged(seed: u64, count: u64) -> bool {
    let (mut tally, mut seen) = (Tally::default(), Seen::new());
    for index in 0..count {
        let bytes = damage::sheet(seed, index);
        let (number, difference) = match catch_unwind(|| sheet::decode(&bytes)) {
            Err(_) => (0, Some("the reader panicked")),
            Ok(Err(refusal)) => {
                let same = second::refusal(&bytes) == Some(refusal);
                (refusal.number, (!same).then_some("the readings of the refusals differ"))
            }
            Ok(Ok(table)) => (0, difference(&table, &bytes, &mut seen)),
        };
        tally.add(index, &bytes, number, difference);
    }
    tally.report(&format!("damaged sheets from seed {seed}"))
}

/// For each planted mistake the number of sheets until the first difference, accepted sheets for those of
/// the page, damaged ones for those of the refusals, damaged tables for those of the writer. True if all
/// were found.
pub fn slips(seed: u64, most: u64) -> bool {
    let pages = sheets_until(Slip::ALL, most, |index, left| {
        let table = generate::table(seed, index);
        let answer = oracle::answer(&table);
        let expected = Expected::new(&table, &answer);
        left.retain(|slip| expected.agrees(Some(*slip)).0);
    });
    let refusals = sheets_until(RefusalSlip::ALL, most, |index, left| {
        let sheet = damage::sheet(seed, index);
        let refusal = sheet::decode(&sheet).err();
        left.retain(|slip| second::refusal_with(&sheet, Some(*slip)) == refusal);
    });
    let writers = sheets_until(WriterSlip::ALL, most, |index, left| {
        let (slices, room) = writer::damage::trial(seed, index);
        let saved = writer::save(&slices, room);
        left.retain(|slip| writer::second::save_with(&slices, room, Some(*slip)) == saved);
    });
    let words = Slip::ALL.iter().map(|slip| slip.words()).chain(RefusalSlip::ALL.iter().map(|slip| slip.words()));
    let words = words.chain(WriterSlip::ALL.iter().map(|slip| slip.words()));
    let found: Vec<Option<u64>> = pages.into_iter().chain(refusals).chain(writers).collect();
    for (words, sheets) in words.zip(&found) {
        println!("{:>8} {words}", sheets.map_or("-".to_string(), |sheets| sheets.to_string()));
    }
    let count = found.iter().flatten().count();
    println!("{count} of {} planted mistakes found within {most} sheets or tables from seed {seed}", found.len());
    count == found.len()
}

/// Of each mistake the number of the sheet that `keep_missed` first took off those that are left.
fn sheets_until<S: Copy + PartialEq>(
    all: &[S],
    most: u64,
    mut keep_missed: impl FnMut(u64, &mut Vec<S>),
) -> Vec<Option<u64>> {
    let (mut left, mut found) = (all.to_vec(), vec![None; all.len()]);
    for index in 0..most {
        if left.is_empty() {
            break;
        }
        keep_missed(index, &mut left);
        for (slip, sheets) in all.iter().zip(&mut found) {
            if sheets.is_none() && !left.contains(slip) {
                *sheets = Some(index + 1);
            }
        }
    }
    found
}
