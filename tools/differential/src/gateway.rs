//! The archive's calls against the oracle and the readings of the refusals, in one process.

use std::ops::Range;

use crate::archive::{Calls, Checked, Counted, Measured, Printed, PrintedLines, Reasoned, write_sheet};
use crate::compare::{Expected, Tally};
use crate::oracle::Answer;
use crate::random::Random;
use crate::reasons::{Counts, Report};
use crate::record::{Record, answered};
use crate::sheet::{MOST_COLUMNS, Refusal, decode, encode};
use crate::slices::Slices;
use crate::{damage, generate, second};

/// Bytes on either side of what is lent.
const FENCE: usize = 64;

/// A buffer whose bytes all differ from what a page can hold: C2 and B0 aren't among them. A sheet can hold
/// some of them, in numbers of two bytes and lengths.
struct Buffer {
    bytes: Vec<u8>,
    /// What the bytes are between calls.
    marks: Vec<u8>,
}

impl Buffer {
    fn new() -> Self {
        Buffer { bytes: Vec::new(), marks: Vec::new() }
    }

    fn grow(&mut self, length: usize) {
        while self.marks.len() < length {
            self.marks.push(0x80 + (self.marks.len() % 47) as u8);
        }
        let known = self.bytes.len();
        self.bytes.extend(&self.marks[known..]);
    }

    /// Lends `length` bytes to a call. True if it answers `answer` and the bytes then hold `text` and,
    /// like those around them, are untouched otherwise.
    fn holds<A: PartialEq>(
        &mut self,
        length: usize,
        text: &[u8],
        call: impl FnOnce(&mut [u8]) -> A,
        answer: A,
    ) -> bool {
        let seen = length + 2 * FENCE;
        self.grow(seen);
        let same = call(&mut self.bytes[FENCE..FENCE + length]) == answer;
        let end = FENCE + text.len();
        let kept = |range: Range<usize>| self.bytes[range.clone()] == self.marks[range];
        let right = self.bytes[FENCE..end] == *text && kept(0..FENCE) && kept(end..seen);
        self.bytes[..seen].copy_from_slice(&self.marks[..seen]);
        same && right
    }
}

fn refused(refusal: Refusal) -> Printed {
    Printed { number: refusal.number.into(), place: refusal.place as u64, written: 0 }
}

fn state(number: u64, place: usize) -> Printed {
    Printed { number, place: place as u64, written: 0 }
}

fn some(Printed { number, place, .. }: Printed) -> PrintedLines {
    PrintedLines { number, place, written: 0, next: 0 }
}

fn written(count: usize) -> Printed {
    Printed { number: 0, place: 0, written: count as u64 }
}

/// The first call that answers otherwise than a refused one should.
fn refused_difference(
    calls: &Calls,
    refusal: Refusal,
    random: &mut Random,
    buffer: &mut Buffer,
) -> Option<&'static str> {
    let (number, place) = (u64::from(refusal.number), refusal.place as u64);
    let (content, hidden) = ([0; MOST_COLUMNS as usize], [0; MOST_COLUMNS as usize]);
    let length = random.pick(&[0, 1, 40, 700]);
    let line = random.pick(&[0, 1, 5, usize::MAX]);
    let trials = [
        ("check", calls.check() == Checked { number, place }),
        ("count", calls.count() == Counted { number, place, lines: 0, bytes: 0 }),
        ("widths", calls.widths() == Measured { number, place, columns: 0, content, hidden }),
        ("page", buffer.holds(length, b"", |page| calls.page(page), refused(refusal))),
        ("line", buffer.holds(length, b"", |page| calls.line(line, page), refused(refusal))),
        ("lines", buffer.holds(length, b"", |page| calls.lines(line, page), some(refused(refusal)))),
    ];
    trials.into_iter().find(|(_, same)| !same).map(|(name, _)| name)
}

fn measured(answer: &Answer) -> Measured {
    let (mut content, mut hidden) = ([0; MOST_COLUMNS as usize], [0; MOST_COLUMNS as usize]);
    for (at, width) in answer.widths.iter().enumerate() {
        (content[at], hidden[at]) = (width.0, u8::from(width.1));
    }
    Measured { number: 0, place: 0, columns: answer.widths.len() as u64, content, hidden }
}

/// No column, no step, no difference: "a refused call answers so throughout".
fn refused_reasons(number: u8, place: usize) -> Reasoned {
    let (step, widened) = ([0; MOST_COLUMNS as usize], [0; MOST_COLUMNS as usize]);
    let (number, place) = (number.into(), place as u64);
    Reasoned { number, place, columns: 0, step, widened, has_difference: 0, difference: 0 }
}

fn reasoned(report: &Report) -> Reasoned {
    let mut answer = refused_reasons(0, 0);
    answer.columns = report.columns.len() as u64;
    for (at, reason) in report.columns.iter().enumerate() {
        answer.step[at] = reason.step.map_or(0, |step| step.number());
        answer.widened[at] = u8::from(reason.widened);
    }
    answer.has_difference = u8::from(report.difference.is_some());
    answer.difference = report.difference.unwrap_or(0);
    answer
}

fn reasons_difference(calls: &Calls, expected: Reasoned) -> Option<String> {
    let given = calls.reasons();
    (given != expected).then(|| format!("reasons, {given:?} in place of {expected:?}"))
}

/// Where each line of the page stands.
fn line_ranges(page: &[u8]) -> Vec<Range<usize>> {
    let mut start = 0;
    let ends = page.iter().enumerate().filter(|(_, byte)| **byte == b'\n').map(|(at, _)| at + 1);
    ends.map(|end| std::mem::replace(&mut start, end)..end).collect()
}

fn accepted_difference(
    calls: &Calls,
    answer: &Answer,
    random: &mut Random,
    buffer: &mut Buffer,
) -> Option<&'static str> {
    let (page, lines) = (&answer.page[..], answer.lines);
    let counted = Counted { number: 0, place: 0, lines: lines as u64, bytes: page.len() as u64 };
    let over = page.len() + random.between(1, 40);
    let short = page.len().saturating_sub(random.pick(&[1, 1, 2, 30])).min(page.len().saturating_sub(1));
    let shortly = |buffer: &mut Buffer| {
        page.is_empty() || buffer.holds(short, b"", |page| calls.page(page), state(20, page.len()))
    };
    let trials = [
        ("check", calls.check() == Checked { number: 0, place: 0 }),
        ("count", calls.count() == counted),
        ("widths", calls.widths() == measured(answer)),
        ("page, room to spare", buffer.holds(over, page, |page| calls.page(page), written(page.len()))),
        ("page, exactly full", buffer.holds(page.len(), page, |page| calls.page(page), written(page.len()))),
        ("page, too short", shortly(buffer)),
    ];
    let differs = trials.into_iter().find(|(_, same)| !same).map(|(name, _)| name);
    differs
        .or_else(|| line_difference(calls, answer, random, buffer))
        .or_else(|| lines_difference(calls, answer, random, buffer))
}

/// Asking for each line costs its number squared: of long pages only some lines are asked for.
const ASKED: usize = 400;

fn line_difference(calls: &Calls, answer: &Answer, random: &mut Random, buffer: &mut Buffer) -> Option<&'static str> {
    let ranges = line_ranges(&answer.page);
    if ranges.len() != answer.lines {
        return Some("the page's own lines");
    }
    let step = ranges.len().div_ceil(ASKED).max(1);
    for (k, range) in ranges.iter().enumerate().skip(random.below(step)).step_by(step) {
        let text = &answer.page[range.clone()];
        let length = text.len() + random.pick(&[0, 0, 1, 30]);
        if !buffer.holds(length, text, |page| calls.line(k, page), written(text.len())) {
            return Some("line");
        }
        let short = if random.one_in(2) { text.len() - 1 } else { random.below(text.len()) };
        if random.one_in(3) && !buffer.holds(short, b"", |page| calls.line(k, page), state(20, text.len())) {
            return Some("line, too short");
        }
    }
    let past = random.pick(&[answer.lines, answer.lines + 1, usize::MAX]);
    let length = random.pick(&[0, 500]);
    if !buffer.holds(length, b"", |page| calls.line(past, page), state(21, answer.lines)) {
        return Some("line past the end");
    }
    let same = buffer.holds(length, b"", |page| calls.lines(past, page), some(state(21, answer.lines)));
    if same { None } else { Some("lines past the end") }
}

/// The page by as many lines as a buffer holds, from its start and from a line within.
fn lines_difference(calls: &Calls, answer: &Answer, random: &mut Random, buffer: &mut Buffer) -> Option<&'static str> {
    let ranges = line_ranges(&answer.page);
    let mut k = random.pick(&[0, ranges.len() / 2]);
    for _ in 0..ASKED {
        let Some(first) = ranges.get(k) else { return None };
        // Lines can have different lengths: the next few exactly, and a byte less.
        let few = ranges[(k + random.below(4)).min(ranges.len() - 1)].end - first.start;
        let one = first.len();
        let length = random.pick(&[0, one - 1, one, 2 * one + 1, 10 * one, 5000, few, few, few - 1, few - 1]);
        let next = ranges[k..].iter().take_while(|range| range.end - first.start <= length).count() + k;
        let (expected, text) = match next {
            none if none == k => (some(state(20, first.len())), &b""[..]),
            _ => {
                let text = &answer.page[first.start..ranges[next - 1].end];
                (PrintedLines { number: 0, place: 0, written: text.len() as u64, next: next as u64 }, text)
            }
        };
        if !buffer.holds(length, text, |page| calls.lines(k, page), expected) {
            return Some("lines");
        }
        k = next.max(k + 1);
    }
    None
}

/// The report on an accepted sheet; none if the two ways to find its steps differ.
fn report(sheet: &[u8], answer: &Answer) -> Option<Report> {
    let table = decode(sheet).ok()?;
    Expected::new(&table, answer).report().cloned()
}

/// Every call on one sheet after another, by one buffer. What it is lent comes from the seed.
pub struct Trials {
    seed: u64,
    buffer: Buffer,
    reported: Counts,
}

impl Trials {
    pub fn new(seed: u64) -> Self {
        Trials { seed, buffer: Buffer::new(), reported: Counts::default() }
    }

    /// The first call on sheet number `index` that answers otherwise than the record says.
    pub fn difference(&mut self, index: u64, record: &Record) -> Option<String> {
        let (random, buffer) = (&mut Random::new(self.seed ^ 0x5EED, index), &mut self.buffer);
        let calls = Calls { sheet: &record.sheet };
        if second::refusal(&record.sheet) != record.answer.as_ref().err().copied() {
            return Some("the second reading of the refusals".to_string());
        }
        let (differs, reasons) = match &record.answer {
            Err(refusal) => {
                let reasons = refused_reasons(refusal.number, refusal.place);
                (refused_difference(&calls, *refusal, random, buffer), reasons)
            }
            Ok(answer) => {
                let Some(report) = report(&record.sheet, answer) else {
                    return Some("the two ways to find the steps".to_string());
                };
                self.reported.add(&report);
                (accepted_difference(&calls, answer, random, buffer), reasoned(&report))
            }
        };
        differs.map(String::from).or_else(|| reasons_difference(&calls, reasons))
    }
}

/// The call that writes a sheet, by one buffer.
pub struct Writing {
    buffer: Buffer,
}

impl Writing {
    pub fn new() -> Self {
        Writing { buffer: Buffer::new() }
    }

    /// Lends so much room. What the call answers, unless it answers so and every byte is as it should be.
    pub fn difference(&mut self, slices: &Slices, room: usize, saved: &Result<Vec<u8>, Refusal>) -> Option<String> {
        let (sheet, answer) = match saved {
            Ok(sheet) => (&sheet[..], written(sheet.len())),
            Err(refusal) => (&b""[..], refused(*refusal)),
        };
        let call = |sheet: &mut [u8]| write_sheet(&slices.numbers, &slices.text, sheet);
        let same = self.buffer.holds(room, sheet, call, answer);
        (!same).then(|| format!("the archive's call, {:?} or other bytes", call(&mut vec![0; room])))
    }
}

/// True if there was no difference.
pub fn agrees(seed: u64, count: u64, damaged: bool) -> bool {
    let (mut tally, mut trials) = (Tally::default(), Trials::new(seed));
    for index in 0..count {
        let sheet = if damaged { damage::sheet(seed, index) } else { encode(&generate::table(seed, index)).bytes };
        let record = answered(sheet);
        let number = record.answer.as_ref().err().map_or(0, |refusal| refusal.number);
        let call = trials.difference(index, &record);
        tally.add(index, &record.sheet, number, call.as_deref());
    }
    let kind = if damaged { "damaged" } else { "accepted" };
    let same = tally.report(&format!("{kind} sheets from seed {seed} through every call"));
    trials.reported.print();
    same
}
