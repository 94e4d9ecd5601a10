//! Document 02's order 2: "a program that writes every sheet of a small family, end to end". What such a
//! program wrote, against a list made here from the document's words; they are quoted.

use crate::compare::{self, Seen, hexadecimal};
use crate::marks::ListSlip;
use crate::sheet::{Cell, Column, MOST_COLUMNS, Refusal, Row, STYLE_BYTES, Table, decode_front, encode};

/// "There are 32,736: 1,023 with one column and 31,713 with two."
const COUNTS: [u64; 3] = [32_736, 1_023, 31_713];

/// "padding 0, every style byte, delimiter, alignment and constraint 0, no indicator, no header, one row
/// without limit, a cell for each column, one line per cell"
fn table(arrangement: u8, target: u16, texts: &[Vec<u8>]) -> Table {
    let cell = |text: &Vec<u8>| Cell { delimiter: 0, alignment: 0, lines: vec![text.clone()] };
    Table {
        arrangement,
        target,
        delimiter: 0,
        indicator: vec![],
        style: [0; STYLE_BYTES],
        columns: vec![Column::default(); texts.len()],
        header: None,
        rows: vec![Row { height: 0, cells: texts.iter().map(cell).collect() }],
    }
}

/// "Texts use only the space and the letter a, length 0 to 4." "texts by length, then space before a,
/// from the left": of a text's number the highest bit is its first character.
fn texts(slip: Option<ListSlip>) -> Vec<Vec<u8>> {
    let longest = if slip == Some(ListSlip::LengthFive) { 5 } else { 4 };
    let letters = if slip == Some(ListSlip::LetterFirst) { b"a " } else { b" a" };
    let mut texts = Vec::new();
    for length in 0..=longest {
        for number in 0..1 << length {
            let mut text: Vec<u8> = (0..length).rev().map(|bit| letters[number >> bit & 1]).collect();
            if slip == Some(ListSlip::FromTheRight) {
                text.reverse();
            }
            texts.push(text);
        }
    }
    if slip == Some(ListSlip::TextLeftOut) {
        texts.remove(texts.len() / 2);
    }
    texts
}

/// "first text, second text"
fn rows(columns: u8, slip: Option<ListSlip>) -> Vec<Vec<Vec<u8>>> {
    let texts = texts(slip);
    let mut rows = Vec::new();
    for first in &texts {
        if columns == 1 {
            rows.push(vec![first.clone()]);
            continue;
        }
        for second in &texts {
            rows.push(vec![first.clone(), second.clone()]);
        }
    }
    if slip == Some(ListSlip::TextsExchanged) {
        rows.iter_mut().for_each(|texts| texts.reverse());
    }
    rows
}

/// "arrangement 0 to 2, target 0 to 10"
fn settings(slip: Option<ListSlip>) -> Vec<(u8, u16)> {
    let greatest = if slip == Some(ListSlip::TargetEleven) { 11 } else { 10 };
    let mut settings = Vec::new();
    for arrangement in 0..=2 {
        for target in 0..=greatest {
            settings.push((arrangement, target));
        }
    }
    if slip == Some(ListSlip::TargetFirst) {
        settings.sort_by_key(|(arrangement, target)| (*target, *arrangement));
    }
    settings
}

/// "Order: number of columns, arrangement 0 to 2, target 0 to 10, first text, second text", with "one
/// column or two". On request with a planted mistake.
fn list(slip: Option<ListSlip>) -> Vec<Vec<u8>> {
    let counts = if slip == Some(ListSlip::TwoColumnsFirst) { [2, 1] } else { [1, 2] };
    let mut list = Vec::new();
    for columns in counts {
        let rows = rows(columns, slip);
        for (arrangement, target) in settings(slip) {
            list.extend(rows.iter().map(|texts| encode(&table(arrangement, target, texts)).bytes));
        }
    }
    match slip {
        Some(ListSlip::ListedTwice) => list.insert(list.len() / 2, list[list.len() / 2].clone()),
        Some(ListSlip::OneTooFew) => list.truncate(list.len() - 1),
        _ => {}
    }
    list
}

/// What a program with that mistake writes.
fn mistaken(slip: ListSlip) -> Vec<u8> {
    let mut output = list(Some(slip)).concat();
    match slip {
        ListSlip::LastByteLost => output.truncate(output.len() - 1),
        ListSlip::NothingWritten => output.clear(),
        _ => {}
    }
    output
}

#[derive(Default)]
struct Tally {
    /// Sheets by their number of columns.
    sheets: [u64; MOST_COLUMNS as usize + 1],
    differences: u64,
    first: Option<First>,
}

/// The first difference: the sheet's number from 0, why, its bytes and the listed ones, if there are any.
struct First {
    index: u64,
    why: String,
    given: Vec<u8>,
    listed: Vec<u8>,
}

impl Tally {
    fn add(&mut self, index: u64, given: &[u8], listed: &[u8], difference: Option<String>) {
        let Some(why) = difference else { return };
        self.differences += 1;
        let (given, listed) = (given.to_vec(), listed.to_vec());
        self.first.get_or_insert(First { index, why, given, listed });
    }

    /// All, with one column, with two.
    fn counts(&self) -> [u64; 3] {
        [self.sheets.iter().sum(), self.sheets[1], self.sheets[2]]
    }

    /// Without a difference, and as many as the document says.
    fn passes(&self) -> bool {
        self.differences == 0 && self.counts() == COUNTS
    }

    fn report(&self, bytes: usize) {
        if let Some(First { index, why, given, listed }) = &self.first {
            let shown = |bytes: &[u8]| if bytes.is_empty() { "none".to_string() } else { hexadecimal(bytes) };
            println!("first difference, sheet {index}: {why}\n bytes: {}", shown(given));
            if listed != given {
                println!("listed: {}", shown(listed));
            }
        }
        let [all, one, two] = self.counts();
        println!("{all} small sheets in {bytes} bytes: {} differences", self.differences);
        println!("{one} with one column, {two} with two; the document has {} and {}", COUNTS[1], COUNTS[2]);
    }
}

/// The next sheet is taken off the input. Where the reader refuses, it can't be known where another one
/// begins, so all is taken, and given as far as the refused field, which has two bytes at most.
fn take<'a>(input: &mut &'a [u8]) -> (&'a [u8], Result<Table, Refusal>) {
    let whole = std::mem::take(input);
    match decode_front(whole) {
        Ok((table, end)) => {
            *input = &whole[end..];
            (&whole[..end], Ok(table))
        }
        Err(refusal) => (&whole[..whole.len().min(refusal.place + 2)], Err(refusal)),
    }
}

/// A sheet in its place of the list. No sheet is empty: empty bytes stand for none.
fn place_difference(given: &[u8], listed: &[u8]) -> Option<String> {
    let why = match (given, listed) {
        _ if given == listed => return None,
        (_, []) => "one more than are listed",
        ([], _) => "missing, the input has ended",
        _ => "another one is listed here",
    };
    Some(why.to_string())
}

fn refusal_words(refusal: Refusal) -> String {
    match refusal.number {
        1 => "the input ends within it".to_string(),
        number => format!("refused {number} at {}", refusal.place),
    }
}

/// A further trial of a sheet by its number from 0, its table and its bytes.
type Trial<'a> = &'a mut dyn FnMut(u64, &Table, &[u8]) -> Option<String>;

/// The input told apart into sheets, each against the list and under a further trial.
fn compared(mut input: &[u8], list: &[Vec<u8>], trial: Trial) -> Tally {
    let mut tally = Tally::default();
    let mut listed = list.iter();
    for index in 0.. {
        let listed = listed.next().map_or(&[][..], Vec::as_slice);
        let (given, read) = take(&mut input);
        let difference = match read {
            Err(_) if given.is_empty() && listed.is_empty() => break,
            Err(_) if given.is_empty() => place_difference(given, listed),
            Err(refusal) => Some(refusal_words(refusal)),
            Ok(table) => {
                tally.sheets[table.columns.len()] += 1;
                let tried = trial(index, &table, given);
                place_difference(given, listed).or(tried)
            }
        };
        tally.add(index, given, listed, difference);
    }
    tally
}

/// Every call of the archive on a sheet by its number and bytes: the first that answers otherwise.
pub type Calls<'a> = &'a mut dyn FnMut(u64, &[u8]) -> Option<String>;

/// The program's output: the list, the oracle against the reading on each sheet, and the archive's calls
/// if it is linked in. True if there was no difference and the sheets are as many as the document says.
pub fn agrees(input: &[u8], mut calls: Option<Calls>) -> bool {
    let (tried, mut seen) = (calls.is_some(), Seen::new());
    let tally = compared(input, &list(None), &mut |index, table, sheet| {
        let mut called = || calls.as_mut().and_then(|calls| calls(index, sheet));
        let difference = compare::difference(table, sheet, &mut seen).map(String::from);
        difference.or_else(|| called().map(|call| format!("the archive: {call}")))
    });
    tally.report(input.len());
    println!("the archive's calls {} tried", if tried { "were" } else { "weren't" });
    tally.passes()
}

/// The list itself in place of the program's output, then with each planted mistake. True if it passes and
/// each mistake shows.
pub fn all_found() -> bool {
    let right = list(None);
    let shown = |output: &[u8]| compared(output, &right, &mut |_, _, _| None);
    let passes = shown(&right.concat()).passes();
    if !passes {
        println!("the list of small sheets doesn't pass itself");
    }
    let mut found = 0;
    for slip in ListSlip::ALL {
        let first = shown(&mistaken(*slip)).first.map(|first| first.index);
        found += usize::from(first.is_some());
        println!("{:>8} {}", first.map_or("-".to_string(), |index| index.to_string()), slip.words());
    }
    let all = ListSlip::ALL.len();
    println!("{found} of {all} planted mistakes in the small sheets found; first sheet that shows each, from 0");
    passes && found == all
}
