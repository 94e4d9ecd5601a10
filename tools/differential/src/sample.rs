//! The stored sample: a few sheets, chosen so that every rule decides something in several of them.

use std::collections::{BinaryHeap, HashMap};

use crate::compare::Expected;
use crate::marks::{RefusalSlip, Rule, Slip};
use crate::record::{Record, answered};
use crate::second;
use crate::sheet::{SIGN, Table, decode, encode};
use crate::{damage, examples, generate};

const CANDIDATES: u64 = 20_000;
const DAMAGED_CANDIDATES: u64 = 60_000;
const MOST_ACCEPTED: usize = 330;
const MOST_DAMAGED: usize = 300;
/// Few large records; a sheet beyond the format's limit is left to `compare --damaged`.
const LARGEST: usize = 6_000;
const LARGEST_DAMAGED: usize = 450;

const RULES: u32 = Rule::ALL.len() as u32;
const SLIPS_FROM: u32 = RULES;
const LIMITS_FROM: u32 = SLIPS_FROM + Slip::ALL.len() as u32;
const PAIRS_FROM: u32 = LIMITS_FROM + 32;

struct Candidate {
    record: Record,
    features: Vec<u32>,
    size: usize,
}

/// The trial desk's sheet, chosen accepted sheets, chosen damaged ones.
pub fn choose(seed: u64) -> Vec<Record> {
    let mut records = vec![answered(examples::trial_desk())];
    records.extend(choose_accepted(seed));
    records.extend(choose_damaged(seed));
    records
}

fn record_size(record: &Record) -> usize {
    record.sheet.len() + record.answer.as_ref().map_or(5, |answer| answer.page.len() + 14 + 3 * answer.widths.len())
}

fn candidate(sheet: Vec<u8>) -> Option<Candidate> {
    let table = decode(&sheet).ok()?;
    let record = answered(sheet);
    let size = record_size(&record);
    if size > LARGEST {
        return None;
    }
    let features = features(&table, &record);
    Some(Candidate { record, features, size })
}

/// Rules and pairs of rules that the sheet shows, mistakes that it catches, limits that it touches.
fn features(table: &Table, record: &Record) -> Vec<u32> {
    let answer = record.answer.as_ref().expect("an accepted sheet");
    let expected = Expected::new(table, answer);
    let fired: Vec<u32> = expected.agrees(None).1.iter().map(|rule| rule as u32).collect();
    let mut features = fired.clone();
    for (position, first) in fired.iter().enumerate() {
        features.extend(fired[position + 1..].iter().map(|second| PAIRS_FROM + first * RULES + second));
    }
    let caught = Slip::ALL.iter().filter(|slip| !expected.agrees(Some(**slip)).0);
    features.extend(caught.map(|slip| SLIPS_FROM + *slip as u32));
    let touched = limits(table).into_iter().enumerate().filter(|(_, touched)| *touched);
    features.extend(touched.map(|(limit, _)| LIMITS_FROM + limit as u32));
    features
}

fn limits(table: &Table) -> Vec<bool> {
    let rows = || table.header.iter().chain(&table.rows);
    let cells = || rows().flat_map(|row| &row.cells);
    let widths = || table.columns.iter().flat_map(|column| column.widths);
    vec![
        table.target == 400,
        table.target == 1,
        table.indicator.len() == 8,
        table.columns.len() == 12,
        table.columns.is_empty(),
        table.columns.iter().any(|column| column.left == 20),
        table.columns.iter().any(|column| column.right == 20),
        widths().any(|width| width.unit == 0 && width.value == 400),
        widths().any(|width| width.unit == 1 && width.value == 65_535),
        table.rows.len() == 100,
        rows().any(|row| row.height == 255),
        rows().any(|row| row.cells.len() == 12),
        cells().any(|cell| cell.lines.len() == 8),
        cells().any(|cell| cell.lines.iter().any(|line| line.len() == 200)),
        cells().any(|cell| cell.lines.contains(&SIGN.repeat(100))),
        table.columns.len() >= 8 && table.target > 0 && table.arrangement > 0,
        table.header.is_some() && table.rows.is_empty(),
    ]
}

/// How often a feature is wanted, and its weight.
fn wanted(feature: u32) -> (u32, usize) {
    match feature {
        _ if feature < SLIPS_FROM => (8, 30),
        _ if feature < LIMITS_FROM => (6, 30),
        _ if feature < PAIRS_FROM => (3, 30),
        _ => (1, 1),
    }
}

fn gain(candidate: &Candidate, seen: &HashMap<u32, u32>) -> usize {
    let gain = |feature: &u32| {
        let (count, weight) = wanted(*feature);
        if seen.get(feature).is_some_and(|seen| *seen >= count) { 0 } else { weight }
    };
    candidate.features.iter().map(gain).sum()
}

/// What a record adds for its size; the constant keeps tiny sheets from winning by size alone.
fn worth(candidate: &Candidate, seen: &HashMap<u32, u32>) -> usize {
    1_000_000 * gain(candidate, seen) / (candidate.size + 250)
}

fn choose_accepted(seed: u64) -> Vec<Record> {
    let plain = (0..CANDIDATES).map(|index| encode(&generate::table(seed, index)).bytes);
    let limit = (0..CANDIDATES / 2).map(|index| damage::sheet(seed, index));
    let candidates: Vec<Candidate> = plain.chain(limit).filter_map(candidate).collect();
    let mut seen: HashMap<u32, u32> = HashMap::new();
    let mut heap: BinaryHeap<(usize, usize)> =
        candidates.iter().enumerate().map(|(at, each)| (worth(each, &seen), at)).collect();
    let mut chosen = Vec::new();
    // Worth only falls as features are seen, so an old value that still leads is the best.
    while let Some((_, at)) = heap.pop() {
        let now = worth(&candidates[at], &seen);
        if now == 0 {
            continue;
        }
        if chosen.len() == MOST_ACCEPTED {
            break;
        }
        if heap.peek().is_some_and(|(next, _)| *next > now) {
            heap.push((now, at));
            continue;
        }
        for feature in &candidates[at].features {
            *seen.entry(*feature).or_default() += 1;
        }
        chosen.push(candidates[at].record.clone());
    }
    chosen
}

fn caught(sheet: &[u8]) -> impl Iterator<Item = RefusalSlip> {
    let refusal = second::refusal(sheet);
    RefusalSlip::ALL.iter().copied().filter(move |slip| second::refusal_with(sheet, Some(*slip)) != refusal)
}

/// Some sheets for each number at each kind of field: three at least, then those with another byte
/// there. 6 to 9 know few kinds of field, so their places count as kinds too. And some that catch each
/// planted mistake.
fn choose_damaged(seed: u64) -> Vec<Record> {
    let mut seen: HashMap<String, usize> = HashMap::new();
    let mut caught_by = vec![0; RefusalSlip::ALL.len()];
    let mut chosen = Vec::new();
    for index in 0..DAMAGED_CANDIDATES {
        let sheet = damage::sheet(seed, index);
        let Some((refusal, part)) = second::refusal_at(&sheet, None) else { continue };
        if sheet.len() > LARGEST_DAMAGED || chosen.len() == MOST_DAMAGED {
            continue;
        }
        let kind = format!("{} {part:?}", refusal.number);
        let (most, place) = if refusal.number >= 6 { (12, refusal.place) } else { (6, 0) };
        let exact = format!("{kind} {:?} {place}", sheet.get(refusal.place));
        let taken = *seen.get(&kind).unwrap_or(&0);
        let few = taken < 3;
        let fresh = taken < most && !seen.contains_key(&exact);
        let catches = caught(&sheet).any(|slip| caught_by[slip as usize] < 6);
        if few || fresh || catches {
            caught(&sheet).for_each(|slip| caught_by[slip as usize] += 1);
            *seen.entry(kind).or_default() += 1;
            *seen.entry(exact).or_default() += 1;
            chosen.push(answered(sheet));
        }
    }
    chosen
}

/// Counts of a sample, in words.
pub fn summary(records: &[Record]) -> String {
    let mut numbers = [0; 10];
    let mut rules = vec![0; Rule::ALL.len()];
    let mut caught_by = vec![0; Slip::ALL.len()];
    let mut refusals_caught_by = vec![0; RefusalSlip::ALL.len()];
    let (mut signed, mut halves) = (0, 0);
    for record in records {
        numbers[record.answer.as_ref().err().map_or(0, |refusal| usize::from(refusal.number))] += 1;
        let (Ok(table), Ok(answer)) = (decode(&record.sheet), &record.answer) else {
            halves += usize::from(record.sheet.iter().any(|byte| SIGN.contains(byte)));
            caught(&record.sheet).for_each(|slip| refusals_caught_by[slip as usize] += 1);
            continue;
        };
        signed += usize::from(table.has_signs());
        let expected = Expected::new(&table, answer);
        for rule in expected.agrees(None).1.iter() {
            rules[rule as usize] += 1;
        }
        for slip in Slip::ALL.iter().filter(|slip| !expected.agrees(Some(**slip)).0) {
            caught_by[*slip as usize] += 1;
        }
    }
    let least = |counts: &[usize]| counts.iter().min().copied().unwrap_or(0);
    let unseen: Vec<_> = Rule::ALL.iter().filter(|rule| rules[**rule as usize] == 0).map(|rule| rule.words()).collect();
    format!(
        "{} records: {} accepted, refused with 1 to 9: {:?}\nrules seen {} of {}, each at least {} times; not seen: {unseen:?}\n\
         each planted mistake caught by at least {} records, those of the refusals by at least {}\n\
         {signed} accepted sheets with degree signs, {halves} refused ones with C2 or B0 in them",
        records.len(),
        numbers[0],
        &numbers[1..],
        rules.len() - unseen.len(),
        rules.len(),
        rules.iter().filter(|count| **count > 0).min().unwrap_or(&0),
        least(&caught_by),
        least(&refusals_caught_by),
    )
}
