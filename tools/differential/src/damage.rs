//! Damaged sheets: each kind of field at its limits, and blind damage.

use crate::generate;
use crate::random::Random;
use crate::sheet::{Cell, Encoded, Field, LONGEST_SHEET, Row, SIGN, Table, encode};

/// C2 and B0, which only cell text may hold, and only as a pair.
const FIRST: u8 = SIGN[0];
const SECOND: u8 = SIGN[1];

/// Damaged sheet number `index`. Some are still accepted.
pub fn sheet(seed: u64, index: u64) -> Vec<u8> {
    let mut random = Random::new(!seed, !index);
    if random.one_in(2000) {
        return near_longest(&mut random);
    }
    let mut table = generate::table(!seed, index);
    table.rows.truncate(3);
    if random.one_in(8) {
        overfill(&mut random, &mut table);
    }
    let encoded = encode(&table);
    let mut bytes = encoded.bytes.clone();
    match random.below(26) {
        0..=10 => at_field(&mut random, &encoded, &mut bytes),
        11..=12 => bytes.truncate(random.below(bytes.len())),
        13 => end_in_field(&mut random, &encoded, &mut bytes),
        14 => bytes.extend((0..random.between(1, 3)).map(|_| random.pick(&[0, 1, b'a', 255]))),
        15..=16 => blind(&mut random, &mut bytes),
        17 => insert_or_remove(&mut random, &mut bytes),
        18..=22 => at_pair(&mut random, &encoded, &mut bytes),
        23 => sign_elsewhere(&mut random, &encoded, &mut bytes),
        _ => {
            at_field(&mut random, &encoded, &mut bytes);
            end_in_field(&mut random, &encoded, &mut bytes);
        }
    }
    if random.one_in(10) {
        blind(&mut random, &mut bytes);
    }
    bytes
}

/// A field of a kind chosen evenly, so that rare kinds aren't drowned by characters.
fn choose(random: &mut Random, encoded: &Encoded) -> (usize, Field) {
    let mut kinds: Vec<Field> = Vec::new();
    for (_, kind) in &encoded.fields {
        if !kinds.contains(kind) {
            kinds.push(*kind);
        }
    }
    let kind = random.pick(&kinds);
    let places: Vec<_> = encoded.fields.iter().copied().filter(|(_, field)| *field == kind).collect();
    random.pick(&places)
}

fn at_field(random: &mut Random, encoded: &Encoded, bytes: &mut [u8]) {
    let (at, field) = choose(random, encoded);
    match field {
        Field::Target | Field::FixedValue => number(bytes, at, random.pick(&[400, 401, 402, 511, 512, 65_535])),
        Field::PercentValue => number(bytes, at, random.pick(&[0, 100, 401, 65_535])),
        Field::UnusedValue => number(bytes, at, random.pick(&[1, 255, 256, 0x0101])),
        _ => bytes[at] = edge(random, field, bytes[at]),
    }
}

fn number(bytes: &mut [u8], at: usize, value: u16) {
    bytes[at..at + 2].copy_from_slice(&value.to_le_bytes());
}

/// A value on either side of the field's limits.
fn edge(random: &mut Random, field: Field, now: u8) -> u8 {
    match field {
        Field::Edition => random.pick(&[0, 2, 255]),
        Field::Code => random.pick(&[2, 3, 4, 6, 7, 255]),
        Field::OptionalCharacter | Field::Character | Field::Letter | Field::Pair => {
            random.pick(&[0, 1, 0x0A, 0x1F, 0x20, 0x7E, 0x7F, 0x80, 255, FIRST, SECOND])
        }
        Field::IndicatorCount => random.pick(&[0, 8, 9, 255]),
        Field::StyleCount => random.pick(&[0, 21, 23, 255]),
        Field::ColumnCount | Field::CellCount => random.pick(&[0, now + 1, now.saturating_sub(1), 12, 13, 255]),
        Field::Padding => random.pick(&[20, 21, 255]),
        Field::Unit | Field::UnusedUnit => random.pick(&[1, 2, 255]),
        Field::HeaderCount => random.pick(&[0, 1, 2, 255]),
        Field::RowCount => random.pick(&[0, now + 1, now.saturating_sub(1), 100, 101, 255]),
        Field::Height => random.pick(&[0, 1, 255]),
        Field::LineCount => random.pick(&[0, now + 1, 8, 9, 255]),
        Field::LineLength => random.pick(&[0, now.saturating_sub(1), now.saturating_add(1), 200, 201, 255]),
        _ => random.next() as u8,
    }
}

/// The first places of all fields of a kind.
fn places(encoded: &Encoded, kind: Field) -> Vec<usize> {
    encoded.fields.iter().filter(|(_, field)| *field == kind).map(|(at, _)| *at).collect()
}

/// A pair split, doubled, turned round, or at the end of its line or of the sheet. Where the sheet has
/// none, half of one is put into a text.
fn at_pair(random: &mut Random, encoded: &Encoded, bytes: &mut Vec<u8>) {
    let pairs = places(encoded, Field::Pair);
    if pairs.is_empty() {
        let letters = places(encoded, Field::Letter);
        if !letters.is_empty() {
            bytes[random.pick(&letters)] = random.pick(&SIGN);
        }
        return;
    }
    let at = random.pick(&pairs);
    let lengths = places(encoded, Field::LineLength);
    let length_at = *lengths.iter().rfind(|place| **place < at).expect("a line has a length");
    let other = random.pick(&[b' ', b'a', 0, 0x7F, 0xAF, 0xB1, 0xC1, 0xC3, 255, FIRST, SECOND]);
    match random.below(10) {
        0 => bytes[at] = other,
        1 => bytes[at + 1] = other,
        2..=3 => remove_half(random, at, length_at, bytes),
        4 => insert_half(random, at, length_at, bytes),
        5 => bytes.swap(at, at + 1),
        // The line ends inside the pair; B0 is then a count, a length or a character of what follows.
        6 => bytes[length_at] = (at - length_at) as u8,
        7 => {
            bytes[length_at] = (at - length_at) as u8;
            bytes.truncate(at + 1);
        }
        8 => bytes.truncate(at + 1),
        _ => {
            bytes[at + 1] = other;
            bytes.truncate(at + 2);
        }
    }
}

/// The line's length follows, or doesn't.
fn remove_half(random: &mut Random, at: usize, length_at: usize, bytes: &mut Vec<u8>) {
    bytes.remove(at + random.below(2));
    if random.percent(70) {
        bytes[length_at] -= 1;
    }
}

/// `C2 C2 B0`, `C2 B0 B0`, or something between the two.
fn insert_half(random: &mut Random, at: usize, length_at: usize, bytes: &mut Vec<u8>) {
    let (place, byte) = random.pick(&[(at, FIRST), (at + 2, SECOND), (at + 1, b'a')]);
    bytes.insert(place, byte);
    if random.percent(70) {
        bytes[length_at] = bytes[length_at].saturating_add(1);
    }
}

/// In an indicator, a delimiter or a style, where each byte is a field of its own.
fn sign_elsewhere(random: &mut Random, encoded: &Encoded, bytes: &mut [u8]) {
    let indicator = places(encoded, Field::Character);
    let among = if indicator.is_empty() || random.one_in(2) { Field::OptionalCharacter } else { Field::Character };
    let at = random.pick(&places(encoded, among));
    match random.below(4) {
        0 => bytes[at] = FIRST,
        1 => bytes[at] = SECOND,
        _ => bytes[at..at + 2].copy_from_slice(&SIGN),
    }
}

/// The sheet ends at a field's first byte or within it.
fn end_in_field(random: &mut Random, encoded: &Encoded, bytes: &mut Vec<u8>) {
    let (at, _) = choose(random, encoded);
    bytes.truncate(at + random.below(3));
}

fn blind(random: &mut Random, bytes: &mut [u8]) {
    for _ in 0..random.between(1, 3) {
        if !bytes.is_empty() {
            let at = random.below(bytes.len());
            bytes[at] = if random.one_in(2) { random.next() as u8 } else { bytes[at] ^ (1 << random.below(8)) };
        }
    }
}

fn insert_or_remove(random: &mut Random, bytes: &mut Vec<u8>) {
    let at = random.below(bytes.len());
    if random.one_in(2) {
        bytes.insert(at, random.pick(&[0, 1, b'a', 255]));
    } else {
        bytes.remove(at);
    }
}

/// One list at its limit or one beyond it, the rest whole.
fn overfill(random: &mut Random, table: &mut Table) {
    let (over, signs) = (random.below(2), random.one_in(2));
    let cell =
        |lines: usize, length: usize| Cell { delimiter: 0, alignment: 0, lines: vec![text(length, signs); lines] };
    match random.below(7) {
        0 => table.indicator = vec![b'.'; 8 + over],
        1 => table.columns.resize(12 + over, Default::default()),
        2 => table.rows = vec![Row::default(); 100 + over],
        3 => table.header = Some(Row { height: 0, cells: vec![cell(1, 1); table.columns.len() + over] }),
        4 => table.rows.push(Row { height: 1, cells: vec![cell(1, 0); table.columns.len() + over] }),
        5 => table.rows.push(Row { height: 1, cells: vec![cell(8 + over, 1); table.columns.len().min(1)] }),
        _ => table.rows.push(Row { height: 1, cells: vec![cell(1, 200 + over); table.columns.len().min(1)] }),
    }
}

/// As many bytes, of signs if asked; one is left over where they don't come out even.
fn text(length: usize, signs: bool) -> Vec<u8> {
    let mut text = if signs { SIGN.repeat(length / 2) } else { Vec::new() };
    text.resize(length, b'a');
    text
}

/// A sheet of 32,767 to 32,769 bytes, whole but for its length.
fn near_longest(random: &mut Random) -> Vec<u8> {
    let signs = random.one_in(2);
    let cell = |length: usize| Cell { delimiter: 0, alignment: 0, lines: vec![text(length, signs)] };
    let mut table = generate::table(0, 0);
    table.columns = vec![Default::default(); 2];
    table.header = None;
    table.rows.clear();
    let mut missing = LONGEST_SHEET + random.below(3) - 1 - encode(&table).bytes.len();
    // A row spends 2 bytes beside its cells, a cell of one line 4 beside its text.
    while missing > 600 {
        table.rows.push(Row { height: 1, cells: vec![cell(180), cell(180)] });
        missing -= 370;
    }
    while missing > 200 {
        table.rows.push(Row { height: 1, cells: vec![cell(94)] });
        missing -= 100;
    }
    table.rows.push(Row { height: 1, cells: vec![cell(missing - 6)] });
    encode(&table).bytes
}
