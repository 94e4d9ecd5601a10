//! Document 01's trial desk sheet, its page, its other examples, and those of document 02's orders 1, 4 and 5.

use crate::compare::{Expected, agrees};
use crate::oracle;
use crate::second;
use crate::sheet::{Cell, Column, Refusal, Row, SIGN, STYLE_BYTES, Table, Width, decode, encode};
use crate::writer;

const PAGE: &[u8] = b"\
+----+-------------+
| ab | the quick   |
|    | brown       |
+----+-------------+
";

/// The 81 bytes, spelled as in the document.
pub fn trial_desk() -> Vec<u8> {
    let mut sheet = vec![0x01, 0x01, 0x14, 0x00, 0x00, 0x00, 0x16];
    sheet.extend(b"+-++|||+=++|||+-+++-++");
    sheet.push(2);
    for _ in 0..2 {
        sheet.extend([1, 1, 0, 0, 0, 0, 0, 0, 0, 0, 0]);
    }
    sheet.extend([0x00, 0x01, 0x00, 0x02, 0x00, 0x00, 0x01, 0x02, 0x61, 0x62, 0x00, 0x00, 0x01, 0x0F]);
    sheet.extend(b"the quick brown");
    sheet
}

fn desk() -> Table {
    decode(&trial_desk()).expect("the document's sheet is accepted")
}

fn bare(columns: Vec<Column>, rows: Vec<Row>) -> Table {
    Table {
        arrangement: 0,
        target: 0,
        delimiter: 0,
        indicator: b"...".to_vec(),
        style: [0; STYLE_BYTES],
        columns,
        header: None,
        rows,
    }
}

fn column(padding: u8, constraint: u8, unit: u8, value: u16) -> Column {
    let widths = [Width { unit, value }, Width::default()];
    Column { left: padding, right: padding, delimiter: 0, alignment: 0, constraint, widths }
}

fn row(height: u8, lines: &[&str]) -> Row {
    let lines = lines.iter().map(|line| line.as_bytes().to_vec()).collect();
    Row { height, cells: vec![Cell { delimiter: 0, alignment: 0, lines }] }
}

/// One text in one column of an absolute content width, without a style.
fn narrow(width: u16, height: u8, lines: &[&str]) -> Table {
    bare(vec![column(0, 3, 0, width)], vec![row(height, lines)])
}

fn prints(table: &Table, lines: &[&str]) -> bool {
    let answer = oracle::answer(table);
    let page: Vec<u8> = lines.iter().flat_map(|line| line.bytes().chain([b'\n'])).collect();
    answer.page == page && answer.lines == lines.len() && agrees(table, &answer)
}

fn has_widths(table: &Table, widths: &[u16]) -> bool {
    let answer = oracle::answer(table);
    let given: Vec<u16> = answer.widths.iter().map(|(width, _)| *width).collect();
    given == widths && agrees(table, &answer)
}

fn refused(sheet: &[u8], number: u8, place: usize) -> bool {
    let refusal = Refusal { number, place };
    decode(sheet) == Err(refusal) && second::refusal(sheet) == Some(refusal)
}

fn wrapping() -> Vec<(&'static str, bool)> {
    vec![
        ("trial desk", oracle::answer(&desk()).page == PAGE && agrees(&desk(), &oracle::answer(&desk()))),
        ("the quick brown at 6", prints(&narrow(6, 0, &["the quick brown"]), &["the   ", "quick ", "brown "])),
        ("a abcdefgh at 6", prints(&narrow(6, 0, &["a abcdefgh"]), &["a abcd", "efgh  "])),
        ("abc d e at 4", prints(&narrow(4, 0, &["abc d e"]), &["abc ", "d e "])),
        ("five spaces at 3", prints(&narrow(3, 0, &["     "]), &[])),
        ("cut hello", prints(&narrow(5, 1, &["hello", "x"]), &["he..."])),
        ("cut he", prints(&narrow(5, 1, &["he", "x"]), &["he..."])),
        ("cut at width 2", prints(&narrow(2, 1, &["he", "x"]), &["he"])),
        ("no style, header or rows", prints(&bare(vec![], vec![]), &[])),
    ]
}

fn aimed(arrangement: u8, target: u16, columns: Vec<Column>, lines: &[&str]) -> Table {
    let cells = lines.iter().map(|line| row(0, &[line]).cells.remove(0)).collect();
    let mut table = bare(columns, vec![Row { height: 0, cells }]);
    (table.arrangement, table.target) = (arrangement, target);
    table
}

fn widths() -> Vec<(&'static str, bool)> {
    let plain = || column(0, 0, 0, 0);
    let long = "abcdefghijklmnopqrst";
    let percent = |value: u16| {
        let mut table = aimed(1, 21, vec![column(0, 3, 1, value), plain()], &["a", "b"]);
        table.style = *b"+-++|||+=++|||+-+++-++";
        table
    };
    let upper = |line: &str| aimed(0, 0, vec![column(1, 5, 0, 5)], &[line]);
    vec![
        ("11 shared by 3", has_widths(&aimed(1, 11, vec![plain(), plain(), plain()], &[long; 3]), &[4, 4, 3])),
        ("average 11, part 9", has_widths(&aimed(1, 11, vec![plain()], &["abcdefghi abcdefghi"]), &[11])),
        ("average 11, part 8", has_widths(&aimed(1, 11, vec![plain()], &["abcdefgh abcdefgh"]), &[8])),
        ("`Disabled` upper 5, longest 5", has_widths(&upper("abcde"), &[5])),
        ("`Disabled` upper 5, longest 6", has_widths(&upper("abcdef"), &[3])),
        ("`Absolute` 3, padding 2+2", has_widths(&aimed(0, 0, vec![column(2, 3, 0, 3)], &["a"]), &[1])),
        ("50 percent", has_widths(&percent(50), &[9, 1])),
        ("150 percent", has_widths(&percent(150), &[18, 1])),
    ]
}

/// The columns' step numbers, those that are widened, and the difference.
fn reports(table: &Table, steps: &[u8], widened: &[usize], difference: Option<i32>) -> bool {
    let answer = oracle::answer(table);
    let expected = Expected::new(table, &answer);
    let Some(report) = expected.report() else { return false };
    let given = report.columns.iter().map(|reason| reason.step.map_or(0, |step| step.number()));
    let wide = report.columns.iter().enumerate().filter(|(_, reason)| reason.widened).map(|(at, _)| at);
    let same = given.eq(steps.iter().copied()) && wide.eq(widened.iter().copied());
    same && report.difference == difference && expected.agrees(None).0
}

/// The trial desk's sheet arranged otherwise.
fn desk_reasons() -> Vec<(&'static str, bool)> {
    let desk = |arrangement: u8, target: u16| Table { arrangement, target, ..desk() };
    vec![
        ("reasons: trial desk", reports(&desk(1, 20), &[4, 6], &[], Some(0))),
        ("reasons: trial desk, `Disabled`", reports(&desk(0, 20), &[7, 7], &[], Some(-4))),
        ("reasons: trial desk, no target", reports(&desk(1, 0), &[7, 7], &[], None)),
        ("reasons: trial desk at 30", reports(&desk(1, 30), &[4, 4], &[], Some(6))),
        ("reasons: trial desk, full width at 20", reports(&desk(2, 20), &[4, 6], &[], Some(0))),
        ("reasons: trial desk, full width at 24", reports(&desk(2, 24), &[4, 4], &[], Some(0))),
        ("reasons: trial desk, full width at 25", reports(&desk(2, 25), &[4, 4], &[0], Some(0))),
        ("reasons: trial desk, full width at 26", reports(&desk(2, 26), &[4, 4], &[0, 1], Some(0))),
    ]
}

fn reasons() -> Vec<(&'static str, bool)> {
    let one = |arrangement: u8, target: u16, padding: u8, constraint: u8, bound: u16, line: &str| {
        aimed(arrangement, target, vec![column(padding, constraint, 0, bound)], &[line])
    };
    let percent = |target: u16| aimed(1, target, vec![column(0, 3, 1, 50)], &["abcd"]);
    let no_cells = |arrangement: u8| Table { arrangement, target: 10, ..bare(vec![Column::default()], vec![]) };
    let hidden = |target: u16| aimed(2, target, vec![column(0, 1, 0, 0), Column::default()], &["abcdef", "ab"]);
    let mut top = aimed(1, 10, vec![Column::default(); 2], &["ab", "cd"]);
    top.style[1] = b'-';
    vec![
        ("reasons: lower bound at the longest", reports(&one(1, 10, 0, 4, 4, "abcd"), &[1], &[], Some(6))),
        ("reasons: lower bound above the average", reports(&one(1, 3, 0, 4, 4, "abcde"), &[2], &[], Some(-1))),
        ("reasons: upper bound at the longest", reports(&one(1, 10, 0, 5, 4, "abcd"), &[3], &[], Some(6))),
        ("reasons: upper bound above the longest", reports(&one(1, 10, 0, 5, 5, "abcd"), &[4], &[], Some(6))),
        ("reasons: `Disabled` upper 5, longest 5", reports(&one(0, 10, 1, 5, 5, "abcde"), &[7], &[], Some(3))),
        ("reasons: `Disabled` upper 5, longest 6", reports(&one(0, 10, 1, 5, 5, "abcdef"), &[8], &[], Some(5))),
        ("reasons: `Disabled` absolute", reports(&one(0, 3, 0, 3, 4, "abcde"), &[1], &[], Some(-1))),
        ("reasons: percent, no target", reports(&percent(0), &[7], &[], None)),
        ("reasons: percent", reports(&percent(10), &[1], &[], Some(5))),
        ("reasons: no cells", reports(&no_cells(1), &[4], &[], Some(10))),
        ("reasons: no cells, full width", reports(&no_cells(2), &[4], &[0], Some(10))),
        ("reasons: hidden column, full width", reports(&hidden(3), &[0, 4], &[1], Some(0))),
        ("reasons: hidden column, nothing left", reports(&hidden(2), &[0, 4], &[], Some(0))),
        ("reasons: no columns", reports(&Table { target: 7, ..bare(vec![], vec![]) }, &[], &[], Some(7))),
        ("reasons: top border the longest", reports(&top, &[4, 4], &[], Some(5))),
        ("reasons: setpoint", reports(&one(1, 6, 0, 0, 0, SETPOINT), &[4], &[], Some(0))),
    ]
}

/// Average 10: 12 is above it. Then 9: 7 is within it. Then 10: the longest part is 6. 15 are left.
fn several_reasons() -> Vec<(&'static str, bool)> {
    let (lower, upper) = (column(0, 4, 0, 12), column(0, 5, 0, 7));
    let plain = || column(0, 0, 0, 0);
    let (long, words) = ("abcdefghijklmnopqrst", "abcdef abcdef");
    let four = [lower.clone(), upper.clone(), plain(), plain()];
    let six = [column(0, 2, 0, 0), lower, upper, plain(), plain(), plain()];
    let lines = [long, "abcdefghij", words, long];
    let more = ["ab", long, "abcdefghij", "ab", words, long];
    vec![
        ("reasons: four steps", reports(&aimed(1, 40, four.to_vec(), &lines), &[2, 3, 5, 6], &[], Some(0))),
        ("widths of four steps", has_widths(&aimed(1, 40, four.to_vec(), &lines), &[12, 7, 6, 15])),
        ("reasons: six steps", reports(&aimed(1, 44, six.to_vec(), &more), &[1, 2, 3, 4, 5, 6], &[], Some(0))),
        ("widths of six steps", has_widths(&aimed(1, 44, six.to_vec(), &more), &[2, 12, 7, 2, 6, 15])),
    ]
}

fn limits() -> Vec<(&'static str, bool)> {
    let twelve = encode(&bare(vec![Column::default(); 12], vec![])).bytes;
    let thirteen = encode(&bare(vec![Column::default(); 13], vec![])).bytes;
    let target = |target: u16| encode(&Table { target, ..bare(vec![], vec![]) }).bytes;
    let desk = trial_desk();
    let longer = [&desk[..], &[0]].concat();
    vec![
        ("12 columns", decode(&twelve).is_ok()),
        ("13 columns", refused(&thirteen, 5, 32)),
        ("target 400", decode(&target(400)).is_ok()),
        ("target 401", refused(&target(401), 5, 2)),
        ("empty sheet", refused(&[], 1, 0)),
        ("sheet cut short", (0..desk.len()).all(|end| refused(&desk[..end], 1, end))),
        ("sheet of 32,769 bytes", refused(&[0; 32_769], 2, 32_768)),
        ("edition 0", refused(&[0; 32_768], 3, 0)),
        ("byte after the last row", refused(&longer, 9, 81)),
        ("81 bytes", desk.len() == 81 && encode(&decode(&desk).expect("accepted")).bytes == desk),
    ]
}

/// `21.5` with a sign and `C`, of width 6.
const SETPOINT: &str = "21.5\u{B0}C";

fn signs() -> Vec<(&'static str, bool)> {
    let aligned = |alignment: u8, width: u16| {
        let mut table = narrow(width, 0, &[SETPOINT]);
        table.rows[0].cells[0].alignment = alignment;
        table
    };
    let cut =
        |width: u16, indicator: &[u8]| Table { indicator: indicator.to_vec(), ..narrow(width, 1, &[SETPOINT, "x"]) };
    let alone = |text: &str| aimed(0, 0, vec![column(0, 0, 0, 0)], &[text]);
    vec![
        ("width of a setpoint", has_widths(&alone(SETPOINT), &[6])),
        ("width of 100 signs", has_widths(&alone(&"\u{B0}".repeat(100)), &[100])),
        ("setpoint at 6", prints(&narrow(6, 0, &[SETPOINT]), &[SETPOINT])),
        ("setpoint at 5", prints(&narrow(5, 0, &[SETPOINT]), &["21.5\u{B0}", "C    "])),
        ("setpoint at 4", prints(&narrow(4, 0, &[SETPOINT]), &["21.5", "\u{B0}C  "])),
        ("setpoint at 3", prints(&narrow(3, 0, &[SETPOINT]), &["21.", "5\u{B0}C"])),
        ("setpoint at 2", prints(&narrow(2, 0, &[SETPOINT]), &["21", ".5", "\u{B0}C"])),
        ("setpoint at 1", prints(&narrow(1, 0, &[SETPOINT]), &["2", "1", ".", "5", "\u{B0}", "C"])),
        ("setpoint cut at 6", prints(&cut(6, b"."), &["21.5\u{B0}."])),
        ("setpoint cut at 5", prints(&cut(5, b"."), &["21.5."])),
        ("setpoint cut at 4", prints(&cut(4, b"."), &["21.."])),
        ("setpoint cut at 1", prints(&cut(1, b"."), &["."])),
        ("setpoint cut, no indicator", prints(&cut(5, b"......"), &["21.5\u{B0}"])),
        ("setpoint on the right", prints(&aligned(2, 8), &["  21.5\u{B0}C"])),
        ("setpoint centred", prints(&aligned(3, 9), &["  21.5\u{B0}C "])),
    ]
}

/// A sheet that ends with a cell's one line, its length byte and bytes as given; and the place of the
/// first of these bytes.
fn line(length: u8, bytes: &[u8]) -> (Vec<u8>, usize) {
    let mut sheet = encode(&bare(vec![Column::default()], vec![row(0, &[""])])).bytes;
    *sheet.last_mut().expect("the line's length") = length;
    let place = sheet.len();
    sheet.extend(bytes);
    (sheet, place)
}

fn pairs() -> Vec<(&'static str, bool)> {
    let gets = |length: u8, bytes: &[u8], number: u8, after: usize| {
        let (sheet, place) = line(length, bytes);
        refused(&sheet, number, place + after)
    };
    let passes = |length: u8, bytes: &[u8]| {
        let sheet = line(length, bytes).0;
        decode(&sheet).is_ok() && second::refusal(&sheet).is_none()
    };
    let desk_with = |at: usize, byte: u8| {
        let mut desk = trial_desk();
        desk[at] = byte;
        desk
    };
    let indicator = encode(&Table { indicator: SIGN.to_vec(), ..desk() }).bytes;
    vec![
        ("a pair", passes(2, &[0xC2, 0xB0])),
        ("100 pairs", passes(200, &SIGN.repeat(100))),
        ("length 3, 61 C2, end", gets(3, &[0x61, 0xC2], 1, 2)),
        ("length 2, 61 C2", gets(2, &[0x61, 0xC2], 6, 1)),
        ("length 2, C2, end", gets(2, &[0xC2], 1, 1)),
        ("length 1, C2, end", gets(1, &[0xC2], 6, 0)),
        ("length 1, C2, then B0", gets(1, &[0xC2, 0xB0], 6, 0)),
        ("C2 20", gets(2, &[0xC2, 0x20], 6, 0)),
        ("C2 C2 B0", gets(3, &[0xC2, 0xC2, 0xB0], 6, 0)),
        ("C2 B0 B0", gets(3, &[0xC2, 0xB0, 0xB0], 6, 2)),
        ("B0 alone", gets(2, &[0x61, 0xB0], 6, 1)),
        ("a pair in the indicator", refused(&indicator, 6, 6)),
        ("C2 in the style", refused(&desk_with(9, 0xC2), 6, 9)),
        ("B0 in the style", refused(&desk_with(9, 0xB0), 6, 9)),
        ("C2 as delimiter", refused(&desk_with(4, 0xC2), 6, 4)),
        ("B0 as delimiter", refused(&desk_with(4, 0xB0), 6, 4)),
    ]
}

/// True if every example comes out.
pub fn all_pass() -> bool {
    let reasons = [desk_reasons(), reasons(), several_reasons()].concat();
    let examples = [wrapping(), widths(), reasons, limits(), signs(), pairs(), writer::examples::all()].concat();
    for (words, _) in examples.iter().filter(|(_, passed)| !passed) {
        println!("example fails: {words}");
    }
    let passed = examples.iter().filter(|(_, passed)| *passed).count();
    println!("{passed} of {} examples of the documents pass", examples.len());
    passed == examples.len()
}
