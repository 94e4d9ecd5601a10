//! The archive's calls and comfy-table's `build_table` on the same sheets, in one process.

#[allow(dead_code)]
#[path = "../tools/differential/src/archive.rs"]
mod archive;
#[allow(dead_code)]
#[path = "../tools/differential/src/oracle.rs"]
mod oracle;
#[allow(dead_code)]
#[path = "../tools/differential/src/random.rs"]
mod random;
#[allow(dead_code)]
#[path = "../tools/differential/src/sheet.rs"]
mod sheet;
mod sheets;
#[path = "../tools/differential/src/slices.rs"]
mod slices;

use std::hint::black_box;

use archive::Calls;
use sheets::{Kind, Named};
use slices::{Slices, take_apart};

/// Nanoseconds that a batch of calls takes at least.
const BATCH: u64 = 4_000_000;
const BATCHES: usize = 15;

#[repr(C)]
struct Timespec {
    seconds: i64,
    nanoseconds: i64,
}

unsafe extern "C" {
    fn clock_gettime(clock: i32, time: *mut Timespec) -> i32;
}

/// Nanoseconds that this thread was run for: waiting for a processor that others use doesn't count.
fn now() -> u64 {
    const THREAD_CPUTIME: i32 = 3;
    let mut time = Timespec { seconds: 0, nanoseconds: 0 };
    // Safety: the struct is C's on 64-bit Linux, and the pointer is to a live one.
    let status = unsafe { clock_gettime(THREAD_CPUTIME, &mut time) };
    assert!(status == 0, "no clock for the thread's time");
    time.seconds as u64 * 1_000_000_000 + time.nanoseconds as u64
}

/// Nanoseconds of one call: the best of several batches, whose size is found first.
fn time<A>(mut call: impl FnMut() -> A) -> f64 {
    let mut batch = |calls: u32| {
        let start = now();
        for _ in 0..calls {
            black_box(call());
        }
        now() - start
    };
    let mut calls = 1;
    while batch(calls) < BATCH {
        calls *= 2;
    }
    let best = (0..BATCHES).map(|_| batch(calls)).min().unwrap_or_default();
    best as f64 / f64::from(calls)
}

/// What the Rust does for a page: decode the sheet, set the table up, make its lines. They aren't
/// copied together.
fn rust(sheet: &[u8]) -> usize {
    let table = sheet::decode(sheet).expect("the sheet is accepted");
    oracle::build(&table).lines().map(|line| line.len() + 1).sum()
}

/// An archive from before the writer has no such call: its rows leave it out.
#[cfg(writer)]
fn time_write(slices: &Slices, sheet: &[u8]) -> Option<f64> {
    let mut buffer = vec![0; sheet.len()];
    let mut write = || archive::write_sheet(black_box(&slices.numbers), black_box(&slices.text), &mut buffer);
    assert!(write().number == 0, "the table is in order");
    let time = time(write);
    assert!(buffer == sheet, "another sheet than the one taken apart");
    Some(time)
}

#[cfg(not(writer))]
fn time_write(_: &Slices, _: &[u8]) -> Option<f64> {
    None
}

/// An archive from before reports has no such call either.
#[cfg(reasons)]
fn time_reasons(sheet: &[u8]) -> Option<f64> {
    assert!(Calls { sheet }.reasons().number == 0, "the sheet is accepted");
    Some(time(|| Calls { sheet: black_box(sheet) }.reasons()))
}

#[cfg(not(reasons))]
fn time_reasons(_: &[u8]) -> Option<f64> {
    None
}

struct Measured {
    name: String,
    sheet: usize,
    page: usize,
    lines: usize,
    check: f64,
    write: Option<f64>,
    widths: f64,
    reasons: Option<f64>,
    count: f64,
    print_page: f64,
    print_line: f64,
    rust: f64,
}

/// Buffers aren't cleared between calls. A page that differs from the Rust's ends the run.
fn measure(named: &Named) -> Measured {
    let calls = Calls { sheet: &named.sheet };
    let answer = oracle::answer(&sheet::decode(&named.sheet).expect("the sheet is accepted"));
    let mut page = vec![0; answer.page.len()];
    assert!(calls.page(&mut page).number == 0 && page == answer.page, "{}: another page than the Rust's", named.name);
    let middle = answer.lines / 2;
    let mut line = vec![0; page.len()];
    Measured {
        name: named.name.clone(),
        sheet: named.sheet.len(),
        page: page.len(),
        lines: answer.lines,
        check: time(|| black_box(&calls).check()),
        write: time_write(&take_apart(&named.sheet), &named.sheet),
        widths: time(|| black_box(&calls).widths()),
        reasons: time_reasons(&named.sheet),
        count: time(|| black_box(&calls).count()),
        print_page: time(|| black_box(&calls).page(&mut page)),
        print_line: time(|| black_box(&calls).line(middle, &mut line)),
        rust: time(|| rust(black_box(&named.sheet))),
    }
}

fn print_head() {
    println!(
        "nanoseconds of processor time, best of {BATCHES} batches of {} ms or more; buffers not cleared",
        BATCH / 1_000_000
    );
    println!(
        "{:18} {:>6} {:>8} {:>6} | {:>9} {:>7} | {:>9} {:>7} | {:>9} | {:>9} | {:>9} | {:>10} {:>7} | {:>9} | {:>11} {:>7} | {:>6}",
        "sheet",
        "bytes",
        "page",
        "lines",
        "check",
        "/byte",
        "write",
        "/byte",
        "widths",
        "reasons",
        "count",
        "print page",
        "/byte",
        "mid line",
        "Rust",
        "/byte",
        "ratio"
    );
}

fn shown(value: Option<f64>, digits: usize) -> String {
    value.map_or("-".to_string(), |value| format!("{value:.digits$}"))
}

/// Check and write go by bytes of the sheet, the others by bytes of the page.
fn print_row(m: &Measured) {
    let per = |time: f64, bytes: usize| time / bytes as f64;
    println!(
        "{:18} {:6} {:8} {:6} | {:9.0} {:7.2} | {:>9} {:>7} | {:9.0} | {:>9} | {:9.0} | {:10.0} {:7.2} | {:9.0} | {:11.0} {:7.2} | {:6.1}",
        m.name,
        m.sheet,
        m.page,
        m.lines,
        m.check,
        per(m.check, m.sheet),
        shown(m.write, 0),
        shown(m.write.map(|write| per(write, m.sheet)), 2),
        m.widths,
        shown(m.reasons, 0),
        m.count,
        m.print_page,
        per(m.print_page, m.page),
        m.print_line,
        m.rust,
        per(m.rust, m.page),
        m.rust / m.print_page
    );
}

/// Time from the smallest to the greatest size over what it is for, sheet and page: 1 is linear.
fn print_growth(rows: &[Measured]) {
    let (Some(first), Some(last)) = (rows.first(), rows.last()) else { return };
    let both = (last.sheet + last.page) as f64 / (first.sheet + first.page) as f64;
    let grown = |time: fn(&Measured) -> f64| time(last) / time(first) / both;
    let reasons = last.reasons.zip(first.reasons).map(|(last, first)| last / first / both);
    let sheets = last.sheet as f64 / first.sheet as f64;
    let write = last.write.zip(first.write).map(|(last, first)| last / first / sheets);
    println!(
        "{:18} growth over that of sheet and page: check {:.2}, widths {:.2}, reasons {}, count {:.2}, print page {:.2}, mid line {:.2}, Rust {:.2}; over that of the sheet: write {}",
        "",
        grown(|m| m.check),
        grown(|m| m.widths),
        shown(reasons, 2),
        grown(|m| m.count),
        grown(|m| m.print_page),
        grown(|m| m.print_line),
        grown(|m| m.rust),
        shown(write, 2)
    );
}

/// The whole page by as many lines as a buffer holds, each call going on where the last one ended.
fn print_in_parts(calls: &Calls, buffer: &mut [u8]) -> u64 {
    let (mut line, mut bytes) = (0, 0);
    loop {
        let part = calls.lines(line as usize, buffer);
        if part.number != 0 {
            return bytes;
        }
        (line, bytes) = (part.next, bytes + part.written);
    }
}

/// Once each: the Rust isn't asked for a page of this size.
fn print_huge() {
    let named = sheets::huge();
    let calls = Calls { sheet: &named.sheet };
    let counted = calls.count();
    let mut page = vec![0; counted.bytes as usize];
    let start = now();
    assert!(calls.page(&mut page).number == 0, "the page has room");
    let whole = (now() - start) as f64 / counted.bytes as f64;
    println!(
        "huge: {} bytes, {} lines, page of {} bytes: {whole:.2} a byte",
        named.sheet.len(),
        counted.lines,
        counted.bytes
    );
    for size in [65_536, 1 << 20] {
        let start = now();
        assert!(print_in_parts(&calls, &mut page[..size]) == counted.bytes, "every line was printed");
        println!("huge by parts of {size} bytes: {:.2} a byte", (now() - start) as f64 / counted.bytes as f64);
    }
}

fn print_grown(kind: Kind) {
    let rows: Vec<Measured> = sheets::SIZES.iter().map(|size| measure(&sheets::grown(kind, *size))).collect();
    rows.iter().for_each(print_row);
    print_growth(&rows);
}

/// Degree signs come last: an archive from before them ends the run here, with the other rows printed.
fn bench() {
    print_head();
    for named in [sheets::small(), sheets::typical()] {
        print_row(&measure(&named));
    }
    for kind in sheets::PLAIN_KINDS {
        print_grown(kind);
    }
    print_huge();
    print_row(&measure(&sheets::typical_signs()));
    print_grown(Kind::LargeSigns);
}

/// Writes the sheets, for programs that measure something else.
fn write(folder: &str) {
    let kinds = sheets::PLAIN_KINDS.into_iter().chain([Kind::LargeSigns]);
    let grown = kinds.map(|kind| sheets::grown(kind, sheets::SIZES[3]));
    let fixed = [sheets::small(), sheets::typical(), sheets::typical_signs(), sheets::huge()];
    for named in fixed.into_iter().chain(grown) {
        let path = format!("{folder}/{}.sheet", named.name.replace(' ', "-"));
        std::fs::write(path, named.sheet).expect("the folder can be written to");
    }
}

fn main() {
    match std::env::args().nth(1) {
        Some(folder) => write(&folder),
        None => bench(),
    }
}
