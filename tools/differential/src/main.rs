//! The differential tool: comfy-table as the oracle, the documents read as a program, aimed sheets.

mod aims;
#[cfg(gateway)]
mod archive;
mod beyond;
mod compare;
mod damage;
mod examples;
mod exhaustive;
#[cfg(gateway)]
mod gateway;
mod generate;
mod marks;
mod oracle;
mod random;
mod reading;
mod reasons;
mod record;
mod sample;
mod second;
mod sheet;
mod signs;
mod slices;
mod small;
mod steps;
mod writer;

use std::io::{self, Read, Write};
use std::process::ExitCode;

const USAGE: &str = "tools/differential/run --help lists the commands and their options";

fn main() -> ExitCode {
    let arguments: Vec<String> = std::env::args().skip(1).collect();
    let done = match arguments.first().map(String::as_str) {
        Some("print") => print(arguments.get(1).is_some_and(|word| word == "--by-reading")),
        Some("compare") => run_compare(&arguments),
        Some("slips") => both(&arguments, "--most").map(|(seed, most)| compare::slips(seed, most)),
        Some("sample") => number(&arguments, "--seed").and_then(write_sample),
        Some("check-sample") => check_sample(),
        Some("self-test") => Ok(examples::all_pass() && beyond::all_panic() && small::all_found()),
        Some("exhaustive") => Ok(exhaustive::all_agree()),
        Some("emit") => emit(&arguments),
        Some("gateway") => run_gateway(&arguments),
        Some("small") => run_small(),
        Some("write") => run_write(&arguments),
        _ => Err(USAGE.to_string()),
    };
    match done {
        Ok(true) => ExitCode::SUCCESS,
        Ok(false) => ExitCode::FAILURE,
        Err(words) => {
            eprintln!("{words}");
            ExitCode::from(2)
        }
    }
}

type Done = Result<bool, String>;

fn words(error: io::Error) -> String {
    error.to_string()
}

fn number(arguments: &[String], name: &str) -> Result<u64, String> {
    let place = arguments.iter().position(|argument| argument == name);
    let value = place.and_then(|place| arguments.get(place + 1));
    value.and_then(|value| value.parse().ok()).ok_or_else(|| format!("{name} needs a number\n{USAGE}"))
}

fn both(arguments: &[String], count: &str) -> Result<(u64, u64), String> {
    Ok((number(arguments, "--seed")?, number(arguments, count)?))
}

fn damaged(arguments: &[String]) -> bool {
    arguments.iter().any(|argument| argument == "--damaged")
}

fn input() -> Result<Vec<u8>, String> {
    let mut bytes = Vec::new();
    io::stdin().read_to_end(&mut bytes).map_err(words)?;
    Ok(bytes)
}

/// By the oracle, or by the readings of the document.
fn print(by_reading: bool) -> Done {
    let bytes = input()?;
    let read = match second::refusal(&bytes) {
        Some(refusal) if by_reading => Err(refusal),
        _ => sheet::decode(&bytes),
    };
    let out = match read {
        Ok(table) if by_reading => {
            let reading = reading::Reading::new(&table, None);
            reading.page(&reading.widths()).page
        }
        Ok(table) => oracle::answer(&table).page,
        Err(refusal) => format!("refused {} at {}\n", refusal.number, refusal.place).into_bytes(),
    };
    io::stdout().write_all(&out).map_err(words)?;
    Ok(true)
}

fn run_compare(arguments: &[String]) -> Done {
    let (seed, count) = both(arguments, "--count")?;
    Ok(if damaged(arguments) { compare::damaged(seed, count) } else { compare::accepted(seed, count) })
}

#[cfg(gateway)]
fn run_gateway(arguments: &[String]) -> Done {
    let (seed, count) = both(arguments, "--count")?;
    Ok(gateway::agrees(seed, count, damaged(arguments)))
}

#[cfg(not(gateway))]
fn run_gateway(_: &[String]) -> Done {
    Err(format!("gateway needs --archive PATH\n{USAGE}"))
}

#[cfg(gateway)]
fn run_small() -> Done {
    let mut trials = gateway::Trials::new(0);
    let mut calls = |index: u64, sheet: &[u8]| trials.difference(index, &record::answered(sheet.to_vec()));
    Ok(small::agrees(&input()?, Some(&mut calls)))
}

#[cfg(not(gateway))]
fn run_small() -> Done {
    Ok(small::agrees(&input()?, None))
}

#[cfg(gateway)]
fn run_write(arguments: &[String]) -> Done {
    let (seed, count) = both(arguments, "--count")?;
    let mut call = gateway::Writing::new();
    Ok(writer::compare::agrees(
        seed,
        count,
        damaged(arguments),
        Some(&mut |slices, room, saved| call.difference(slices, room, saved)),
    ))
}

#[cfg(not(gateway))]
fn run_write(arguments: &[String]) -> Done {
    let (seed, count) = both(arguments, "--count")?;
    Ok(writer::compare::agrees(seed, count, damaged(arguments), None))
}

fn emit(arguments: &[String]) -> Done {
    let (seed, count) = both(arguments, "--count")?;
    let mut out = io::BufWriter::new(io::stdout().lock());
    for index in 0..count {
        let sheet = match damaged(arguments) {
            true => damage::sheet(seed, index),
            false => sheet::encode(&generate::table(seed, index)).bytes,
        };
        let mut bytes = Vec::new();
        record::write(&record::answered(sheet), &mut bytes);
        out.write_all(&bytes).map_err(words)?;
    }
    out.flush().map_err(words)?;
    Ok(true)
}

fn sample_path() -> Result<String, String> {
    std::env::var("DIFFERENTIAL_SAMPLE").map_err(|_| "start the tool by `run`".to_string())
}

fn write_sample(seed: u64) -> Done {
    let records = sample::choose(seed);
    let mut bytes = Vec::new();
    for record in &records {
        record::write(record, &mut bytes);
    }
    std::fs::write(sample_path()?, &bytes).map_err(words)?;
    println!("{}\n{} bytes", sample::summary(&records), bytes.len());
    Ok(true)
}

fn check_sample() -> Done {
    let bytes = std::fs::read(sample_path()?).map_err(words)?;
    let records = record::read_all(&bytes).ok_or("the sample ends within a record")?;
    let wrong = records.iter().filter(|stored| record::answered(stored.sheet.clone()) != **stored).count();
    let first = records.first().is_some_and(|record| record.sheet == examples::trial_desk());
    println!("{}\n{wrong} stored answers differ from the oracle's", sample::summary(&records));
    Ok(wrong == 0 && first && examples::all_pass())
}
