//! `peer`: replay, generate and count scripts of the rig; compute worked examples; search for
//! breaks of demand 3.

#![forbid(unsafe_code)]

use std::env;
use std::ffi::OsString;
use std::io::{self, BufReader, BufWriter, Write};
use std::process::ExitCode;

use peer::{count, examples, generate, rounds, script};

const USAGE: &str =
    "usage: peer replay | examples | generate SEED CALLS | count | rounds SEED HISTORIES";

const BUFFER: usize = 1 << 16;

fn main() -> ExitCode {
    let arguments: Vec<OsString> = env::args_os().skip(1).collect();
    let words: Option<Vec<&str>> = arguments.iter().map(|word| word.to_str()).collect();
    let done = match words.as_deref() {
        Some(["replay"]) => replay(),
        Some(["examples"]) => work_examples(),
        Some(["count"]) => count_answers(),
        Some(["generate", seed, calls]) => match (seed.parse(), calls.parse()) {
            (Ok(seed), Ok(calls)) => generate_script(seed, calls),
            _ => return usage(),
        },
        Some(["rounds", seed, histories]) => match (seed.parse(), histories.parse()) {
            (Ok(seed), Ok(histories)) => search_rounds(seed, histories),
            _ => return usage(),
        },
        _ => return usage(),
    };
    match done {
        Ok(true) => ExitCode::SUCCESS,
        Ok(false) => ExitCode::FAILURE,
        Err(error) => {
            complain(&format!("peer: {error}"));
            ExitCode::FAILURE
        }
    }
}

/// Unlike eprintln!, this does not panic where standard error is closed.
fn complain(text: &str) {
    let _ = writeln!(io::stderr(), "{text}");
}

fn usage() -> ExitCode {
    complain(USAGE);
    ExitCode::from(2)
}

fn input() -> impl io::BufRead {
    BufReader::with_capacity(BUFFER, io::stdin().lock())
}

fn output() -> impl Write {
    BufWriter::with_capacity(BUFFER, io::stdout().lock())
}

fn replay() -> io::Result<bool> {
    script::replay(input(), &mut output())?;
    Ok(true)
}

fn work_examples() -> io::Result<bool> {
    examples::examples(input(), &mut output())?;
    Ok(true)
}

fn generate_script(seed: u64, calls: u64) -> io::Result<bool> {
    generate::generate(seed, calls, &mut output())?;
    Ok(true)
}

fn count_answers() -> io::Result<bool> {
    let tally = count::count(input())?;
    tally.print(&mut output())?;
    let faults = tally.faults();
    for fault in &faults {
        complain(&format!("peer count: {fault}"));
    }
    Ok(faults.is_empty())
}

fn search_rounds(seed: u64, histories: u64) -> io::Result<bool> {
    let report = match rounds::search(seed, histories) {
        Ok(report) => report,
        Err(broken) => {
            complain(&format!("peer rounds: seed {seed}, {broken}"));
            return Ok(false);
        }
    };
    let mut out = output();
    writeln!(out, "histories {}", report.histories)?;
    writeln!(out, "lost {}", report.lost)?;
    writeln!(out, "through {}", report.through)?;
    writeln!(out, "high-first {}", report.high_first)?;
    writeln!(out, "packets {}", report.packets)?;
    writeln!(out, "largest {}", report.largest)?;
    out.flush()?;
    Ok(true)
}
