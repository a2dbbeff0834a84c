//! `reference CALL COUNT SEED` prints cases for a call, one a line, with the
//! answer and the output that the documents ask for. `reference exercise NAME`
//! writes the bytes of `NAME.exercise`, a file of `examples/` or
//! `tests/statements/`. `reference statements COUNT SEED FOLDER` writes random
//! exercise files to a folder, each beside the statement it comes to.

use reference::cases::{
    cause, check, counts, hour, list_cause, load, participants, read, row, split, write,
};
use reference::files;
use reference::hour::statement;
use reference::random::Random;
use std::fs;
use std::io::{self, BufWriter, Write};
use std::path::Path;
use std::process::ExitCode;

/// The case of a turn.
type Line = fn(usize, &mut Random) -> String;

const CALLS: [(&str, &str, Line); 11] = [
    ("split", split::HEADER, split::line),
    ("load", load::HEADER, load::line),
    ("row", row::HEADER, row::line),
    ("check", check::HEADER, check::line),
    ("hour", hour::HEADER, hour::line),
    ("write", write::HEADER, write::line),
    ("read", read::HEADER, read::line),
    ("participants", participants::HEADER, participants::line),
    ("counts", counts::HEADER, counts::line),
    ("cause", cause::HEADER, cause::line),
    ("list_cause", list_cause::HEADER, list_cause::line),
];

fn main() -> ExitCode {
    let words: Vec<String> = std::env::args().skip(1).collect();
    let words: Vec<&str> = words.iter().map(String::as_str).collect();
    let done = match words.as_slice() {
        ["exercise", name] => files::bytes(name).map(|bytes| io::stdout().write_all(&bytes)),
        ["statements", count, seed, folder] => {
            numbers(count, seed).map(|(count, seed)| keep(count, seed, Path::new(folder)))
        }
        [call, count, seed] => numbers(count, seed).and_then(|(count, seed)| {
            let &(_, header, line) = CALLS.iter().find(|(name, ..)| name == call)?;
            Some(print(header, line, count, seed))
        }),
        _ => None,
    };
    match done {
        Some(Ok(())) => ExitCode::SUCCESS,
        Some(Err(error)) => {
            eprintln!("reference: {error}");
            ExitCode::FAILURE
        }
        None => usage(),
    }
}

fn numbers(count: &str, seed: &str) -> Option<(usize, u64)> {
    Some((count.parse().ok()?, seed.parse().ok()?))
}

fn print(header: &str, line: Line, count: usize, seed: u64) -> io::Result<()> {
    let mut random = Random::new(seed);
    let mut out = BufWriter::new(io::stdout().lock());
    writeln!(out, "# {header}")?;
    for turn in 0..count {
        writeln!(out, "{}", line(turn, &mut random))?;
    }
    out.flush()
}

fn keep(count: usize, seed: u64, folder: &Path) -> io::Result<()> {
    let mut random = Random::new(seed);
    for turn in 0..count {
        let (file, _) = hour::draw(turn, &mut random);
        fs::write(folder.join(format!("{turn}.exercise")), &file)?;
        fs::write(folder.join(format!("{turn}.statement")), statement(&file))?;
    }
    Ok(())
}

fn usage() -> ExitCode {
    let names: Vec<&str> = CALLS.iter().map(|(name, ..)| *name).collect();
    eprintln!("usage: reference {} COUNT SEED", names.join("|"));
    eprintln!("       reference exercise NAME");
    eprintln!("       reference statements COUNT SEED FOLDER");
    ExitCode::from(2)
}
