//! Writes vector files: the reference's answers for the programs that replay them.

mod file;
mod fits;
mod kinds;
mod runs;
mod scalars;
mod steady_runs;
mod sweep;
#[cfg(test)]
mod tests;
mod two_axis_runs;
mod units;
mod window;

use std::fs;
use std::io;
use std::path::{Path, PathBuf};
use std::process::ExitCode;

use file::File;
use kinds::{KINDS, RUNS_LAYOUT};

/// What makes a file of whole byte runs from a seed, and an index beside it.
type MakeRuns = fn(u64) -> (File, String);

/// The files of whole byte runs.
const RUNS: [(&str, MakeRuns); 4] = [
    ("runs", runs::runs),
    ("two_axis_runs", two_axis_runs::two_axis_runs),
    ("steady_runs", steady_runs::steady_runs),
    ("steady_two_axis_runs", steady_runs::steady_two_axis_runs),
];

const USAGE: &str = "usage: make_vectors all|NAME FOLDER [--seed S]";

fn main() -> ExitCode {
    let written = arguments().and_then(|(name, folder, seed)| {
        write(&name, &folder, seed).map_err(|error| error.to_string())
    });
    match written {
        Ok(()) => ExitCode::SUCCESS,
        Err(message) => {
            eprintln!("{message}");
            ExitCode::from(2)
        }
    }
}

fn arguments() -> Result<(String, PathBuf, u64), String> {
    let words: Vec<String> = std::env::args().skip(1).collect();
    let (name, folder, seed) = match &words[..] {
        [name, folder] => (name, folder, 1),
        [name, folder, flag, seed] if flag == "--seed" => {
            let seed = seed
                .parse()
                .map_err(|_| format!("{seed} is no whole number"))?;
            (name, folder, seed)
        }
        _ => return Err(USAGE.to_string()),
    };
    let mut names: Vec<&str> = KINDS.iter().map(|kind| kind.name).collect();
    names.extend(RUNS.map(|(name, _)| name));
    names.push("all");
    if !names.contains(&name.as_str()) {
        return Err(format!("{USAGE}\nNAME is one of: {}", names.join(", ")));
    }
    Ok((name.clone(), PathBuf::from(folder), seed))
}

fn write(name: &str, folder: &Path, seed: u64) -> io::Result<()> {
    for kind in &KINDS {
        if name == kind.name || name == "all" {
            let how = format!(
                "Record: {}.\nInputs: {}.\n{}",
                kind.layout,
                kind.inputs,
                made_by(kind.name, seed)
            );
            (kind.make)(seed).write(folder, kind.name, &how)?;
        }
    }
    for (runs, make) in RUNS {
        if name == runs || name == "all" {
            let (file, index) = make(seed);
            let how = format!("Record: {RUNS_LAYOUT}.\n{}", made_by(runs, seed));
            file.write(folder, runs, &how)?;
            fs::write(folder.join(format!("{runs}-index.txt")), index)?;
        }
    }
    Ok(())
}

/// How a file was made.
fn made_by(name: &str, seed: u64) -> String {
    format!(
        "Seed {seed}: `cargo run --release -p make_vectors -- {name} FOLDER --seed {seed}` in host/.\n\
         The answers are those of stable-flight 110781c7ef with the stand-ins of documents 01 and 02 and the two tests of 02's \
         request four. A NaN answer is 7FC00000.\n"
    )
}
