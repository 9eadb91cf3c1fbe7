//! `bench run FOLDER [SAMPLES]` measures, and writes the tables of the
//! folder's `SPEED.md` and its `speed.svg`; `bench worst FOLDER [SAMPLES]` the
//! tables of the worst papers alone. `bench some SAMPLES PAPER..` measures some
//! worst papers, and prints their tables; `bench texts SAMPLES` measures the
//! comma-separated texts alone, and prints theirs, and so do `bench joins
//! SAMPLES` with the statements that are joined and `bench thins SAMPLES` with the
//! pairs in both kinds of sheets. `bench times OPERATION TOKENS DECLARATIONS
//! breaches|clean TIMES` runs one operation, for callgrind, and so do `bench times
//! OPERATION worst PAPER TIMES`, `bench times OPERATION text TEXT TIMES`, `bench
//! times OPERATION join JOIN TIMES` and `bench times OPERATION thin PAIR TIMES`.

use std::path::Path;
use std::process::ExitCode;
use std::{env, fs};

use bench::count::Job;
use bench::join_report::join_tables;
use bench::machine::load;
use bench::measure::{measure, measure_joins, measure_texts, measure_thins, measure_worst};
use bench::plot::plot;
use bench::profile::{SIZES, profile};
use bench::report::{Profile, TABLES, tables};
use bench::table::replaced;
use bench::text_report::text_tables;
use bench::thin_report::thin_tables;
use bench::worst::Worst;
use bench::worst_report::{WORST, worst_tables};

const USAGE: &str = "bench run|worst FOLDER [SAMPLES] | bench some SAMPLES PAPER.. | \
                     bench texts|joins|thins SAMPLES | \
                     bench times OPERATION TOKENS DECLARATIONS breaches|clean TIMES | \
                     bench times OPERATION worst PAPER TIMES | \
                     bench times OPERATION text TEXT TIMES | \
                     bench times OPERATION join JOIN TIMES | \
                     bench times OPERATION thin PAIR TIMES";

/// An odd number, so that the median is one of them.
const SAMPLES: usize = 11;

/// Of the worst papers at most so many, and odd too.
const WORST_SAMPLES: usize = 5;

fn main() -> ExitCode {
    let words: Vec<String> = env::args().skip(1).collect();
    match obey(&words) {
        Ok(()) => ExitCode::SUCCESS,
        Err(what) => {
            eprintln!("{what}");
            ExitCode::FAILURE
        }
    }
}

fn obey(words: &[String]) -> Result<(), String> {
    match words {
        [command, job @ ..] if command == "times" => {
            Job::of(job).ok_or(USAGE)?.run();
            Ok(())
        }
        [command, samples] if command == "texts" => {
            println!("{}", text_tables(&measure_texts(positive(samples)?)?));
            Ok(())
        }
        [command, samples] if command == "joins" => {
            println!("{}", join_tables(&measure_joins(positive(samples)?)?));
            Ok(())
        }
        [command, samples] if command == "thins" => {
            println!("{}", thin_tables(&measure_thins(positive(samples)?)?));
            Ok(())
        }
        [command, samples, papers @ ..] if command == "some" => {
            let chosen: Option<Vec<Worst>> = papers.iter().map(|word| Worst::of(word)).collect();
            println!("{}", of_worst(&chosen.ok_or(USAGE)?, positive(samples)?)?);
            Ok(())
        }
        [command, folder, samples @ ..] if samples.len() < 2 => {
            let samples = samples.first().map_or(Ok(SAMPLES), |word| positive(word))?;
            match command.as_str() {
                "run" => run(Path::new(folder), samples),
                "worst" => worst(Path::new(folder), samples),
                _ => Err(USAGE.into()),
            }
        }
        _ => Err(USAGE.into()),
    }
}

fn run(folder: &Path, samples: usize) -> Result<(), String> {
    let how = how(samples);
    let rows = measure(samples)?;
    let texts = text_tables(&measure_texts(samples)?);
    let joins = join_tables(&measure_joins(samples)?);
    let thins = thin_tables(&measure_thins(samples)?);
    let profiled = |size| profile(size).map(|list| (size, list));
    let profiles: Vec<Profile> = SIZES.into_iter().map(profiled).collect::<Result<_, _>>()?;
    let tables = format!("{}\n\n{texts}\n\n{joins}\n\n{thins}", tables(&rows, &profiles, &how));
    rewrite(folder, |document| replaced(document, TABLES, &tables))?;
    fs::write(folder.join("speed.svg"), plot(&rows)).map_err(|error| error.to_string())?;
    worst(folder, samples)
}

fn worst(folder: &Path, samples: usize) -> Result<(), String> {
    let all: Vec<Worst> = Worst::all().collect();
    let tables = of_worst(&all, samples.min(WORST_SAMPLES))?;
    rewrite(folder, |document| replaced(document, WORST, &tables))
}

/// The tables of worst papers.
fn of_worst(chosen: &[Worst], samples: usize) -> Result<String, String> {
    let how = how(samples);
    Ok(worst_tables(&measure_worst(chosen, samples)?, &how))
}

fn positive(word: &str) -> Result<usize, String> {
    word.parse().ok().filter(|number| *number > 0).ok_or(USAGE.into())
}

/// How it is measured; to be asked for before the run.
fn how(samples: usize) -> String {
    format!("Median of {samples} samples; load average {} before the run.", load())
}

/// Changes `SPEED.md`.
fn rewrite(
    folder: &Path,
    change: impl FnOnce(&str) -> Result<String, String>,
) -> Result<(), String> {
    let said = |error: std::io::Error| error.to_string();
    let file = folder.join("SPEED.md");
    let document = fs::read_to_string(&file).map_err(said)?;
    fs::write(&file, change(&document)?).map_err(said)
}
