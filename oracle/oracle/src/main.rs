//! The oracle's commands. See the README.

use std::fs::{self, File};
use std::io::{Read, Write};
use std::process::ExitCode;
use std::time::Instant;

use oracle::sheet::Refusal;
use oracle::{
    answers, join, join_run, join_sample, notation, notice, row_sample, rows, run, sample,
    text_run, thin,
};

const USAGE: &str = "oracle run [--pairs N] [--seed S]      compare generated pairs with the Rust
oracle answer STATEMENT SCHEMA         what 01's program prints for two files
oracle sample --out DIR [--rows DIR] [--joins DIR] [--seed S] [--pairs N] [--texts N] [--records N]
                                       write the three samples
oracle notice [--pairs N] [--seed S] [--only TEXT]   try changed rules on copies
oracle encode TEXT SHEET               a sheet from the plain notation
oracle show SHEET                      the tokens of a sheet
oracle row TEXT LABEL ROW SHEET        the sheet of a row of comma-separated text
oracle join FIRST SECOND SHEET         two statement sheets joined to one
oracle thin statement|schema FROM SHEET    a sheet in the thin kind
oracle cells [--texts N] [--seed S]    well-formed texts and their cells, in hex
oracle sources                         what was compiled, what left out
";

const SEED: u64 = 1;
const RUN_PAIRS: u64 = 200_000;
const NOTICE_PAIRS: u64 = 40_000;
const CELLS_TEXTS: u64 = 4_000;

/// A run has a text for so many pairs, and a join for so many.
const PAIRS_A_TEXT: u64 = 4;
const PAIRS_A_JOIN: u64 = 4;

/// The longest sheet; of a file one byte more is read.
const LONGEST_SHEET: u64 = 57_356;

fn main() -> ExitCode {
    let arguments: Vec<String> = std::env::args().skip(1).collect();
    let words: Vec<&str> = arguments.iter().map(String::as_str).collect();
    match command(&words) {
        Ok(code) => code,
        Err(what) => {
            eprintln!("{what}");
            ExitCode::from(2)
        }
    }
}

fn command(words: &[&str]) -> Result<ExitCode, String> {
    match words {
        ["run", rest @ ..] => {
            compare(number(rest, "--seed", SEED)?, number(rest, "--pairs", RUN_PAIRS)?)
        }
        ["answer", statement, schema] => answer(statement, schema),
        ["sample", rest @ ..] => write_sample(rest),
        ["notice", rest @ ..] => {
            let pairs = number(rest, "--pairs", NOTICE_PAIRS)?;
            let only = option(rest, "--only").unwrap_or_default();
            Ok(code(notice::notice(number(rest, "--seed", SEED)?, pairs, only)))
        }
        ["encode", text, sheet] => encode(text, sheet),
        ["show", sheet] => {
            print!("{}", notation::show(&read_most(sheet)));
            Ok(ExitCode::SUCCESS)
        }
        ["row", text, label, row, sheet] => write_row(text, label, row, sheet),
        ["join", first, second, sheet] => write_joined(first, second, sheet),
        ["thin", "statement", from, sheet] => {
            write_or_refuse(thin::thin_statement(&read_most(from), usize::MAX), sheet)
        }
        ["thin", "schema", from, sheet] => {
            write_or_refuse(thin::thin_schema(&read_most(from), usize::MAX), sheet)
        }
        ["cells", rest @ ..] => {
            let texts = number(rest, "--texts", CELLS_TEXTS)?;
            print!("{}", text_run::cells(number(rest, "--seed", SEED)?, texts));
            Ok(ExitCode::SUCCESS)
        }
        ["sources"] => {
            print!("{}{}{}", cyrs_sema::RECORD, cyrs_schema::RECORD, cyrs_hir::RECORD);
            Ok(ExitCode::SUCCESS)
        }
        _ => Err(USAGE.into()),
    }
}

fn code(good: bool) -> ExitCode {
    if good { ExitCode::SUCCESS } else { ExitCode::FAILURE }
}

fn option<'a>(words: &[&'a str], name: &str) -> Option<&'a str> {
    let at = words.iter().position(|word| *word == name)?;
    words.get(at + 1).copied()
}

fn number(words: &[&str], name: &str, otherwise: u64) -> Result<u64, String> {
    match option(words, name) {
        Some(word) => word.parse().map_err(|_| format!("{name} {word}: not a number")),
        None => Ok(otherwise),
    }
}

fn compare(seed: u64, pairs: u64) -> Result<ExitCode, String> {
    let before = Instant::now();
    let compared = run::run(seed, pairs).and_then(|mut tally| {
        let texts = text_run::run(seed, pairs / PAIRS_A_TEXT, &mut tally)?;
        Ok((tally, texts, join_run::run(seed, pairs / PAIRS_A_JOIN)?))
    });
    let (tally, texts, joins) = match compared {
        Ok(tallies) => tallies,
        Err(what) => {
            println!("difference\n{what}");
            return Ok(ExitCode::FAILURE);
        }
    };
    print!("{}{}{}", tally.report(), texts.report(), joins.report());
    let missing = [tally.missing(), texts.missing(), joins.missing()].concat();
    for what in &missing {
        println!("never came: {what}");
    }
    let seconds = before.elapsed().as_secs();
    let (pairs, texts, joins) = (tally.pairs, texts.texts, joins.joins);
    println!(
        "no difference: seed {seed}, {pairs} pairs, {texts} texts, {joins} joins, {seconds} seconds"
    );
    Ok(code(missing.is_empty()))
}

/// At most one byte more than a sheet can have; an absent file is empty.
fn read_most(path: &str) -> Vec<u8> {
    let mut bytes = Vec::new();
    if let Ok(file) = File::open(path) {
        let _ = file.take(LONGEST_SHEET + 1).read_to_end(&mut bytes);
    }
    bytes
}

fn answer(statement: &str, schema: &str) -> Result<ExitCode, String> {
    let printed = answers::printed(&read_most(statement), &read_most(schema));
    std::io::stdout().write_all(&printed).map_err(|e| e.to_string())?;
    Ok(ExitCode::SUCCESS)
}

/// All three files, `rows.bin` and `joins.bin` beside the other where no folder
/// is named for them.
fn write_sample(words: &[&str]) -> Result<ExitCode, String> {
    let folder = option(words, "--out").ok_or(USAGE)?;
    let [rows, joins] = ["--rows", "--joins"].map(|name| option(words, name).unwrap_or(folder));
    let pairs = number(words, "--pairs", sample::PAIRS as u64)? as usize;
    let texts = number(words, "--texts", row_sample::TEXTS)?;
    let records = number(words, "--records", join_sample::JOINS as u64)? as usize;
    let seed = number(words, "--seed", sample::SEED)?;
    let bytes = write_in(folder, "sample.bin", &sample::sample(seed, pairs))?;
    println!("seed {seed}, {pairs} pairs, {bytes} bytes");
    let bytes = write_in(rows, "rows.bin", &row_sample::sample(seed, texts))?;
    println!("seed {seed}, {} texts, {bytes} bytes", row_sample::cases(seed, texts).len());
    let bytes = write_in(joins, "joins.bin", &join_sample::sample(seed, records))?;
    println!("seed {seed}, {records} joins, {bytes} bytes");
    let missing = [
        sample::missing(seed, pairs)?,
        row_sample::missing(seed, texts)?,
        join_sample::missing(seed, records)?,
    ];
    missing.iter().flatten().for_each(|what| println!("never came: {what}"));
    Ok(code(missing.concat().is_empty()))
}

/// How many bytes were written to a file of a folder.
fn write_in(folder: &str, name: &str, bytes: &[u8]) -> Result<usize, String> {
    fs::create_dir_all(folder).map_err(|e| e.to_string())?;
    fs::write(format!("{folder}/{name}"), bytes).map_err(|e| e.to_string())?;
    Ok(bytes.len())
}

fn encode(text: &str, sheet: &str) -> Result<ExitCode, String> {
    let text = fs::read_to_string(text).map_err(|e| format!("{text}: {e}"))?;
    fs::write(sheet, notation::encode(&text)?).map_err(|e| format!("{sheet}: {e}"))?;
    Ok(ExitCode::SUCCESS)
}

fn write_row(text: &str, label: &str, row: &str, sheet: &str) -> Result<ExitCode, String> {
    let bytes = fs::read(text).map_err(|e| format!("{text}: {e}"))?;
    let number = row.parse().map_err(|_| format!("{row}: not a number"))?;
    write_or_refuse(rows::row_statement(&bytes, label.as_bytes(), number, usize::MAX), sheet)
}

fn write_joined(first: &str, second: &str, sheet: &str) -> Result<ExitCode, String> {
    let [first, second] = [first, second].map(read_most);
    write_or_refuse(join::join_statements(&first, &second, usize::MAX), sheet)
}

/// Writes a sheet to a file, or says why there is none.
fn write_or_refuse(answer: Result<Vec<u8>, Refusal>, sheet: &str) -> Result<ExitCode, String> {
    match answer {
        Ok(bytes) => fs::write(sheet, bytes).map_err(|e| format!("{sheet}: {e}"))?,
        Err(Refusal { number, sheet, place }) => println!("refused {number} {sheet} {place}"),
    }
    Ok(ExitCode::SUCCESS)
}
