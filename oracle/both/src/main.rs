//! The comparison's commands. See the oracle's README.

use std::process::ExitCode;
use std::time::Instant;

use both::notice::notice;
use both::run::{Ended, Run};

const USAGE: &str = "both run [--pairs N] [--seed S] [--threads T]      compare generated pairs
both notice [--pairs N] [--seed S] [--threads T]   change answers, one at a time
";

const RUN_PAIRS: u64 = 1_000_000;
const NOTICE_PAIRS: u64 = 3_000;

fn main() -> ExitCode {
    let arguments: Vec<String> = std::env::args().skip(1).collect();
    let words: Vec<&str> = arguments.iter().map(String::as_str).collect();
    let good = match words[..] {
        ["run", ref rest @ ..] => options(rest, RUN_PAIRS).map(compare),
        ["notice", ref rest @ ..] => options(rest, NOTICE_PAIRS).map(try_changes),
        _ => Err(USAGE.into()),
    };
    match good {
        Ok(true) => ExitCode::SUCCESS,
        Ok(false) => ExitCode::FAILURE,
        Err(what) => {
            eprintln!("{what}");
            ExitCode::from(2)
        }
    }
}

fn options(words: &[&str], pairs: u64) -> Result<Run, String> {
    let mut run = Run { seed: 1, pairs, threads: 1 };
    for option in words.chunks(2) {
        let [name, word] = *option else { return Err(USAGE.into()) };
        let number = word.parse().map_err(|_| format!("{name} {word}: not a number"))?;
        match name {
            "--pairs" => run.pairs = number,
            "--seed" => run.seed = number,
            "--threads" if number > 0 => run.threads = number,
            _ => return Err(USAGE.into()),
        }
    }
    Ok(run)
}

fn compare(run: Run) -> bool {
    let before = Instant::now();
    let Ended { count, differences } = run.compare(None);
    differences.iter().for_each(|what| println!("difference\n{what}"));
    let missing = count.missing();
    missing.iter().for_each(|what| println!("never came: {what}"));
    print!("{}", count.table(differences.len(), before.elapsed().as_secs_f64()));
    differences.is_empty() && missing.is_empty()
}

fn try_changes(run: Run) -> bool {
    let unchanged = run.compare(None).differences;
    unchanged.iter().for_each(|what| println!("DIFFERS: nothing changed\n{what}"));
    let mut good = unchanged.is_empty();
    for noticed in notice(run) {
        let said = if noticed.rightly() { "noticed" } else { "NOT NOTICED" };
        println!("{said}: {:?}, {}", noticed.change.operation, noticed.change.what);
        good &= noticed.rightly();
    }
    good
}
