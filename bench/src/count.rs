//! Instructions, by callgrind on this same program. Two runs that differ only
//! in how often the operation is called are subtracted, so that nothing of
//! the set-up is counted.

use std::env;
use std::process::{Command, Stdio};
use std::sync::Mutex;
use std::thread::{available_parallelism, scope};

use crate::input::{Input, Operation, Size, Source};
use crate::joins::{Join, JoinInput};
use crate::measure::Runs;
use crate::texts::{Text, TextInput};
use crate::thins::{Thin, ThinInput};
use crate::worst::Worst;

/// Calls of one operation on one input.
#[derive(Clone, Copy, Debug, PartialEq, Eq)]
pub struct Job {
    pub source: Source,
    pub operation: Operation,
    pub times: u64,
}

impl Job {
    /// The words of the command line that runs it.
    fn words(self) -> Vec<String> {
        let source = match self.source {
            Source::Made(Size { tokens, declarations, breaches }) => {
                let paper = if breaches { "breaches" } else { "clean" };
                vec![tokens.to_string(), declarations.to_string(), paper.into()]
            }
            Source::Worst(worst) => vec!["worst".into(), worst.word()],
            Source::Text(text) => vec!["text".into(), text.word()],
            Source::Join(join) => vec!["join".into(), join.word()],
            Source::Thin(thin) => vec!["thin".into(), thin.word()],
        };
        [vec![self.operation.word()], source, vec![self.times.to_string()]].concat()
    }

    /// The job that those words name.
    pub fn of(words: &[String]) -> Option<Self> {
        let [operation, source @ .., times] = words else {
            return None;
        };
        let source = match source {
            [worst, word] if worst == "worst" => Source::Worst(Worst::of(word)?),
            [text, word] if text == "text" => Source::Text(Text::of(word)?),
            [join, word] if join == "join" => Source::Join(Join::of(word)?),
            [thin, word] if thin == "thin" => Source::Thin(Thin::of(word)?),
            [tokens, declarations, paper] => Source::Made(Size {
                tokens: tokens.parse().ok()?,
                declarations: declarations.parse().ok()?,
                breaches: ["clean", "breaches"].iter().position(|word| word == paper)? == 1,
            }),
            _ => return None,
        };
        Some(Job { source, operation: Operation::of(operation)?, times: times.parse().ok()? })
    }

    /// Makes the input and calls the operation so many times.
    pub fn run(self) {
        match self.source {
            Source::Made(size) => self.run_on_sheets(Input::new(size)),
            Source::Worst(worst) => self.run_on_sheets(Input::worst(worst)),
            Source::Text(text) => self.run_on(&mut TextInput::new(text)),
            Source::Join(join) => self.run_on(&mut JoinInput::new(join)),
            Source::Thin(thin) => self.run_on(&mut ThinInput::new(thin)),
        }
    }

    fn run_on_sheets(self, mut input: Input) {
        if self.operation.writes_messages() {
            input.count_items();
        }
        self.run_on(&mut input);
    }

    fn run_on(self, input: &mut impl Runs) {
        for _ in 0..self.times {
            input.run(self.operation);
        }
    }

    /// Instructions of one call.
    fn instructions(self) -> Result<u64, String> {
        let once = self.collected()?;
        let twice = Job { times: 2 * self.times, ..self }.collected()?;
        Ok(twice.saturating_sub(once) / self.times)
    }

    /// All that callgrind counts in one process.
    fn collected(self) -> Result<u64, String> {
        let said = self.under_callgrind("/dev/null")?;
        collected_in(&said).ok_or_else(|| format!("valgrind says: {said}"))
    }

    /// Runs the job under callgrind: what it says. The profile goes to a file.
    pub fn under_callgrind(self, file: &str) -> Result<String, String> {
        let program = env::current_exe().map_err(|error| error.to_string())?;
        let output = Command::new("valgrind")
            .arg("--tool=callgrind")
            .arg(format!("--callgrind-out-file={file}"))
            .arg(program)
            .arg("times")
            .args(self.words())
            .stdout(Stdio::null())
            .output()
            .map_err(|error| format!("valgrind: {error}"))?;
        Ok(String::from_utf8_lossy(&output.stderr).into())
    }
}

/// The number behind `Collected :`.
fn collected_in(said: &str) -> Option<u64> {
    let (_, number) = said.lines().find_map(|line| line.split_once("Collected : "))?;
    number.trim().parse().ok()
}

/// The instructions of one call of each job, as many jobs at once as there
/// are cores: counts do not depend on what else runs.
pub fn count(jobs: &[Job]) -> Result<Vec<u64>, String> {
    let waiting = Mutex::new(jobs.iter().enumerate());
    let counts = Mutex::new(vec![Ok(0); jobs.len()]);
    let work = || {
        loop {
            let next = waiting.lock().expect("no worker panics").next();
            let Some((i, job)) = next else { return };
            let counted = job.instructions();
            counts.lock().expect("no worker panics")[i] = counted;
        }
    };
    scope(|scope| {
        for _ in 0..available_parallelism().map_or(1, |cores| cores.get()) {
            scope.spawn(work);
        }
    });
    counts.into_inner().expect("no worker panics").into_iter().collect()
}

#[cfg(test)]
mod tests {
    use super::*;

    #[test]
    fn words_and_jobs() {
        let size = Size { tokens: 100, declarations: 50, breaches: true };
        let worst = Source::Worst(Worst::Maps);
        let others =
            [Source::Text(Text::Plan), Source::Join(Join::Halves), Source::Thin(Thin::Limits)];
        let sources = [Source::Made(size), worst].into_iter().chain(others);
        let expected = [
            "Check 100 50 breaches 3",
            "Check worst maps 3",
            "Check text plan 3",
            "Check join halves 3",
            "Check thin limits 3",
        ];
        for (source, words) in sources.zip(expected) {
            let job = Job { source, operation: Operation::Check, times: 3 };
            assert_eq!(job.words().join(" "), words);
            assert_eq!(Job::of(&job.words()), Some(job));
            assert_eq!(Job::of(&job.words()[1..]), None);
        }
    }

    #[test]
    fn callgrind_s_last_line() {
        let said = "==7== Events    : Ir\n==7== Collected : 1234567\n==7== \n";
        assert_eq!(collected_in(said), Some(1_234_567));
        assert_eq!(collected_in("valgrind: no such file"), None);
    }
}
