//! A run over pairs, texts and joins of a seed, on some threads. A difference
//! stops it.

use std::iter::once_with;
use std::sync::atomic::{AtomicBool, Ordering};
use std::thread;

use oracle::compare::Difference;
use oracle::joins::{self, JoinCase, join_case};
use oracle::run::{Case, hex, shrunk};
use oracle::shrink::smallest_text;
use oracle::text_run::listing;
use oracle::texts::{self, TextCase, text_case};
use oracle::{join_run, limits};

use crate::ask::{Asked, Asker};
use crate::cases::cases;
use crate::count::Count;
use crate::notice::Change;

/// A text follows one pair in so many, and a join one in so many.
const PAIRS_A_TEXT: u64 = 4;
const PAIRS_A_JOIN: u64 = 4;

/// What is asked about: a pair of sheets, a text, or statements to join.
enum Asking {
    Pair(Case),
    Text(TextCase),
    Join(JoinCase),
}

/// Which pairs, and how.
#[derive(Clone, Copy)]
pub struct Run {
    pub seed: u64,
    pub pairs: u64,
    pub threads: u64,
}

/// What a run counted, and the differences that stopped it.
pub struct Ended {
    pub count: Count,
    pub differences: Vec<String>,
}

impl Run {
    /// The limits, the pairs, the texts and the joins of the seed, shared out
    /// over the threads.
    pub fn compare(self, change: Option<&'static Change>) -> Ended {
        let stop = &AtomicBool::new(false);
        let parts: Vec<(Count, Option<String>)> = thread::scope(|scope| {
            let start = |part| scope.spawn(move || self.part(part, change, stop));
            let started: Vec<_> = (0..self.threads).map(start).collect();
            started.into_iter().map(|part| part.join().expect("a thread that ends")).collect()
        });
        let mut count = Count::default();
        parts.iter().for_each(|(of_part, _)| count.add(of_part));
        let differences = parts.into_iter().filter_map(|(_, difference)| difference).collect();
        Ended { count, differences }
    }

    fn part(
        self,
        part: u64,
        change: Option<&'static Change>,
        stop: &AtomicBool,
    ) -> (Count, Option<String>) {
        let mut asker = Asker::new(change);
        let limits = (part == 0).then(limited).into_iter().flatten();
        let limits = limits.map(|asking| ("limits".to_owned(), asking));
        let numbers = (part..self.pairs).step_by(self.threads as usize);
        let generated = numbers.flat_map(|number| {
            let named = move |asking| (format!("number {number}"), asking);
            self.numbered(number).into_iter().map(named)
        });
        for (what, asking) in limits.chain(generated) {
            if stop.load(Ordering::Relaxed) {
                break;
            }
            if let Err(Difference(difference)) = asking.ask(&mut asker) {
                stop.store(true, Ordering::Relaxed);
                let smallest = asking.smallest(change);
                return (asker.count, Some(format!("{what}: {difference}\n{smallest}")));
            }
        }
        (asker.count, None)
    }

    /// What a number of the seed has: pairs, and perhaps a text and a join.
    fn numbered(self, number: u64) -> Vec<Asking> {
        let every = |count: u64| number.is_multiple_of(count).then_some(number / count);
        let text = every(PAIRS_A_TEXT).map(|number| Asking::Text(text_case(self.seed, number)));
        let join = every(PAIRS_A_JOIN).map(|number| Asking::Join(join_case(self.seed, number)));
        cases(self.seed, number).into_iter().map(Asking::Pair).chain(text).chain(join).collect()
    }
}

/// Small texts and short joins, and all that stands at a limit; each made when
/// it is come to.
fn limited() -> impl Iterator<Item = Asking> {
    let small = once_with(texts::small).flatten().map(Asking::Text);
    let short = once_with(joins::small).flatten().map(Asking::Join);
    let joins = once_with(joins::limits).flatten().map(Asking::Join);
    let pairs = once_with(limits::cases).flatten().map(Asking::Pair);
    let texts = once_with(texts::limits).flatten().map(Asking::Text);
    small.chain(short).chain(joins).chain(pairs).chain(texts)
}

impl Asking {
    fn ask(&self, asker: &mut Asker) -> Asked {
        match self {
            Asking::Pair(case) => asker.pair(case),
            Asking::Text(case) => asker.text(case),
            Asking::Join(case) => asker.join(case),
        }
    }

    /// What differed, and the smallest found that still differs.
    fn smallest(&self, change: Option<&'static Change>) -> String {
        match self {
            Asking::Pair(case) => {
                let sheets = format!("{}\n{}", hex(&case.statement), hex(&case.schema));
                format!("{sheets}\n{}", smallest(case, change))
            }
            Asking::Text(case) => {
                let differs = |case: &TextCase| Asker::new(change).text(case).is_err();
                let small = smallest_text(case, differs);
                format!("{}smallest: {}", listing(case), listing(&small))
            }
            Asking::Join(case) => {
                let sheets = [&case.first, &case.second, &case.third, &case.schema];
                let sheets = sheets.map(|sheet| hex(sheet)).join("\n");
                let smallest = join_run::shrunk(case, |case| Asker::new(change).join(case));
                format!("{sheets}\n{smallest}")
            }
        }
    }
}

/// The smallest sheets found that still differ.
fn smallest(case: &Case, change: Option<&'static Change>) -> String {
    shrunk(case, |statement, schema| {
        let (statement, schema) = (statement.to_vec(), schema.to_vec());
        let mut asker = Asker::new(change);
        asker.pair(&Case { statement, schema, expected: None })
    })
}
