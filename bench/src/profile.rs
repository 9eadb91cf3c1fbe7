//! Where the check's instructions go, function by function: callgrind's own
//! list, as the difference of two runs like every other count.

use std::collections::BTreeMap;
use std::process::Command;
use std::{env, fs, process};

use crate::count::Job;
use crate::input::{Operation, Size, Source};

/// The inputs that are profiled: both sheets long, the schema short, the
/// paper short.
pub const SIZES: [Size; 3] = [size(4_000, 500), size(4_000, 5), size(10, 500)];

const fn size(tokens: usize, declarations: usize) -> Size {
    Size { tokens, declarations, breaches: true }
}

/// Calls of the check in the shorter of the two runs.
const TIMES: u64 = 4;

/// The functions of one call of the check, each with its own instructions,
/// the greatest first.
pub fn profile(size: Size) -> Result<Vec<(String, u64)>, String> {
    let job = |times| Job { source: Source::Made(size), operation: Operation::Check, times };
    let (once, twice) = (functions(job(TIMES))?, functions(job(2 * TIMES))?);
    let own = |(name, count): (String, u64)| {
        let less = count.saturating_sub(once.get(&name).copied().unwrap_or(0));
        (name, less / TIMES)
    };
    let mut list: Vec<(String, u64)> = twice.into_iter().map(own).collect();
    list.sort_by_key(|(_, count)| std::cmp::Reverse(*count));
    Ok(list)
}

fn functions(job: Job) -> Result<BTreeMap<String, u64>, String> {
    let file = env::temp_dir().join(format!("callgrind.{}", process::id()));
    job.under_callgrind(&file.to_string_lossy())?;
    let said = Command::new("callgrind_annotate").arg("--threshold=100").arg(&file).output();
    let said = said.map_err(|error| format!("callgrind_annotate: {error}"))?;
    fs::remove_file(&file).map_err(|error| error.to_string())?;
    let text = String::from_utf8_lossy(&said.stdout);
    let mut all = BTreeMap::new();
    for (name, count) in text.lines().filter_map(function_in) {
        *all.entry(name).or_default() += count;
    }
    Ok(all)
}

/// A line `1,234 (5.6%)  file:function'2 [object]`: the function and its
/// count. `'2` marks calls out of a recursion.
fn function_in(line: &str) -> Option<(String, u64)> {
    let (count, rest) = line.trim_start().split_once(" (")?;
    let count = count.replace(',', "").parse().ok()?;
    let (_, rest) = rest.split_once("%)  ")?;
    let (_, function) = rest.split_once(':')?;
    let name = function.rsplit_once(" [").map_or(function, |(name, _)| name);
    Some((name.split('\'').next().unwrap_or(name).to_owned(), count))
}

#[cfg(test)]
mod tests {
    use super::*;

    #[test]
    fn lines_of_callgrind_annotate() {
        let line = "26,659,437 ( 7.01%)  ???:walk::check_expr'2 [/bin/bench]";
        assert_eq!(function_in(line), Some(("walk::check_expr".into(), 26_659_437)));
        assert_eq!(function_in("380,230,236 (100.0%)  PROGRAM TOTALS"), None);
        assert_eq!(function_in("Ir                   file:function"), None);
    }
}
