//! A greedy shrinker: takes out groups, puts children or null in their
//! parents' places and shortens texts, as long as the difference stays.

use crate::grammar::{Class, rule_of};
use crate::texts::TextCase;
use crate::tree::Tree;

/// The smallest trees found for which `differs` still holds. The first is made
/// as small as it gets before the next is.
pub fn smallest<const N: usize>(
    mut trees: [Tree; N],
    differs: impl Fn(&[Tree; N]) -> bool,
) -> [Tree; N] {
    while let Some(less) = (0..N).find_map(|i| one_less(&trees, i, &differs)) {
        trees = less;
    }
    trees
}

/// The trees with the `i`-th one step smaller, if they still differ so.
fn one_less<const N: usize>(
    trees: &[Tree; N],
    i: usize,
    differs: impl Fn(&[Tree; N]) -> bool,
) -> Option<[Tree; N]> {
    let mut less = trees.clone();
    smaller(&trees[i]).find_map(|tree| {
        less[i] = tree;
        differs(&less).then(|| less.clone())
    })
}

/// All trees that are one step smaller, the largest steps first.
fn smaller(tree: &Tree) -> Box<dyn Iterator<Item = Tree> + '_> {
    let within = tree.kids.iter().enumerate().flat_map(move |(i, kid)| {
        smaller(kid).map(move |less| {
            let mut copy = tree.clone();
            copy.kids[i] = less;
            copy
        })
    });
    Box::new(replaced(tree).into_iter().chain(without_groups(tree)).chain(within))
}

/// What an expression can be replaced by: null, or an expression in it.
fn replaced(tree: &Tree) -> Vec<Tree> {
    let exprs = Class::Expr.kinds();
    if !exprs.contains(&tree.kind) || tree.kind <= 9 {
        return Vec::new();
    }
    let inner = tree.kids.iter().filter(|kid| exprs.contains(&kid.kind)).cloned();
    [Tree::leaf(1, 0)].into_iter().chain(inner).collect()
}

/// The tree with some repetitions of one of its groups taken out: all, then
/// halves of them, down to single ones.
fn without_groups(tree: &Tree) -> impl Iterator<Item = Tree> + '_ {
    let mut cuts = Vec::new();
    let mut at = 0;
    for slot in rule_of(tree.kind).map_or(&[][..], |rule| rule.holds) {
        let count = slot.times.count(tree.value) as usize;
        for run in halves(count).filter(|_| slot.times.weight() > 0) {
            for first in (0..count).step_by(run) {
                let last = count.min(first + run);
                let less = (last - first) as u32 * slot.times.weight();
                cuts.push((at + first * slot.of.len()..at + last * slot.of.len(), less));
            }
        }
        at += count * slot.of.len();
    }
    cuts.into_iter().map(|(range, less)| {
        let mut copy = tree.clone();
        copy.kids.drain(range);
        copy.value -= less;
        copy
    })
}

fn halves(count: usize) -> impl Iterator<Item = usize> {
    std::iter::successors(Some(count), |run| Some(run / 2)).take_while(|run| *run > 0)
}

/// Of a long text runs of this share of it are the shortest that go.
const SHORTEST_SHARE: usize = 256;

/// The smallest text found for which `differs` still holds. What it was made
/// to draw is not known of a smaller one.
pub fn smallest_text(case: &TextCase, differs: impl Fn(&TextCase) -> bool) -> TextCase {
    let unknown = TextCase { expected: None, ..case.clone() };
    if !differs(&unknown) {
        return case.clone();
    }
    let mut smallest = unknown;
    loop {
        let less = smaller_texts(&smallest).find(|less| differs(less));
        match less {
            Some(less) => smallest = less,
            None => return smallest,
        }
    }
}

/// The case with an earlier row, a shorter label, or a run of bytes less.
fn smaller_texts(case: &TextCase) -> impl Iterator<Item = TextCase> + '_ {
    let row = case.row.checked_sub(1).map(|row| TextCase { row, ..case.clone() });
    let (_, label) = case.label.split_last().unzip();
    let label = label.map(|label| TextCase { label: label.to_vec(), ..case.clone() });
    let length = case.text.len();
    let runs = halves(length).filter(move |run| run * SHORTEST_SHARE >= length);
    let cuts = runs.flat_map(move |run| (0..length).step_by(run).map(move |at| (at, run)));
    let without = cuts.map(move |(at, run)| {
        let text = [&case.text[..at], &case.text[length.min(at + run)..]].concat();
        TextCase { text, ..case.clone() }
    });
    row.into_iter().chain(label).chain(without)
}
