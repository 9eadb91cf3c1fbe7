//! Papers of an exact number of tokens: rows of a timing plan, loaded by
//! MERGE, CREATE and MATCH, with function calls, comprehensions over nested
//! patterns and lists of maps. A clean paper draws nothing. In a paper with
//! breaches one row in eight has one, from the first row on.

use oracle::build::{map, pattern};
use oracle::rng::Rng;
use oracle::tree::Tree;

use crate::schemas::{Callee, Owner, Property, Schema};

/// Every how many rows one has a breach.
const BREACH_EVERY: usize = 8;

/// Names that no schema of `schemas.rs` declares.
const MISSPELT_LABEL: &str = "Junktion";
const MISSPELT_REL_TYPE: &str = "HAS_FASE";
const MISSPELT_KEY: &str = "greeen";
const MISSPELT_FUNCTION: &str = "toSecond";
const MISSPELT_PROCEDURE: &str = "plan.lod";

/// The sorts of rows.
#[derive(Clone, Copy)]
enum Sort {
    MergeNode,
    Link,
    SetCall,
    CallProcedure,
    Comprehension,
    Unwind,
    Filter,
}

const SORTS: [Sort; 7] = [
    Sort::MergeNode,
    Sort::Link,
    Sort::SetCall,
    Sort::CallProcedure,
    Sort::Comprehension,
    Sort::Unwind,
    Sort::Filter,
];

/// How likely each sort is.
const WEIGHTS: [usize; 7] = [30, 20, 15, 8, 12, 7, 8];

/// Every breach: the row's sort, and which of the sort's faults.
const BREACHES: [(Sort, usize); 12] = [
    (Sort::MergeNode, 0),
    (Sort::Link, 0),
    (Sort::SetCall, 0),
    (Sort::MergeNode, 1),
    (Sort::Comprehension, 0),
    (Sort::CallProcedure, 0),
    (Sort::Link, 1),
    (Sort::MergeNode, 2),
    (Sort::SetCall, 1),
    (Sort::Comprehension, 1),
    (Sort::Link, 2),
    (Sort::CallProcedure, 1),
];

/// The tokens of `MATCH (:Label)`.
const SMALLEST_ROW: usize = 7;

/// The paper of so many tokens over a schema.
pub fn paper(schema: &Schema, seed: u64, tokens: usize, breaches: bool) -> Tree {
    let mut writer = Writer { schema, rng: Rng::new(seed, 0), offset: 0, rows: 0, breaches };
    let mut clauses: Vec<Tree> = Vec::new();
    let mut left = tokens - 1;
    loop {
        let breach = writer.next_breach();
        let row = writer.row(breach);
        let size: usize = row.iter().map(Tree::tokens).sum();
        if size > left {
            writer.fill(breach.is_some(), left, &mut clauses);
            return Tree::new(90, clauses.len() as u32, clauses);
        }
        left -= size;
        clauses.extend(row);
    }
}

fn var() -> Tree {
    Tree::leaf(6, 0)
}

/// `v.property`
fn access(property: &Property) -> Tree {
    Tree::new(10, 0, vec![Tree::name(property.name), var()])
}

/// A value that the property takes.
fn value(property: &Property) -> Tree {
    let leaf = Tree::leaf(property.literal, 0);
    match property.lists {
        0 => leaf,
        _ => Tree::new(13, 3, vec![leaf.clone(), leaf.clone(), leaf]),
    }
}

/// `[[true]]`, which only a property declared Any or Enum takes.
fn wrong_value() -> Tree {
    Tree::new(13, 1, vec![Tree::new(13, 1, vec![Tree::leaf(2, 0)])])
}

fn pairs_of<'a>(properties: &[&'a Property]) -> Vec<(&'a str, Tree)> {
    properties.iter().map(|p| (p.name, value(p))).collect()
}

struct Writer<'a> {
    schema: &'a Schema,
    rng: Rng,
    offset: u32,
    rows: usize,
    breaches: bool,
}

impl<'a> Writer<'a> {
    /// The breach of the row to come, if it has one: they take turns.
    fn next_breach(&mut self) -> Option<(Sort, usize)> {
        let row = self.rows;
        self.rows += 1;
        let due = self.breaches && row.is_multiple_of(BREACH_EVERY);
        due.then(|| BREACHES[row / BREACH_EVERY % BREACHES.len()])
    }

    fn row(&mut self, breach: Option<(Sort, usize)>) -> Vec<Tree> {
        let drawn = SORTS[self.rng.weighted(&WEIGHTS)];
        let (sort, fault) = breach.map_or((drawn, None), |(sort, fault)| (sort, Some(fault)));
        match sort {
            Sort::MergeNode => self.merge_node(fault),
            Sort::Link => self.link(fault),
            Sort::SetCall => self.set_call(fault),
            Sort::CallProcedure => self.call_procedure(fault),
            Sort::Comprehension => self.comprehension(fault),
            Sort::Unwind => self.unwind(),
            Sort::Filter => self.filter(),
        }
    }

    fn span(&mut self) -> Vec<Tree> {
        let start = self.offset;
        self.offset += 12 + self.rng.below(30) as u32;
        vec![Tree::leaf(51, start), Tree::leaf(51, self.offset - 1)]
    }

    /// A Node (62) or a Rel (63).
    fn element(&mut self, kind: u8, names: &[&str], properties: Option<Tree>) -> Tree {
        let count = 2 * names.len() as u32 + u32::from(properties.is_some());
        let mut kids = self.span();
        kids.extend(names.iter().map(|name| Tree::name(name)));
        kids.extend(properties);
        Tree::new(kind, count, kids)
    }

    fn label(&mut self) -> &'a Owner {
        self.rng.pick(&self.schema.labels)
    }

    fn rel_type(&mut self) -> &'a Owner {
        self.rng.pick(&self.schema.rel_types)
    }

    /// `(:Label {key: ..})`
    fn keyed_node(&mut self, key: Option<&str>) -> Tree {
        let label = self.label();
        let decides = label.properties[0];
        let pair = (key.unwrap_or(decides.name), value(decides));
        self.element(62, &[&label.name], Some(map(vec![pair])))
    }

    /// `MERGE (:Label {key: .., property: ..})`. Faults: a key that no tuple
    /// backs, a wrong type, an unknown label.
    fn merge_node(&mut self, fault: Option<usize>) -> Vec<Tree> {
        let label = self.label();
        let mut name = label.name.as_str();
        let mut pairs = pairs_of(&label.properties);
        match fault {
            Some(0) => pairs = vec![pairs.remove(1)],
            Some(1) => pairs[0].1 = wrong_value(),
            Some(_) => name = MISSPELT_LABEL,
            None => {}
        }
        let node = self.element(62, &[name], Some(map(pairs)));
        vec![Tree::new(72, 0, vec![pattern(vec![node])])]
    }

    /// Two nodes matched by their keys and a relationship between them, by
    /// CREATE or MERGE. Faults: an unknown relationship type, a key that is
    /// not declared, labels that stand apart.
    fn link(&mut self, fault: Option<usize>) -> Vec<Tree> {
        let first = self.keyed_node((fault == Some(1)).then_some(MISSPELT_KEY));
        let second = self.keyed_node(None);
        let parts = [first, second].map(|node| Tree::new(61, 1, vec![node])).to_vec();
        let found = Tree::new(70, 0, vec![Tree::new(60, 2, parts)]);
        let labels = self.two_labels(fault == Some(2));
        let start = self.element(62, &labels, None);
        let rel_type = self.rel_type();
        let name = if fault == Some(0) { MISSPELT_REL_TYPE } else { &rel_type.name };
        let rel = self.element(63, &[name], Some(map(pairs_of(&rel_type.properties))));
        let end = self.element(62, &[], None);
        let clause = if self.rng.chance(50) { 71 } else { 72 };
        vec![found, Tree::new(clause, 0, vec![pattern(vec![start, rel, end])])]
    }

    /// Two labels that may share a node; or that stand apart, where the
    /// schema has such a pair.
    fn two_labels(&mut self, apart: bool) -> [&'a str; 2] {
        let labels = &self.schema.labels;
        let first = match apart && self.schema.aparts > 0 {
            true => 2 * self.rng.below(self.schema.aparts),
            false => 2 * self.rng.below(labels.len() / 2) + 1,
        };
        [&labels[first].name, &labels[(first + 1) % labels.len()].name]
    }

    /// The arguments of a call, one more for the variadic; as a fault one
    /// too few.
    fn arguments(&mut self, callee: &Callee, one_less: bool) -> Vec<Tree> {
        let count = callee.parameters + usize::from(callee.variadic);
        let count = if one_less { callee.parameters - 1 } else { count };
        let argument = |chosen: usize| match chosen {
            0 => var(),
            1 => Tree::leaf(3, 0),
            _ => access(&crate::schemas::PROPERTIES[chosen]),
        };
        (0..count).map(|_| argument(self.rng.below(8))).collect()
    }

    /// `SET v.property = function(..)`. Faults: an unknown function, an
    /// argument too few.
    fn set_call(&mut self, fault: Option<usize>) -> Vec<Tree> {
        let callee = self.rng.pick(&self.schema.functions);
        let name = if fault == Some(0) { MISSPELT_FUNCTION } else { &callee.name };
        let mut kids = self.arguments(callee, fault == Some(1));
        let count = kids.len() as u32;
        kids.insert(0, Tree::name(name));
        let target = access(self.label().properties[1]);
        let item = Tree::new(80, 0, vec![target, Tree::new(16, count, kids)]);
        vec![Tree::new(77, 1, vec![item])]
    }

    /// `CALL procedure(..)`, with the same faults.
    fn call_procedure(&mut self, fault: Option<usize>) -> Vec<Tree> {
        let callee = self.rng.pick(&self.schema.procedures);
        let name = if fault == Some(0) { MISSPELT_PROCEDURE } else { &callee.name };
        let arguments = self.arguments(callee, fault == Some(1));
        let count = arguments.len() as u32;
        let mut kids = self.span();
        kids.push(Tree::name(name));
        kids.extend(arguments);
        vec![Tree::new(85, count, kids)]
    }

    /// `WITH v, [(:Label)-[:TYPE]->(:Label {key: ..}) WHERE .. | v.property]`.
    /// Faults: an unknown label, a key that is not declared.
    fn comprehension(&mut self, fault: Option<usize>) -> Vec<Tree> {
        let label = self.label();
        let name = if fault == Some(0) { MISSPELT_LABEL } else { &label.name };
        let start = self.element(62, &[name], None);
        let rel_type = self.rel_type();
        let rel = self.element(63, &[&rel_type.name], None);
        let end = self.keyed_node((fault == Some(1)).then_some(MISSPELT_KEY));
        let pattern = pattern(vec![start, rel, end]);
        let property = label.properties[1];
        let filter = Tree::new(17, 0, vec![access(property), value(property)]);
        let collected = Tree::new(23, 1, vec![pattern, filter, access(label.properties[0])]);
        vec![Tree::new(74, 2 * 2, vec![var(), collected])]
    }

    /// `UNWIND [{property: ..}, ..]`: the rows of a plan as they come.
    fn unwind(&mut self) -> Vec<Tree> {
        let label = self.label();
        let rows: Vec<Tree> =
            (0..2 + self.rng.below(3)).map(|_| map(pairs_of(&label.properties))).collect();
        vec![Tree::new(76, 0, vec![Tree::new(13, rows.len() as u32, rows)])]
    }

    /// `WHERE v.property = .. AND v.property IN [..]`
    fn filter(&mut self) -> Vec<Tree> {
        let property = self.label().properties[1];
        let equal = Tree::new(17, 0, vec![access(property), value(property)]);
        let list = Tree::new(13, 2, vec![value(property), value(property)]);
        let among = Tree::new(21, 0, vec![access(property), list]);
        vec![Tree::new(73, 0, vec![Tree::new(17, 0, vec![equal, among])])]
    }

    /// So many tokens at the end of a paper: `MATCH (:Label)` while there is
    /// room, and a `RETURN` of the rest.
    fn fill(&mut self, mut breach: bool, mut left: usize, clauses: &mut Vec<Tree>) {
        while left >= SMALLEST_ROW {
            let label = self.label();
            let name = if breach { MISSPELT_LABEL } else { &label.name };
            breach = false;
            let node = self.element(62, &[name], None);
            clauses.push(Tree::new(70, 0, vec![pattern(vec![node])]));
            left -= SMALLEST_ROW;
        }
        if left > 0 {
            clauses.push(Tree::new(75, left as u32 - 1, vec![var(); left - 1]));
        }
    }
}

#[cfg(test)]
mod tests {
    use super::*;
    use oracle::compare::judge;
    use oracle::items::Item;

    fn items(tokens: usize, declarations: usize, breaches: bool) -> Vec<Item> {
        let (schema, tree) = Schema::new(declarations);
        let paper = paper(&schema, 1, tokens, breaches);
        assert_eq!(paper.tokens(), tokens);
        assert_eq!(tree.kids.len(), declarations);
        let judged = judge(&paper.raw().bytes(), &tree.raw().bytes());
        judged.expect("the Rust agrees with 01").expect("both sheets are accepted")
    }

    #[test]
    fn papers_are_as_long_as_asked_and_as_clean() {
        for tokens in [10, 11, 17, 100, 1_000, 4_000] {
            for declarations in [5, 50, 500] {
                assert_eq!(items(tokens, declarations, false), []);
                let listed = items(tokens, declarations, true).len();
                assert!(listed > 0 && listed * 20 < tokens + 20, "{listed} of {tokens} tokens");
            }
        }
    }

    #[test]
    fn a_long_paper_has_every_code() {
        let listed = items(4_000, 500, true);
        for code in [3001, 3002, 3003, 3004, 3006, 3007, 3008, 3009, 4023] {
            assert!(listed.iter().any(|item| item.code == code), "no E{code}");
        }
    }

    #[test]
    fn a_seed_gives_one_paper() {
        let (schema, _) = Schema::new(50);
        let of_seed = |seed| paper(&schema, seed, 1_000, true);
        assert_eq!(of_seed(1), of_seed(1));
        assert_ne!(of_seed(1), of_seed(2));
    }
}
