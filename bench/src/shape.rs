//! What a paper asks of a check, counted on its tokens.

use oracle::items::map_of;
use oracle::sheet::Sheet;

#[derive(Clone, Copy, Debug, Default, PartialEq, Eq)]
pub struct Shape {
    /// Names of Nodes and Rels, each looked up as declared.
    pub names: usize,
    /// Keys of Maps on elements that have a name, each looked up.
    pub keys: usize,
    /// Elements with a name and a Map in a MERGE.
    pub merged: usize,
    /// Calls of functions and procedures.
    pub calls: usize,
    /// Tokens of MERGE clauses.
    pub in_merge: usize,
    /// Tokens to which no other belongs.
    pub leaves: usize,
}

impl Shape {
    pub fn of(statement: &Sheet) -> Self {
        let mut shape = Shape::default();
        for (i, token) in statement.tokens.iter().enumerate() {
            let in_merge = statement.kind(clause_of(statement, i)) == 72;
            shape.in_merge += usize::from(in_merge);
            shape.leaves += usize::from(token.kids.is_empty());
            match token.kind {
                16 | 85 => shape.calls += 1,
                62 | 63 => shape.element(statement, i, in_merge),
                _ => {}
            }
        }
        shape
    }

    fn element(&mut self, statement: &Sheet, i: usize, in_merge: bool) {
        let names = statement.names_under(i).len();
        self.names += names;
        let Some(map) = map_of(statement, i).filter(|_| names > 0) else {
            return;
        };
        self.keys += statement.value(map) as usize;
        self.merged += usize::from(in_merge);
    }
}

/// The clause that a token belongs to; token 0 stands for itself.
fn clause_of(statement: &Sheet, mut token: usize) -> usize {
    while statement.tokens[token].depth > 1 {
        token = statement.tokens[token].parent;
    }
    token
}

#[cfg(test)]
mod tests {
    use super::*;
    use oracle::notation::encode;
    use oracle::sheet::read_statement;

    #[test]
    fn the_worked_example() {
        let text = include_str!("../../oracle/oracle/example/statement.txt");
        let bytes = encode(text).expect("the example is in the notation");
        let shape = Shape::of(&read_statement(&bytes).expect("an accepted statement"));
        let expected = Shape { names: 1, keys: 2, merged: 1, calls: 0, in_merge: 12, leaves: 7 };
        assert_eq!(shape, expected);
    }
}
