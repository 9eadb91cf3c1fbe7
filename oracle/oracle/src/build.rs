//! Trees of the shapes that sheets are put together of.

use crate::tree::Tree;

/// A token whose value is how many it holds.
fn holding(kind: u8, kids: Vec<Tree>) -> Tree {
    Tree::new(kind, kids.len() as u32, kids)
}

pub fn names(texts: impl IntoIterator<Item = impl AsRef<str>>) -> Vec<Tree> {
    texts.into_iter().map(|text| Tree::name(text.as_ref())).collect()
}

/// A Map.
pub fn map(pairs: impl IntoIterator<Item = (impl AsRef<str>, Tree)>) -> Tree {
    let pairs = pairs.into_iter();
    let kids: Vec<Tree> =
        pairs.flat_map(|(key, value)| [Tree::name(key.as_ref()), value]).collect();
    Tree::new(14, kids.len() as u32 / 2, kids)
}

/// A Node or a Rel from 0 to 9.
pub fn element(kind: u8, names: Vec<Tree>, properties: Option<Tree>) -> Tree {
    element_at([0, 9], kind, names, properties)
}

/// A Node or a Rel of that start and end.
pub fn element_at(span: [u32; 2], kind: u8, names: Vec<Tree>, properties: Option<Tree>) -> Tree {
    let value = 2 * names.len() as u32 + u32::from(properties.is_some());
    let span = span.map(|number| Tree::leaf(51, number));
    Tree::new(kind, value, span.into_iter().chain(names).chain(properties).collect())
}

/// A Pattern of one part.
pub fn pattern(elements: Vec<Tree>) -> Tree {
    holding(60, vec![holding(61, elements)])
}

/// A Match, Create or Merge of such a Pattern.
pub fn clause(kind: u8, elements: Vec<Tree>) -> Tree {
    Tree::new(kind, 0, vec![pattern(elements)])
}

/// A call of a function without arguments.
pub fn call(name: &str) -> Tree {
    Tree::new(16, 0, names([name]))
}

pub fn statement(clauses: Vec<Tree>) -> Tree {
    holding(90, clauses)
}

pub fn schema(declarations: Vec<Tree>) -> Tree {
    holding(100, declarations)
}

/// A Label or RelType.
pub fn declared(kind: u8, name: &str, items: Vec<Tree>) -> Tree {
    let value = items.len() as u32;
    Tree::new(kind, value, [Tree::name(name)].into_iter().chain(items).collect())
}

/// A Property that is not required.
pub fn property(name: &str, ty: Tree) -> Tree {
    Tree::new(110, 0, vec![Tree::name(name), ty])
}

pub fn tuple(texts: impl IntoIterator<Item = impl AsRef<str>>) -> Tree {
    holding(111, names(texts))
}

/// A Start or an End.
pub fn side(kind: u8, name: &str) -> Tree {
    Tree::new(kind, 0, vec![Tree::name(name)])
}

/// A Parameter without default.
pub fn parameter(name: &str) -> Tree {
    Tree::new(103, 0, vec![Tree::name(name), Tree::leaf(121, 0)])
}

pub fn apart(one: &str, other: &str) -> Tree {
    Tree::new(106, 0, names([one, other]))
}
