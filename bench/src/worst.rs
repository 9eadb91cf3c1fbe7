//! Papers and schemas within the limits that are made to cost much, each by
//! another part of the checker. No seed: each is built one way.

use oracle::tree::{Raw, Tree};

use crate::input::Operation;
use crate::worst_papers as papers;
use crate::worst_schemas as schemas;

/// What a paper strains, or a schema.
#[derive(Clone, Copy, Debug, PartialEq, Eq)]
pub enum Worst {
    Undeclared,
    Declared,
    Properties,
    Tuple,
    Tuples,
    Aparts,
    Calls,
    Maps,
    Breaches,
    Falling,
    Repeated,
    Twins,
    Collide,
    CollideWholly,
    CollideLate,
    CaseCalls,
    Again,
    AnyCase,
    Single,
    Double,
    Nested,
    Merges,
    Near,
    Crowd,
    Long,
    InTurn,
    Scattered,
    ScatteredFew,
    MostTwice,
    MostItems,
    Labels,
    Parameters,
    Endpoints,
    Colliding,
    CollidingWholly,
    CollidingLate,
}

use Worst::*;

impl Worst {
    /// Those that are checked.
    pub const PAPERS: [Worst; 30] = [
        Undeclared,
        Declared,
        Properties,
        Tuple,
        Tuples,
        Aparts,
        Calls,
        Maps,
        Breaches,
        Falling,
        Repeated,
        Twins,
        Collide,
        CollideWholly,
        CollideLate,
        CaseCalls,
        Again,
        AnyCase,
        Single,
        Double,
        Nested,
        Merges,
        Near,
        Crowd,
        Long,
        InTurn,
        Scattered,
        ScatteredFew,
        MostTwice,
        MostItems,
    ];

    /// Those of which the store is asked.
    pub const SCHEMAS: [Worst; 6] =
        [Labels, Parameters, Endpoints, Colliding, CollidingWholly, CollidingLate];

    pub fn all() -> impl Iterator<Item = Worst> {
        Worst::PAPERS.into_iter().chain(Worst::SCHEMAS)
    }

    pub fn word(self) -> String {
        format!("{self:?}").to_lowercase()
    }

    pub fn of(word: &str) -> Option<Self> {
        Worst::all().find(|worst| worst.word() == word)
    }

    pub fn is_paper(self) -> bool {
        Worst::PAPERS.contains(&self)
    }

    /// The operations of the store that are measured on a schema: a name, the
    /// Rust's if it has one, ours.
    pub fn store(self) -> Vec<(&'static str, Option<Operation>, Operation)> {
        let digest = ("digest", Some(Operation::RustDigest), Operation::Digest);
        let reading = ("reading", None, Operation::ReadSchema);
        let labels = ("labels in order", Some(Operation::RustLabelNames), Operation::LabelNames);
        match self {
            Labels | Colliding | CollidingWholly | CollidingLate => vec![reading, labels, digest],
            Parameters => {
                let rust = Some(Operation::RustParameterNames);
                vec![reading, ("parameters in order", rust, Operation::ParameterNames), digest]
            }
            Endpoints => {
                let rust = Some(Operation::RustEndpoints);
                vec![reading, ("endpoints", rust, Operation::Endpoints)]
            }
            _ => Vec::new(),
        }
    }

    /// What the statement and the schema hold.
    pub fn what(self) -> [&'static str; 2] {
        match self {
            Undeclared => ["a node of 200 undeclared labels and 100 keys", "400 labels"],
            Declared => ["a node of 1,000 declared labels and 1,500 keys", "1,000 labels"],
            Properties => {
                ["a node of one label, 1,000 times, and 1,500 keys", "a label of 1,300 properties"]
            }
            Tuple => {
                ["a merged node of 1,000 labels and 1,500 keys", "a label with a tuple of 4,000"]
            }
            Tuples => [
                "a merged node of one label, 200 times, and 1,500 keys",
                "a label with a tuple of 4,000",
            ],
            Aparts => ["800 created nodes of two labels", "1,300 Aparts"],
            Calls => ["2,000 calls", "2,000 functions"],
            Maps => ["a node with maps in maps, 55 deep, 35 keys each", "one label"],
            Breaches => ["512 nodes of an undeclared label", "1,024 labels"],
            Falling => {
                ["a merged node of 1,000 keys in falling order, twice", "a label with a tuple"]
            }
            Repeated => {
                ["a merged node of one key of 32,000 bytes, 2,000 times", "a label with a tuple"]
            }
            Twins => [
                "a merged node of 2,000 keys, two names in turn that are equal, 16,000 bytes each",
                "a label with a tuple",
            ],
            Collide => ["a node of 1,000 labels of one chain", "1,000 other labels of it"],
            CollideWholly => ["a node of 1,000 labels of one hash", "1,000 other labels of it"],
            CollideLate => [
                "a node of 1,000 labels of one hash, alike in 24 of 32 bytes",
                "1,000 other labels of it",
            ],
            CaseCalls => [
                "1,000 calls of names of one hash, alike in 24 of 32 bytes and else but for case",
                "1,000 other functions of it",
            ],
            Again => [
                "2,000 calls of one name of 16,000 bytes, which differs in case from those declared",
                "2,047 functions, two names in turn that are equal, 16,000 bytes each",
            ],
            AnyCase => ["an ordinary paper, its calls in capitals", "500 declarations"],
            Single => ["500 nodes of one label and one key", "a label of 1,300 properties"],
            Double => {
                ["290 nodes of two labels and four keys", "two labels, one of 1,300 properties"]
            }
            Nested => {
                ["a node in a node's map, 12 of them, the innermost map of 1,980 keys", "one label"]
            }
            Merges => {
                ["500 merged nodes of one label and one key", "a label with a tuple of 4,000"]
            }
            Near => ["800 created nodes of two labels", "two labels, 1,300 Aparts of one of them"],
            Crowd => ["a created node of 1,000 labels, four times", "1,300 Aparts of one of them"],
            Long => ["a node of one label of 32,768 bytes, 4,086 times, and a key", "nothing"],
            InTurn => ["455 calls and 454 nodes in turn, the starts of nodes falling", "nothing"],
            Scattered => ["1,023 nodes of one label, all starts different", "nothing"],
            ScatteredFew => {
                ["584 nodes of one label, four times each, all starts different", "nothing"]
            }
            MostTwice => {
                ["two nodes of one label, 2,043 times each, the second starting first", "nothing"]
            }
            MostItems => ["a node of one label, 4,089 times", "nothing"],
            Labels => ["nothing", "1,024 labels in falling order"],
            Parameters => ["nothing", "1,024 parameters in falling order"],
            Endpoints => ["nothing", "a relationship type of 1,023 starts and 1,023 ends"],
            Colliding => ["nothing", "1,000 names of one chain, each a label and a type"],
            CollidingWholly => ["nothing", "1,000 names of one hash, each a label and a type"],
            CollidingLate => [
                "nothing",
                "1,000 names of one hash, alike in 24 of 32 bytes, each a label and a type",
            ],
        }
    }

    /// The statement and the schema.
    pub fn sheets(self) -> [Raw; 2] {
        let raw = |trees: [Tree; 2]| trees.map(|tree| tree.raw());
        let alone = |schema: Tree| raw([Tree::leaf(90, 0), schema]);
        match self {
            Undeclared => raw(papers::undeclared()),
            Declared => raw(papers::declared()),
            Properties => raw(papers::properties()),
            Tuple => raw(papers::tuple()),
            Tuples => raw(papers::tuples()),
            Aparts => raw(papers::aparts()),
            Calls => raw(papers::calls()),
            Maps => raw(papers::maps()),
            Breaches => raw(papers::breaches()),
            Falling => raw(papers::falling()),
            Repeated => papers::repeated(),
            Twins => papers::twins(),
            Collide => raw(papers::collide()),
            CollideWholly => raw(papers::collide_wholly()),
            CollideLate => raw(papers::collide_late()),
            CaseCalls => raw(papers::case_calls()),
            Again => papers::again(),
            AnyCase => raw(papers::any_case()),
            Single => raw(papers::single()),
            Double => raw(papers::double()),
            Nested => raw(papers::nested()),
            Merges => raw(papers::merges()),
            Near => raw(papers::near()),
            Crowd => raw(papers::crowd()),
            Long => papers::long(),
            InTurn => raw(papers::in_turn()),
            Scattered => raw(papers::scattered()),
            ScatteredFew => raw(papers::scattered_few()),
            MostTwice => raw(papers::most_twice()),
            MostItems => raw(papers::most_items()),
            Labels => alone(schemas::labels()),
            Parameters => alone(schemas::parameters()),
            Endpoints => alone(schemas::endpoints()),
            Colliding => alone(schemas::colliding()),
            CollidingWholly => alone(schemas::colliding_wholly()),
            CollidingLate => alone(schemas::colliding_late()),
        }
    }
}

#[cfg(test)]
mod tests {
    use super::*;
    use oracle::sheet::{read_schema, read_statement};

    #[test]
    fn every_pair_is_accepted() {
        for worst in Worst::all() {
            let [statement, schema] = worst.sheets().map(|sheet| sheet.bytes());
            let refused = read_statement(&statement).err().or(read_schema(&schema).err());
            assert_eq!(refused, None, "{worst:?}");
        }
    }

    #[test]
    fn words_name_papers() {
        for worst in Worst::all() {
            assert_eq!(Worst::of(&worst.word()), Some(worst));
        }
        assert_eq!(Worst::of("best"), None);
    }
}
