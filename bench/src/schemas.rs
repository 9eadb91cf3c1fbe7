//! Schemas of a timing-plan graph with an exact number of declarations. Every
//! ten declarations are alike, so that cost grows with their number alone.

use oracle::tree::Tree;

/// A property: its name, the kind of its declared type, its list depth, and
/// the kind of a literal that it takes (a Param where no literal is one).
pub struct Property {
    pub name: &'static str,
    ty: u8,
    pub lists: u32,
    pub literal: u8,
}

const fn property(name: &'static str, ty: u8, lists: u32, literal: u8) -> Property {
    Property { name, ty, lists, literal }
}

/// All properties that labels and relationship types share.
pub const PROPERTIES: [Property; 16] = [
    property("site", 120, 0, 5),
    property("stage", 121, 0, 3),
    property("green", 121, 0, 3),
    property("offset", 122, 0, 4),
    property("active", 123, 0, 2),
    property("splits", 121, 1, 3),
    property("minGreen", 121, 0, 3),
    property("title", 120, 0, 5),
    property("cycle", 121, 0, 3),
    property("installed", 125, 0, 7),
    property("speed", 122, 0, 4),
    property("maxGreen", 121, 0, 3),
    property("mode", 126, 0, 5),
    property("amber", 121, 0, 3),
    property("note", 128, 0, 5),
    property("weight", 122, 0, 4),
];

/// A label or a relationship type, and what it declares. A label's first
/// property is its key, the one name of its tuple.
pub struct Owner {
    pub name: String,
    pub properties: Vec<&'static Property>,
}

/// A function or a procedure.
pub struct Callee {
    pub name: String,
    pub parameters: usize,
    pub variadic: bool,
}

/// What a schema declares, for papers to use.
#[derive(Default)]
pub struct Schema {
    pub labels: Vec<Owner>,
    pub rel_types: Vec<Owner>,
    pub functions: Vec<Callee>,
    pub procedures: Vec<Callee>,
    /// How many Aparts: number j is of labels 2j and 2j + 1.
    pub aparts: usize,
    parameters: usize,
}

/// The kinds of every ten declarations. Five have all that a paper uses but
/// an Apart.
const CYCLE: [u8; 10] = [101, 102, 101, 104, 105, 101, 102, 101, 106, 103];

const NOUNS: [&str; 20] = [
    "Junction",
    "Phase",
    "Stage",
    "Plan",
    "Detector",
    "Signal",
    "Corridor",
    "Approach",
    "Lane",
    "Crossing",
    "Loop",
    "Cabinet",
    "Controller",
    "Interval",
    "Demand",
    "Schedule",
    "Group",
    "Vehicle",
    "Region",
    "Sensor",
];
const SORTS: [&str; 10] =
    ["", "Peak", "Night", "Tram", "Bus", "Cycle", "School", "Event", "Winter", "Test"];
const VERBS: [&str; 10] = [
    "HAS_",
    "RUNS_",
    "SERVES_",
    "CONFLICTS_",
    "FOLLOWS_",
    "DETECTS_",
    "OWNS_",
    "FEEDS_",
    "LINKS_",
    "STARTS_",
];
const OBJECTS: [&str; 10] =
    ["PHASE", "STAGE", "PLAN", "SIGNAL", "LANE", "LOOP", "DEMAND", "GROUP", "REGION", "SENSOR"];
const ASKED: [&str; 10] =
    ["Seconds", "Green", "Cycle", "Offset", "Split", "Site", "Stage", "Total", "Share", "Delay"];
const ASKING: [&str; 5] = ["to", "least", "most", "mean", "next"];
const LOADED: [&str; 5] = ["plan.load.", "plan.check.", "plan.merge.", "site.lock.", "site.free."];

/// The name of a number: every first word with every second.
fn compose(first: &[&str], second: &[&str], number: usize) -> String {
    let turn = number / second.len();
    format!("{}{}", first[turn % first.len()], second[number % second.len()])
}

fn name_under(kind: u8, value: u32, text: &str, more: Vec<Tree>) -> Tree {
    let mut kids = vec![Tree::name(text)];
    kids.extend(more);
    Tree::new(kind, value, kids)
}

/// `count` properties, distinct, which turn with the owner's number.
fn turning(number: usize, count: usize) -> Vec<&'static Property> {
    (0..count).map(|k| &PROPERTIES[(number * 3 + k * 5) % PROPERTIES.len()]).collect()
}

fn declared(property: &Property, required: bool) -> Tree {
    let ty = Tree::leaf(property.ty, property.lists);
    name_under(110, u32::from(required), property.name, vec![ty])
}

impl Schema {
    /// The schema of so many declarations, and its tree.
    pub fn new(declarations: usize) -> (Self, Tree) {
        let mut schema = Schema::default();
        let kids = (0..declarations).map(|d| schema.declare(CYCLE[d % CYCLE.len()])).collect();
        (schema, Tree::new(100, declarations as u32, kids))
    }

    fn declare(&mut self, kind: u8) -> Tree {
        match kind {
            101 => self.label(),
            102 => self.rel_type(),
            103 => self.parameter(),
            104 => self.function(),
            105 => self.procedure(),
            _ => self.apart(),
        }
    }

    /// Two or three properties, of which the first is required, and its tuple.
    fn label(&mut self) -> Tree {
        let number = self.labels.len();
        let name = compose(&SORTS, &NOUNS, number);
        let properties = turning(number, 2 + number % 2);
        let mut items: Vec<Tree> =
            properties.iter().enumerate().map(|(k, p)| declared(p, k == 0)).collect();
        items.push(name_under(111, 1, properties[0].name, Vec::new()));
        let tree = name_under(101, items.len() as u32, &name, items);
        self.labels.push(Owner { name, properties });
        tree
    }

    /// One Start, one End, one property.
    fn rel_type(&mut self) -> Tree {
        let number = self.rel_types.len();
        let name = compose(&VERBS, &OBJECTS, number);
        let properties = turning(number, 1);
        let label = |turn: usize| self.labels[(number * 2 + turn) % self.labels.len()].name.clone();
        let items = vec![
            name_under(112, 0, &label(0), Vec::new()),
            name_under(113, 0, &label(1), Vec::new()),
            declared(properties[0], false),
        ];
        let tree = name_under(102, items.len() as u32, &name, items);
        self.rel_types.push(Owner { name, properties });
        tree
    }

    /// Every second one has a default.
    fn parameter(&mut self) -> Tree {
        let number = self.parameters;
        self.parameters += 1;
        let mut more = vec![Tree::leaf(121, 0)];
        if number % 2 == 1 {
            more.push(Tree::name("30"));
        }
        let value = more.len() as u32 - 1;
        name_under(103, value, &compose(&SORTS, &ASKED, number), more)
    }

    fn function(&mut self) -> Tree {
        let number = self.functions.len();
        let name = compose(&ASKING, &ASKED, number);
        let (parameters, variadic) = (1 + number % 3, number % 5 == 4);
        let tree = name_under(104, 2 * parameters as u32 + u32::from(variadic), &name, Vec::new());
        self.functions.push(Callee { name, parameters, variadic });
        tree
    }

    fn procedure(&mut self) -> Tree {
        let number = self.procedures.len();
        let name = compose(&LOADED, &ASKED, number);
        let parameters = 1 + number % 4;
        let tree = name_under(105, parameters as u32, &name, Vec::new());
        self.procedures.push(Callee { name, parameters, variadic: false });
        tree
    }

    fn apart(&mut self) -> Tree {
        let pair = [2 * self.aparts, 2 * self.aparts + 1];
        self.aparts += 1;
        Tree::new(106, 0, pair.map(|label| Tree::name(&self.labels[label].name)).to_vec())
    }
}
