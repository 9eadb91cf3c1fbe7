//! Asks every operation of the archive about a pair and holds the answers,
//! and all memory lent, against what the oracle knows.

use std::fmt::{self, Debug, Display, Formatter};
use std::hint::black_box;

use nurbellat::raw::{self, Reply, RowAt};
use oracle::compare::Difference;
use oracle::joins::JoinCase;
use oracle::rng::Rng;
use oracle::run::Case;
use oracle::sheet::Refusal;
use oracle::store_answers::{FNV_START, digest, fnv1a};
use oracle::texts::TextCase;

use crate::count::Count;
use crate::known::{Known, reply};
use crate::lengths::{Room, of_buffer, of_items, of_list, of_texts};
use crate::lent::Lent;
use crate::notice::Change;
use crate::operation::Operation::{self, *};

/// All memory lent to the archive, and the digest and the row it gave.
#[derive(Default)]
pub struct Memory {
    /// A pair's, or the first of two that are joined.
    pub statement: Lent<u8>,
    pub second: Lent<u8>,
    pub schema: Lent<u8>,
    /// Comma-separated text.
    pub plan: Lent<u8>,
    pub label: Lent<u8>,
    pub list: Lent<u32>,
    pub text: Lent<u8>,
    pub digest: [u8; 32],
    pub row: RowAt,
}

/// What is lent only for reading.
#[derive(Clone, Copy)]
pub(crate) enum Read<'a> {
    Pair(&'a Case),
    Text(&'a TextCase),
    Join(&'a JoinCase),
}

impl Memory {
    /// What is wrong with it.
    fn read_fault(&self, read: Read) -> Option<(&'static str, String)> {
        let faults = match read {
            Read::Pair(Case { statement, schema, .. }) => [
                ("statement", self.statement.fault(statement)),
                ("schema", self.schema.fault(schema)),
            ],
            Read::Text(TextCase { text, label, .. }) => {
                [("plan", self.plan.fault(text)), ("label", self.label.fault(label))]
            }
            Read::Join(JoinCase { first, second, .. }) => {
                [("first", self.statement.fault(first)), ("second", self.second.fault(second))]
            }
        };
        faults.into_iter().find_map(|(what, fault)| Some((what, fault?)))
    }
}

/// One call, as a difference names it.
pub(crate) struct Call<'a> {
    pub operation: Operation,
    pub lent: usize,
    pub item: Option<u32>,
    /// A row's number, or where one begins.
    pub at: Option<usize>,
    pub rel_type: Option<&'a [u8]>,
}

impl Call<'_> {
    pub fn of(operation: Operation, lent: usize) -> Self {
        Call { operation, lent, item: None, at: None, rel_type: None }
    }
}

impl Display for Call<'_> {
    fn fmt(&self, out: &mut Formatter<'_>) -> fmt::Result {
        write!(out, "{:?}, {} places lent", self.operation, self.lent)?;
        if let Some(k) = self.item {
            write!(out, ", item {k}")?;
        }
        if let Some(at) = self.at {
            write!(out, ", row at {at}")?;
        }
        match self.rel_type {
            Some(text) => write!(out, ", RelType \"{}\"", text.escape_ascii()),
            None => Ok(()),
        }
    }
}

/// What has to come: the answer, and what stands in the memory lent. None is
/// memory that the call does not get.
pub(crate) struct Wanted<'a> {
    pub answer: Result<usize, Refusal>,
    pub list: Option<&'a [u32]>,
    pub text: Option<&'a [u8]>,
    pub digest: Option<[u8; 32]>,
    pub row: Option<RowAt>,
}

impl Wanted<'_> {
    pub fn answer(answer: Result<usize, Refusal>) -> Self {
        Wanted { answer, list: None, text: None, digest: None, row: None }
    }
}

impl<'a> Wanted<'a> {
    /// A sheet is written into the text lent.
    pub fn sheet(sheet: Result<&'a [u8], Refusal>) -> Self {
        let text = Some(sheet.unwrap_or_default());
        Wanted { text, ..Wanted::answer(sheet.map(<[u8]>::len)) }
    }
}

pub type Asked = Result<(), Difference>;

/// An operation that lists a pair's items.
pub(crate) type ListItems = fn(&[u8], &[u8], &mut [u32]) -> Reply;

/// Asks, counts, and where `change` is given changes what the archive gave.
#[derive(Default)]
pub struct Asker {
    pub count: Count,
    change: Option<&'static Change>,
    pub(crate) memory: Memory,
    pub(crate) salt: u64,
}

impl Asker {
    pub fn new(change: Option<&'static Change>) -> Self {
        Asker { change, ..Asker::default() }
    }

    /// Every operation on one pair. The lengths asked for and the pattern
    /// depend on the two sheets alone.
    pub fn pair(&mut self, case: &Case) -> Asked {
        let known = Known::new(case, self.count.tally.take(case)?);
        self.salt = fnv1a(fnv1a(FNV_START, &case.statement), &case.schema);
        let salt = self.next_salt();
        self.memory.statement.hold(&case.statement, salt);
        let salt = self.next_salt();
        self.memory.schema.hold(&case.schema, salt);
        let room = Room::of(case.statement.len() + case.schema.len());
        let mut rng = Rng::new(self.salt, 0);
        self.read_both(&known)?;
        for places in of_list(known.item_count(), room, &mut rng) {
            self.list(&known, CheckSchemaAware, places)?;
            self.list(&known, MarginList, places)?;
        }
        self.messages(&known, room, &mut rng)?;
        self.all_names(&known, &mut rng)?;
        self.all_endpoints(&known, room, &mut rng)?;
        self.digest(&known)?;
        self.convert_both(&known, &mut rng)
    }

    /// A new pattern for each memory.
    pub(crate) fn next_salt(&mut self) -> u64 {
        self.salt =
            self.salt.wrapping_mul(0x5851_f42d_4c95_7f2d).wrapping_add(0x1405_7b7e_f767_814f);
        self.salt
    }

    fn read_both(&mut self, known: &Known) -> Asked {
        let given = raw::read_statement(self.memory.statement.held());
        let answer = known.read_statement().map(|_| 0);
        self.settle(known, &Call::of(ReadStatement, 0), given, Wanted::answer(answer))?;
        let given = raw::read_schema(self.memory.schema.held());
        let answer = known.read_schema().map(|_| 0);
        self.settle(known, &Call::of(ReadSchema, 0), given, Wanted::answer(answer))
    }

    /// The items in one order or the other.
    fn list(&mut self, known: &Known, operation: Operation, places: usize) -> Asked {
        let (ask, numbers): (ListItems, _) = match operation {
            MarginList => (raw::margin_list, &known.margin),
            _ => (raw::check_schema_aware, &known.numbers),
        };
        let salt = self.next_salt();
        let Memory { statement, schema, list, .. } = &mut self.memory;
        list.fill(places, salt);
        let given = ask(statement.held(), schema.held(), list.places());
        let answer = known.list(places);
        let list = if answer.is_ok() { &numbers[..] } else { &[] };
        let wanted = Wanted { list: Some(list), ..Wanted::answer(answer) };
        self.settle(known, &Call::of(operation, places), given, wanted)
    }

    /// Messages of items, and of two that are not there.
    fn messages(&mut self, known: &Known, room: Room, rng: &mut Rng) -> Asked {
        let count = known.item_count();
        for k in of_items(count, room, rng) {
            let full = known.message(k, usize::MAX).map_or(0, |text| text.len());
            for bytes in of_buffer(full, 1, rng) {
                self.message(known, k, bytes)?;
            }
            self.count.messages += 1;
        }
        for k in [count as u32, u32::MAX] {
            self.message(known, k, 0)?;
            self.message(known, k, 1 + rng.below(100))?;
        }
        Ok(())
    }

    fn message(&mut self, known: &Known, k: u32, bytes: usize) -> Asked {
        let salt = self.next_salt();
        let Memory { statement, schema, text, .. } = &mut self.memory;
        text.fill(bytes, salt);
        let given = raw::message(statement.held(), schema.held(), k, text.places());
        let message = known.message(k, bytes);
        let answer = message.as_ref().map(Vec::len).map_err(|refusal| *refusal);
        let text = message.unwrap_or_default();
        let call = Call { item: Some(k), ..Call::of(Message, bytes) };
        let wanted = Wanted { text: Some(&text), ..Wanted::answer(answer) };
        self.settle(known, &call, given, wanted)
    }

    fn all_names(&mut self, known: &Known, rng: &mut Rng) -> Asked {
        for (operation, kind) in [(LabelNames, 101), (RelTypeNames, 102), (ParameterNames, 103)] {
            let full = known.names(kind, usize::MAX).map_or(0, |names| names.len());
            for places in of_buffer(full, 1, rng) {
                self.names(known, operation, kind, places)?;
            }
        }
        Ok(())
    }

    fn names(&mut self, known: &Known, operation: Operation, kind: u8, places: usize) -> Asked {
        let ask = match operation {
            LabelNames => raw::label_names,
            RelTypeNames => raw::rel_type_names,
            _ => raw::parameter_names,
        };
        let salt = self.next_salt();
        let Memory { schema, list, .. } = &mut self.memory;
        list.fill(places, salt);
        let given = ask(schema.held(), list.places());
        let names = known.names(kind, places);
        let answer = names.as_ref().map(Vec::len).map_err(|refusal| *refusal);
        let list = names.unwrap_or_default();
        let wanted = Wanted { list: Some(&list), ..Wanted::answer(answer) };
        self.settle(known, &Call::of(operation, places), given, wanted)
    }

    fn all_endpoints(&mut self, known: &Known, room: Room, rng: &mut Rng) -> Asked {
        for rel_type in of_texts(known.read_schema().ok(), room, rng) {
            let full = known.endpoints(&rel_type, usize::MAX).map_or(0, |pairs| 2 * pairs.len());
            for places in of_buffer(full, 2, rng) {
                self.endpoints(known, &rel_type, places)?;
            }
        }
        Ok(())
    }

    fn endpoints(&mut self, known: &Known, rel_type: &[u8], places: usize) -> Asked {
        let (of_text, of_list) = (self.next_salt(), self.next_salt());
        let Memory { schema, list, text, .. } = &mut self.memory;
        text.hold(rel_type, of_text);
        list.fill(places, of_list);
        let given = raw::relationship_endpoints(schema.held(), text.held(), list.places());
        let pairs = known.endpoints(rel_type, places);
        let answer = pairs.as_ref().map(Vec::len).map_err(|refusal| *refusal);
        let list = pairs.unwrap_or_default();
        let list = Some(list.as_flattened());
        let wanted = Wanted { list, text: Some(rel_type), ..Wanted::answer(answer) };
        let call = Call { rel_type: Some(rel_type), ..Call::of(RelationshipEndpoints, places) };
        self.settle(known, &call, given, wanted)
    }

    fn digest(&mut self, known: &Known) -> Asked {
        let given = raw::schema_digest(self.memory.schema.held());
        self.memory.digest = given.bytes;
        let bytes = known.read_schema().map(digest);
        let answer = bytes.map(|bytes| bytes.len());
        let wanted = Wanted { digest: Some(bytes.unwrap_or([0; 32])), ..Wanted::answer(answer) };
        self.settle(known, &Call::of(SchemaDigest, 0), given.reply, wanted)
    }

    /// Holds one answer about a pair against what has to come.
    pub(crate) fn settle(
        &mut self,
        known: &Known,
        call: &Call,
        given: Reply,
        wanted: Wanted,
    ) -> Asked {
        self.settle_read(Read::Pair(known.case), call, given, wanted)
    }

    /// Holds one answer against what has to come.
    pub(crate) fn settle_read(
        &mut self,
        read: Read,
        call: &Call,
        mut given: Reply,
        wanted: Wanted,
    ) -> Asked {
        if let Some(change) = self.change {
            change.apply(call.operation, &mut given, &mut self.memory);
        }
        let answer = reply(wanted.answer);
        self.count.call(call.operation, &answer);
        if given != answer {
            return Err(Difference(format!("{call}\n  Rattle {given:?}\n  oracle {answer:?}")));
        }
        // Behind a black box: what was lent only for reading is looked at again.
        let memory = black_box(&mut self.memory);
        let Memory { list, text, digest, row, .. } = &*memory;
        let written = [
            ("list", wanted.list.and_then(|numbers| list.fault(numbers))),
            ("text", wanted.text.and_then(|bytes| text.fault(bytes))),
            ("digest", other(wanted.digest.as_ref(), digest)),
            ("row", other(wanted.row.as_ref(), row)),
        ];
        let written = written.into_iter().find_map(|(what, fault)| Some((what, fault?)));
        match memory.read_fault(read).or(written) {
            Some((what, fault)) => {
                Err(Difference(format!("{call}\n  {given:?}\n  {what}, {fault}")))
            }
            None => Ok(()),
        }
    }
}

/// What is wrong where another value was wanted.
fn other<T: PartialEq + Debug>(wanted: Option<&T>, given: &T) -> Option<String> {
    let wanted = wanted.filter(|wanted| *wanted != given)?;
    Some(format!("Rattle {given:?}, oracle {wanted:?}"))
}
