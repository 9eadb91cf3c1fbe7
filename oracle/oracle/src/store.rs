//! From a schema sheet to a provider that wraps `InMemorySchema` and adds
//! tuples, functions, procedures and Apart as 01's "The store's answers" says;
//! functions are found in either case of the 26 letters, as 02 says.

use cyrs_schema::{
    BuilderError, EndpointDecl, FnCategories, FunctionSignature, InMemorySchema, ParamDecl,
    ProcMode, ProcedureSignature, PropertyDecl, PropertyType, RelDecl, ReturnTy, SchemaProvider,
};
use smol_str::SmolStr;

use crate::items::function_shape;
use crate::sheet::Sheet;

/// A signature gives its parameters one by one, and a vector of two thousand
/// million has no room. More than any sheet has tokens, and so arguments, are
/// given as this many: the breach is the same, the number in it is not.
pub const MOST_PARAMETERS: u32 = 4_096;

type Tuples = Vec<(SmolStr, Vec<SmolStr>)>;

/// What stands for a name where functions are looked up.
type Fold = fn(&str) -> String;

struct Function {
    folded: String,
    name: SmolStr,
    parameters: u32,
    variadic: bool,
}

/// `InMemorySchema` and what it does not hold.
pub struct Store {
    pub inner: InMemorySchema,
    label_tuples: Tuples,
    rel_type_tuples: Tuples,
    functions: Vec<Function>,
    fold: Fold,
    procedures: Vec<(SmolStr, u32)>,
    apart: Vec<(SmolStr, SmolStr)>,
}

/// The store of a sheet that passed 1 to 9, or the builder's duplicate.
pub fn store(sheet: &Sheet) -> Result<Store, BuilderError> {
    store_by(str::to_ascii_lowercase, sheet)
}

/// The same with functions found by exact bytes, as before request 2.5.
pub fn exact_store(sheet: &Sheet) -> Result<Store, BuilderError> {
    store_by(str::to_owned, sheet)
}

fn store_by(fold: Fold, sheet: &Sheet) -> Result<Store, BuilderError> {
    let of = |kind: u8| sheet.kids_of_kind(0, kind).into_iter();
    let first = |token: usize| name(sheet, sheet.kids(token)[0]);
    let functions = of(104).map(|token| {
        let (parameters, variadic) = function_shape(sheet, token);
        let name = first(token);
        Function { folded: fold(&name), name, parameters, variadic }
    });
    let apart = of(106).map(|token| (first(token), name(sheet, sheet.kids(token)[1])));
    Ok(Store {
        inner: in_memory(sheet)?,
        label_tuples: tuples(sheet, 101),
        rel_type_tuples: tuples(sheet, 102),
        functions: functions.collect(),
        fold,
        procedures: of(105).map(|token| (first(token), sheet.value(token))).collect(),
        apart: apart.collect(),
    })
}

fn name(sheet: &Sheet, token: usize) -> SmolStr {
    SmolStr::new(sheet.text(token))
}

/// What `InMemorySchema`'s builder makes of the declarations, in their order.
pub fn in_memory(sheet: &Sheet) -> Result<InMemorySchema, BuilderError> {
    let mut builder = InMemorySchema::builder();
    for token in sheet.kids(0).iter().copied() {
        let kids = sheet.kids(token);
        builder = match sheet.kind(token) {
            101 => builder.add_label(name(sheet, kids[0]), properties(sheet, token)),
            102 => builder.add_rel_type(rel_type(sheet, token)),
            103 => builder.add_parameter(ParamDecl {
                name: name(sheet, kids[0]),
                ty: property_type(sheet, kids[1]),
                default: kids.get(2).map(|default| name(sheet, *default)),
            }),
            _ => builder,
        };
    }
    builder.build()
}

fn rel_type(sheet: &Sheet, token: usize) -> RelDecl {
    let side = |kind: u8| {
        let items = sheet.kids_of_kind(token, kind).into_iter();
        items.map(|item| name(sheet, sheet.kids(item)[0])).collect()
    };
    RelDecl {
        name: name(sheet, sheet.kids(token)[0]),
        start_labels: side(112),
        end_labels: side(113),
        properties: properties(sheet, token),
    }
}

fn properties(sheet: &Sheet, token: usize) -> Vec<PropertyDecl> {
    let items = sheet.kids_of_kind(token, 110).into_iter();
    let property = |item: usize| {
        let kids = sheet.kids(item);
        let required = sheet.value(item) == 1;
        PropertyDecl::new(name(sheet, kids[0]), property_type(sheet, kids[1]), required)
    };
    items.map(property).collect()
}

fn property_type(sheet: &Sheet, token: usize) -> PropertyType {
    let base = match sheet.kind(token) {
        120 => PropertyType::String,
        121 => PropertyType::Int,
        122 => PropertyType::Float,
        123 => PropertyType::Bool,
        124 => PropertyType::Date,
        125 => PropertyType::Datetime,
        126 => PropertyType::Enum("Enum".into(), vec!["one".into(), "two".into()]),
        127 => PropertyType::Opaque("Opaque".into()),
        _ => PropertyType::Any,
    };
    (0..sheet.value(token)).fold(base, |inner, _| PropertyType::List(Box::new(inner)))
}

fn tuples(sheet: &Sheet, kind: u8) -> Tuples {
    let mut found = Vec::new();
    for token in sheet.kids_of_kind(0, kind) {
        for tuple in sheet.kids_of_kind(token, 111) {
            let names = sheet.names_under(tuple).into_iter().map(|n| name(sheet, n)).collect();
            found.push((name(sheet, sheet.kids(token)[0]), names));
        }
    }
    found
}

fn tuples_of(tuples: &Tuples, name: &str) -> Vec<Vec<SmolStr>> {
    let of_name = tuples.iter().filter(|(owner, _)| owner == name);
    of_name.map(|(_, names)| names.clone()).collect()
}

fn parameter() -> ParamDecl {
    ParamDecl { name: "parameter".into(), ty: PropertyType::Any, default: None }
}

fn parameters(count: u32) -> Vec<ParamDecl> {
    vec![parameter(); count.min(MOST_PARAMETERS) as usize]
}

impl SchemaProvider for Store {
    fn labels(&self) -> Vec<SmolStr> {
        self.inner.labels()
    }

    fn relationship_types(&self) -> Vec<SmolStr> {
        self.inner.relationship_types()
    }

    fn labels_compatible(&self, labels: &[SmolStr]) -> Option<bool> {
        let given = |label: &SmolStr| labels.contains(label);
        let apart = self.apart.iter().any(|(one, other)| given(one) && given(other));
        apart.then_some(false)
    }

    fn node_properties(&self, label: &str) -> Option<Vec<PropertyDecl>> {
        self.inner.node_properties(label)
    }

    fn relationship_properties(&self, rel_type: &str) -> Option<Vec<PropertyDecl>> {
        self.inner.relationship_properties(rel_type)
    }

    fn relationship_endpoints(&self, rel_type: &str) -> Vec<EndpointDecl> {
        self.inner.relationship_endpoints(rel_type)
    }

    fn inverse_of(&self, rel_type: &str) -> Option<SmolStr> {
        self.inner.inverse_of(rel_type)
    }

    fn label_unique_props(&self, label: &str) -> Vec<Vec<SmolStr>> {
        tuples_of(&self.label_tuples, label)
    }

    fn rel_type_unique_props(&self, rel_type: &str) -> Vec<Vec<SmolStr>> {
        tuples_of(&self.rel_type_tuples, rel_type)
    }

    fn function(&self, name: &str) -> Option<FunctionSignature> {
        let folded = (self.fold)(name);
        let found = self.functions.iter().find(|function| function.folded == folded)?;
        Some(FunctionSignature {
            name: found.name.clone(),
            params: parameters(found.parameters),
            variadic: found.variadic.then(parameter),
            return_ty: ReturnTy::Constant(PropertyType::Any),
            categories: FnCategories { pure: true, aggregate: false, deterministic: true },
            deterministic: true,
            null_propagating: true,
        })
    }

    fn procedure(&self, name: &str) -> Option<ProcedureSignature> {
        let (name, count) = self.procedures.iter().find(|(n, _)| n == name)?;
        Some(ProcedureSignature {
            name: name.clone(),
            params: parameters(*count),
            yields: Vec::new(),
            mode: ProcMode::Read,
        })
    }

    fn schema_digest(&self) -> [u8; 32] {
        self.inner.schema_digest()
    }
}
