//! The public operations, and the refusals that each can give.

use oracle::join_run::join_refusals;
use oracle::sheet::Which;
use oracle::text_run::ROW_REFUSALS;
use oracle::thin_run::thin_refusals;

/// An operation of the archive.
#[derive(Clone, Copy, Debug, PartialEq, Eq)]
pub enum Operation {
    ReadStatement,
    ReadSchema,
    CheckSchemaAware,
    MarginList,
    Message,
    LabelNames,
    RelTypeNames,
    ParameterNames,
    RelationshipEndpoints,
    SchemaDigest,
    RowStatement,
    NextRow,
    JoinStatements,
    ThinStatement,
    ThinSchema,
}

use Operation::*;

pub const OPERATIONS: [Operation; 15] = [
    ReadStatement,
    ReadSchema,
    CheckSchemaAware,
    MarginList,
    Message,
    LabelNames,
    RelTypeNames,
    ParameterNames,
    RelationshipEndpoints,
    SchemaDigest,
    RowStatement,
    NextRow,
    JoinStatements,
    ThinStatement,
    ThinSchema,
];

impl Operation {
    /// Number and sheet of every refusal that 01 or 02 has for it. A schema has no
    /// token deep enough for 7.
    pub fn refusals(self) -> Vec<(u32, u32)> {
        let statement = (1..=9).map(|number| (number, 1));
        let schema = (1..=13).filter(|number| *number != 7).map(|number| (number, 2));
        let of = |lengths: &[u32]| lengths.iter().map(|number| (*number, 0)).collect::<Vec<_>>();
        match self {
            ReadStatement => statement.collect(),
            ReadSchema | SchemaDigest => schema.collect(),
            CheckSchemaAware | MarginList => statement.chain(schema).chain(of(&[14])).collect(),
            Message => statement.chain(schema).chain(of(&[15, 16])).collect(),
            LabelNames | RelTypeNames | ParameterNames | RelationshipEndpoints => {
                schema.chain(of(&[16])).collect()
            }
            RowStatement => ROW_REFUSALS.to_vec(),
            NextRow => of(&[17, 18]),
            JoinStatements => join_refusals().collect(),
            ThinStatement => thin_refusals(Which::Statement).collect(),
            ThinSchema => thin_refusals(Which::Schema).collect(),
        }
    }
}
