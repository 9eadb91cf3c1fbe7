//! A schema's declarations: document 01's schema sheet.
use super::writer::{count, flag, Token, Writer};
use super::{EncodeError, MAX_LISTS, MAX_PARAMETERS};

#[derive(Clone, Debug, Default, PartialEq, Eq)]
pub struct Schema {
    pub declarations: Vec<Declaration>,
}

#[derive(Clone, Debug, PartialEq, Eq)]
pub enum Declaration {
    Label {
        name: String,
        items: Vec<LabelItem>,
    },
    RelType {
        name: String,
        items: Vec<RelTypeItem>,
    },
    Parameter {
        name: String,
        ty: PropertyType,
        default: Option<String>,
    },
    /// Of several functions of a name, in either case of the 26 ASCII letters, the first counts.
    Function {
        name: String,
        parameters: u32,
        variadic: bool,
    },
    /// Of several procedures of a name, by its exact bytes, the first counts.
    Procedure {
        name: String,
        parameters: u32,
    },
    /// Two labels that can't share a node.
    Apart(String, String),
}

#[derive(Clone, Debug, PartialEq, Eq)]
pub enum LabelItem {
    Property(Property),
    /// Keys that are unique together.
    Tuple(Vec<String>),
}

#[derive(Clone, Debug, PartialEq, Eq)]
pub enum RelTypeItem {
    Property(Property),
    Tuple(Vec<String>),
    /// A label of the start; so of the end.
    Start(String),
    End(String),
}

#[derive(Clone, Debug, PartialEq, Eq)]
pub struct Property {
    pub name: String,
    pub ty: PropertyType,
    pub required: bool,
}

/// A base under so many lists: `List(Int)` is Int with 1.
#[derive(Clone, Copy, Debug, PartialEq, Eq)]
pub struct PropertyType {
    pub base: BaseType,
    pub lists: u32,
}

#[derive(Clone, Copy, Debug, PartialEq, Eq)]
pub enum BaseType {
    String,
    Int,
    Float,
    Bool,
    Date,
    Datetime,
    Enum,
    Opaque,
    Any,
}

impl From<BaseType> for PropertyType {
    fn from(base: BaseType) -> Self {
        PropertyType { base, lists: 0 }
    }
}

impl Token for Schema {
    fn kind(&self) -> u8 {
        100
    }

    fn value(&self) -> Result<u32, EncodeError> {
        count(&self.declarations)
    }

    fn children<'a>(&'a self, out: &mut Writer<'a>) -> Result<(), EncodeError> {
        out.write_all(&self.declarations)
    }
}

impl Token for Declaration {
    fn kind(&self) -> u8 {
        match self {
            Declaration::Label { .. } => 101,
            Declaration::RelType { .. } => 102,
            Declaration::Parameter { .. } => 103,
            Declaration::Function { .. } => 104,
            Declaration::Procedure { .. } => 105,
            Declaration::Apart(..) => 106,
        }
    }

    fn value(&self) -> Result<u32, EncodeError> {
        match self {
            Declaration::Label { items, .. } => count(items),
            Declaration::RelType { items, .. } => count(items),
            Declaration::Parameter { default, .. } => Ok(flag(default)),
            Declaration::Function { parameters, variadic, .. } => {
                if *parameters > MAX_PARAMETERS {
                    return Err(EncodeError::TooManyParameters(*parameters));
                }
                Ok(2 * parameters + u32::from(*variadic))
            }
            Declaration::Procedure { parameters, .. } => Ok(*parameters),
            Declaration::Apart(..) => Ok(0),
        }
    }

    fn children<'a>(&'a self, out: &mut Writer<'a>) -> Result<(), EncodeError> {
        match self {
            Declaration::Label { name, items } => {
                out.name(name)?;
                out.write_all(items)
            }
            Declaration::RelType { name, items } => {
                out.name(name)?;
                out.write_all(items)
            }
            Declaration::Parameter { name, ty, default } => {
                out.name(name)?;
                out.write(ty)?;
                default.iter().try_for_each(|default| out.name(default))
            }
            Declaration::Function { name, .. } | Declaration::Procedure { name, .. } => {
                out.name(name)
            }
            Declaration::Apart(one, other) => {
                out.name(one)?;
                out.name(other)
            }
        }
    }
}

impl Token for LabelItem {
    fn kind(&self) -> u8 {
        match self {
            LabelItem::Property(_) => 110,
            LabelItem::Tuple(_) => 111,
        }
    }

    fn value(&self) -> Result<u32, EncodeError> {
        match self {
            LabelItem::Property(property) => Ok(u32::from(property.required)),
            LabelItem::Tuple(names) => count(names),
        }
    }

    fn children<'a>(&'a self, out: &mut Writer<'a>) -> Result<(), EncodeError> {
        match self {
            LabelItem::Property(property) => property.write(out),
            LabelItem::Tuple(names) => out.names(names),
        }
    }
}

impl Token for RelTypeItem {
    fn kind(&self) -> u8 {
        match self {
            RelTypeItem::Property(_) => 110,
            RelTypeItem::Tuple(_) => 111,
            RelTypeItem::Start(_) => 112,
            RelTypeItem::End(_) => 113,
        }
    }

    fn value(&self) -> Result<u32, EncodeError> {
        match self {
            RelTypeItem::Property(property) => Ok(u32::from(property.required)),
            RelTypeItem::Tuple(names) => count(names),
            RelTypeItem::Start(_) | RelTypeItem::End(_) => Ok(0),
        }
    }

    fn children<'a>(&'a self, out: &mut Writer<'a>) -> Result<(), EncodeError> {
        match self {
            RelTypeItem::Property(property) => property.write(out),
            RelTypeItem::Tuple(names) => out.names(names),
            RelTypeItem::Start(label) | RelTypeItem::End(label) => out.name(label),
        }
    }
}

impl Property {
    /// What belongs to the token of a property.
    fn write<'a>(&'a self, out: &mut Writer<'a>) -> Result<(), EncodeError> {
        out.name(&self.name)?;
        out.write(&self.ty)
    }
}

impl Token for PropertyType {
    fn kind(&self) -> u8 {
        match self.base {
            BaseType::String => 120,
            BaseType::Int => 121,
            BaseType::Float => 122,
            BaseType::Bool => 123,
            BaseType::Date => 124,
            BaseType::Datetime => 125,
            BaseType::Enum => 126,
            BaseType::Opaque => 127,
            BaseType::Any => 128,
        }
    }

    fn value(&self) -> Result<u32, EncodeError> {
        if self.lists > MAX_LISTS {
            return Err(EncodeError::TooManyLists(self.lists));
        }
        Ok(self.lists)
    }

    fn children<'a>(&'a self, _: &mut Writer<'a>) -> Result<(), EncodeError> {
        Ok(())
    }
}
