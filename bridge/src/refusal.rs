//! Why an operation turned its bytes down.
use crate::raw::Reply;
use std::fmt;

/// The sheet that a refusal is about.
#[derive(Clone, Copy, Debug, PartialEq, Eq)]
pub enum Sheet {
    Neither,
    /// The statement's; where two are joined, the first.
    Statement,
    Schema,
    /// The second of two statements that are joined.
    Second,
}

impl Sheet {
    /// Its number in documents 01 and 02.
    pub fn number(self) -> u32 {
        match self {
            Sheet::Neither => 0,
            Sheet::Statement => 1,
            Sheet::Schema | Sheet::Second => 2,
        }
    }
}

/// Number 1 to 20, sheet and place, as in documents 01 and 02. What was lent is then as it came.
#[derive(Clone, Copy, Debug, PartialEq, Eq)]
pub struct Refusal {
    pub number: u32,
    pub sheet: Sheet,
    /// The number of a name for 4 and 5, of a token for 6 to 13, else 0.
    pub place: u32,
}

impl Refusal {
    /// The count of a reply that accepts, or its refusal.
    pub(crate) fn or_count(reply: Reply) -> Result<u32, Refusal> {
        if reply.number == 0 {
            return Ok(reply.count);
        }
        let sheet = match reply.sheet {
            1 => Sheet::Statement,
            2 => Sheet::Schema,
            _ => Sheet::Neither,
        };
        Err(Refusal { number: reply.number, sheet, place: reply.place })
    }

    /// The refusal of an operation over two statements, whose sheet 2 is no schema.
    pub(crate) fn of_two_statements(self) -> Self {
        match self.sheet {
            Sheet::Schema => Refusal { sheet: Sheet::Second, ..self },
            _ => self,
        }
    }

    /// What documents 01 and 02 mean by the number.
    pub fn meaning(&self) -> &'static str {
        match self.number {
            1 => "it has fewer than 12 bytes",
            2 => "a size is outside its range: 1 to 4,096 tokens, 0 to 1,024 names, 0 to 32,768 bytes of text",
            3 => "its length is not the one that its sizes give",
            4 => "the ends of its names fall, pass the text or stop short of it",
            5 => "a name is not UTF-8",
            6 => "a kind or value is not allowed here",
            7 => "a token is more than 64 deep",
            8 => "the tokens run out",
            9 => "tokens are left over",
            10 => "a label is declared again",
            11 => "a relationship type is declared again",
            12 => "a parameter is declared again",
            13 => "labels that are held apart are equal",
            14 => "there are more items than the list has room for",
            15 => "there is no item of that number",
            16 => "what would be written is longer than the buffer",
            17 => "the text breaks RFC 4180",
            18 => "there is no such row, or it has not as many cells as the header",
            19 => "the row's sheet would pass a limit",
            20 => "the joined sheet would pass a size limit",
            _ => "the number is none of the documents'",
        }
    }
}

impl fmt::Display for Refusal {
    fn fmt(&self, f: &mut fmt::Formatter<'_>) -> fmt::Result {
        write!(f, "refused {}", self.number)?;
        match self.sheet {
            Sheet::Neither => {}
            Sheet::Statement => write!(f, ", statement sheet")?,
            Sheet::Schema => write!(f, ", schema sheet")?,
            Sheet::Second => write!(f, ", second statement sheet")?,
        }
        match self.number {
            4 | 5 => write!(f, ", name {}", self.place)?,
            6..=13 => write!(f, ", token {}", self.place)?,
            _ => {}
        }
        write!(f, ": {}", self.meaning())
    }
}

impl std::error::Error for Refusal {}
