//! Why a call is refused.
use crate::numbers;
use std::fmt;

/// Why a call is refused.
#[derive(Clone, Copy, Debug, PartialEq, Eq, Hash)]
#[non_exhaustive]
pub enum Refusal {
    /// broken number
    Broken,
    /// schema value, form or limit
    Schema,
    /// ambiguous model
    Ambiguous,
    /// no shape, or bad piece
    Shape,
    /// too large, or no room
    Room,
    /// operation or place
    Place,
    /// name
    Name,
    /// attributes
    Attributes,
    /// content
    Content,
    /// root
    Root,
    /// ID twice
    IdTwice,
    /// reference to none
    NoId,
    /// table
    Table,
    /// DTD text
    DtdText,
    /// counts
    Counts,
    /// kind not compared
    NotCompared,
    /// an answer that this binding does not know, of a newer library
    Unknown(u32),
    /// nothing was called: a library of this version does not serve this binding ([`serves`](crate::serves))
    Version(u32),
}

impl Refusal {
    /// Every refusal that has a number of its own, by that number.
    pub const ALL: &'static [Refusal] = &[
        Refusal::Broken,
        Refusal::Schema,
        Refusal::Ambiguous,
        Refusal::Shape,
        Refusal::Room,
        Refusal::Place,
        Refusal::Name,
        Refusal::Attributes,
        Refusal::Content,
        Refusal::Root,
        Refusal::IdTwice,
        Refusal::NoId,
        Refusal::Table,
        Refusal::DtdText,
        Refusal::Counts,
        Refusal::NotCompared,
    ];

    /// The answer's number; none if nothing was called.
    pub fn number(self) -> Option<u32> {
        Some(match self {
            Refusal::Broken => numbers::BROKEN,
            Refusal::Schema => numbers::SCHEMA,
            Refusal::Ambiguous => numbers::AMBIGUOUS,
            Refusal::Shape => numbers::SHAPE,
            Refusal::Room => numbers::ROOM,
            Refusal::Place => numbers::PLACE,
            Refusal::Name => numbers::NAME,
            Refusal::Attributes => numbers::ATTRIBUTES,
            Refusal::Content => numbers::CONTENT,
            Refusal::Root => numbers::ROOT,
            Refusal::IdTwice => numbers::ID_TWICE,
            Refusal::NoId => numbers::NO_ID,
            Refusal::Table => numbers::TABLE,
            Refusal::DtdText => numbers::DTD_TEXT,
            Refusal::Counts => numbers::COUNTS,
            Refusal::NotCompared => numbers::NOT_COMPARED,
            Refusal::Unknown(number) => number,
            Refusal::Version(_) => return None,
        })
    }

    /// The refusal in words, which are `shrike_words`'s.
    pub fn words(self) -> &'static str {
        match self {
            Refusal::Broken => "broken number",
            Refusal::Schema => "schema value, form or limit",
            Refusal::Ambiguous => "ambiguous model",
            Refusal::Shape => "no shape, or bad piece",
            Refusal::Room => "too large, or no room",
            Refusal::Place => "operation or place",
            Refusal::Name => "name",
            Refusal::Attributes => "attributes",
            Refusal::Content => "content",
            Refusal::Root => "root",
            Refusal::IdTwice => "ID twice",
            Refusal::NoId => "reference to none",
            Refusal::Table => "table",
            Refusal::DtdText => "DTD text",
            Refusal::Counts => "counts",
            Refusal::NotCompared => "kind not compared",
            Refusal::Unknown(_) => "unknown answer",
            Refusal::Version(_) => "library of another version",
        }
    }

    /// Whether a place goes with it.
    pub fn has_place(self) -> bool {
        matches!(self, Refusal::Name | Refusal::Attributes | Refusal::Content | Refusal::Root | Refusal::IdTwice | Refusal::NoId)
    }

    /// What a number says.
    pub(crate) fn of(number: u32) -> Result<(), Refusal> {
        if number == numbers::DONE {
            return Ok(());
        }
        let known = Refusal::ALL.iter().find(|refusal| refusal.number() == Some(number));
        Err(known.copied().unwrap_or(Refusal::Unknown(number)))
    }
}

impl fmt::Display for Refusal {
    fn fmt(&self, f: &mut fmt::Formatter<'_>) -> fmt::Result {
        f.write_str(self.words())
    }
}

impl std::error::Error for Refusal {}

/// A refusal by a table, and where: the index of a token, 0 where the refusal has no place. For [`Refusal::Content`] it is the first child or
/// text at which no valid content can begin that way, or the end of the element if its children stop too early.
#[derive(Clone, Copy, Debug, PartialEq, Eq, Hash)]
pub struct Fault {
    /// why
    pub refusal: Refusal,
    /// where
    pub place: usize,
}

impl From<Refusal> for Fault {
    /// The refusal at place 0.
    fn from(refusal: Refusal) -> Fault {
        Fault { refusal, place: 0 }
    }
}

impl Fault {
    pub(crate) fn of(number: u32, place: u32) -> Result<(), Fault> {
        let place = place as usize;
        Refusal::of(number).map_err(|refusal| Fault { refusal, place })
    }
}

/// The refusal of a group of edits.
#[derive(Clone, Copy, Debug, PartialEq, Eq, Hash)]
pub struct GroupFault {
    /// why; and where, if it is the last document's
    pub fault: Fault,
    /// the edit that was refused, from 1; none if it is the group itself or its last document
    pub which: Option<usize>,
}

impl From<Refusal> for GroupFault {
    /// The refusal of a group itself.
    fn from(refusal: Refusal) -> GroupFault {
        GroupFault { fault: refusal.into(), which: None }
    }
}

impl fmt::Display for GroupFault {
    fn fmt(&self, f: &mut fmt::Formatter<'_>) -> fmt::Result {
        self.fault.fmt(f)?;
        if let Some(which) = self.which {
            write!(f, ", edit {which}")?;
        }
        Ok(())
    }
}

impl std::error::Error for GroupFault {}

impl fmt::Display for Fault {
    fn fmt(&self, f: &mut fmt::Formatter<'_>) -> fmt::Result {
        self.refusal.fmt(f)?;
        if self.refusal.has_place() {
            write!(f, " at {}", self.place)?;
        }
        Ok(())
    }
}

impl std::error::Error for Fault {}
