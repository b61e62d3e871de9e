//! DTD texts: the schema file, the names, and where a text is refused.
use crate::{raw, served, Refusal};
use std::fmt;

/// Writes the schema file of a DTD's text into the first bytes of `file`: how many bytes it has. Later bytes keep their contents.
/// [`MOST_SCHEMA_FILE`](crate::MOST_SCHEMA_FILE) bytes are always enough.
///
/// ```
/// use shrikemuff::{import, import_spot, names, Refusal, Table, MOST_SCHEMA_FILE};
///
/// let text = b"<!ELEMENT shade (panel+)>\n<!ELEMENT panel EMPTY>\n<!ATTLIST panel id ID #REQUIRED>\n";
/// let mut file = [0; MOST_SCHEMA_FILE];
/// let length = import(text, &mut file).unwrap();
/// assert_eq!(file[..length], [2, 0, 2, 2, 4, 6, 0, 0, 1, 0, 1, 0]);
/// assert_eq!(Table::translate(&file[..length]).unwrap().words()[0], 2);
///
/// let mut list = vec![0; text.len()]; // always enough
/// let length = names(text, &mut list).unwrap();
/// assert_eq!(&list[..length], b"shade\npanel\nid\n");
///
/// let text = b"<!ELEMENT shade (panel+)>\n<!ELEMENT panel ANY>\n"; // ANY is outside the subset
/// assert_eq!(import(text, &mut file), Err(Refusal::DtdText));
/// let spot = import_spot(text).unwrap_err();
/// assert_eq!((spot.refusal, spot.offset), (Refusal::DtdText, 42));
/// assert_eq!(spot.line_and_column(text), (2, 17));
/// ```
pub fn import(text: &[u8], file: &mut [u8]) -> Result<usize, Refusal> {
    served()?;
    // SAFETY: each slice is a pointer to as many elements as its length says; a `&mut` overlaps nothing else.
    let r = unsafe { raw::shrike_import(text.as_ptr(), text.len(), file.as_mut_ptr(), file.len()) };
    Refusal::of(r.number).map(|()| r.count as usize)
}

/// Writes the names of a DTD's text into the first bytes of `names`, each ended by a line feed, those of the elements by number and then those
/// of the attributes: how many bytes they take. Later bytes keep their contents. As many bytes as the text has are always enough.
pub fn names(text: &[u8], names: &mut [u8]) -> Result<usize, Refusal> {
    served()?;
    // SAFETY: as in `import`.
    let r = unsafe { raw::shrike_names(text.as_ptr(), text.len(), names.as_mut_ptr(), names.len()) };
    Refusal::of(r.number).map(|()| r.count as usize)
}

/// Whether a DTD's text is taken; else why not, and where.
pub fn import_spot(text: &[u8]) -> Result<(), Spot> {
    served()?;
    // SAFETY: as in `import`.
    let r = unsafe { raw::shrike_import_spot(text.as_ptr(), text.len()) };
    Refusal::of(r.number).map_err(|refusal| Spot { refusal, offset: r.offset as usize })
}

/// Why a DTD's text is refused, and where.
#[derive(Clone, Copy, Debug, PartialEq, Eq, Hash)]
pub struct Spot {
    /// why
    pub refusal: Refusal,
    /// where: a byte of the text, from 0, or the text's length
    pub offset: usize,
}

impl Spot {
    /// The line and the column of the spot in its text, both from 1. A line is ended by a line feed, and a column is a byte.
    pub fn line_and_column(self, text: &[u8]) -> (usize, usize) {
        let before = &text[..self.offset.min(text.len())];
        let line = before.iter().filter(|&&byte| byte == b'\n').count() + 1;
        let column = before.iter().rev().take_while(|&&byte| byte != b'\n').count() + 1;
        (line, column)
    }
}

impl From<Refusal> for Spot {
    /// The refusal at offset 0.
    fn from(refusal: Refusal) -> Spot {
        Spot { refusal, offset: 0 }
    }
}

impl fmt::Display for Spot {
    fn fmt(&self, f: &mut fmt::Formatter<'_>) -> fmt::Result {
        write!(f, "{} at byte {}", self.refusal, self.offset)
    }
}

impl std::error::Error for Spot {}
