//! Small XML documents, held as tokens, kept to their schema: a safe binding of `libshrikemuff.a`.
//!
//! The numbers of a file, the texts of a DTD, the tokens, the order of faults, the sizes and the stack that a call takes are described in
//! `include/shrikemuff.h`. No call allocates (a [`Table`] is a box that this binding makes), none keeps state, and a refused call leaves what
//! it was lent as it was.
//!
//! ```
//! use shrikemuff::numbers::TEXT_ONLY;
//! use shrikemuff::{read, token, write, Edit, Refusal, Table, COUNT_PLACES, MOST_BACK, MOST_TOKENS};
//!
//! let mut schema = [0; 4];
//! write(&[1, 0, TEXT_ONLY, 0], &mut schema).unwrap(); // one element, 0, with text
//! let table = Table::translate(&schema).unwrap();
//! let mut doc = vec![0; MOST_TOKENS];
//! let used = read(&[1, 11, 2], &mut doc).unwrap();
//! assert_eq!(doc[..used], [token::start(0), token::text(1), token::end()]);
//! let mut counts = [0; COUNT_PLACES];
//! assert_eq!(table.check(&doc, used, &mut counts), Ok(()));
//! assert_eq!(table.elements(&counts, 0), Ok(1));
//! let mut back = vec![0; MOST_BACK];
//! let fault = table.edit(&mut doc, used, Edit::insert(1, &[token::text(2)]), &mut back, &mut counts).unwrap_err();
//! assert_eq!((fault.refusal, fault.place), (Refusal::Content, 2)); // a second text
//! let done = table.edit(&mut doc, used, Edit::remove(1), &mut back, &mut counts).unwrap();
//! assert_eq!((done.used, done.change, done.children), (2, -1, 0));
//! assert_eq!(done.back, Edit::insert(1, &[token::text(1)]));
//! ```
//!
//! # Another library than the one that this was written for
//!
//! Each function first asks the library's version, and calls nothing of a library that does not serve this binding: the refusal is
//! [`Refusal::Version`]. [`library_version`] and [`serves`] ask the same beforehand. A newer library that does serve it may give an answer
//! that this binding does not know: the refusal is then [`Refusal::Unknown`], with the number.
#![deny(missing_docs)]

use std::fmt;

mod dtd;
mod edit;
mod refusal;

#[allow(missing_docs)]
pub mod numbers;
#[allow(missing_docs)]
pub mod raw;
pub mod token;

pub use dtd::{import, import_spot, names, Spot};
pub use edit::{Done, Edit, Grouped, Last, Listed};
pub use numbers::{COUNT_PLACES, MOST_BACK, MOST_BYTES, MOST_EDITS, MOST_SCHEMA_FILE, MOST_TOKENS, SEQUENCE_PLACES, TABLE_WORDS, VERSION};
pub use refusal::{Fault, GroupFault, Refusal};

#[cfg(not(target_pointer_width = "64"))]
compile_error!("lengths have 64 bits");

/// The library's version: major × 1,000,000 + minor × 1,000 + patch, as [`VERSION`] is this binding's.
pub fn library_version() -> u32 {
    // SAFETY: it takes nothing, and is there in every version.
    unsafe { raw::shrike_version() }
}

/// Whether a library of a version serves this binding: the major number is the same, and the minor one no lower.
pub const fn serves(version: u32) -> bool {
    version / 1_000_000 == VERSION / 1_000_000 && version / 1_000 >= VERSION / 1_000
}

fn served() -> Result<(), Refusal> {
    let version = library_version();
    if serves(version) {
        Ok(())
    } else {
        Err(Refusal::Version(version))
    }
}

/// Reads a document file into the first places of `tokens`: how many tokens it has. Later places keep their contents.
pub fn read(file: &[u8], tokens: &mut [u32]) -> Result<usize, Refusal> {
    served()?;
    // SAFETY: each slice is a pointer to as many elements as its length says, aligned; a `&mut` overlaps nothing else.
    let r = unsafe { raw::shrike_read(file.as_ptr(), file.len(), tokens.as_mut_ptr(), tokens.len()) };
    Refusal::of(r.number).map(|()| r.count as usize)
}

/// Writes every token into the first bytes of `file`: how many bytes they take. Later bytes keep their contents. Any numbers are written, those
/// of a schema file too.
pub fn write(tokens: &[u32], file: &mut [u8]) -> Result<usize, Refusal> {
    served()?;
    // SAFETY: as in `read`.
    let r = unsafe { raw::shrike_write(tokens.as_ptr(), tokens.len(), file.as_mut_ptr(), file.len()) };
    Refusal::of(r.number).map(|()| r.count as usize)
}

/// How many elements of each name a document has, by name, and 0 for names that its schema does not have. Kept beside the document: written
/// by a check that says valid, carried along by edits and lists, asked by [`Table::elements`]. Other numbers may stand in it; an edit after
/// which one would be below 0 or above 8,192 is [`Refusal::Counts`].
pub type Counts = [i32; COUNT_PLACES];

/// A schema's table.
#[derive(Clone, PartialEq, Eq)]
pub struct Table {
    words: Box<[u64; TABLE_WORDS]>,
}

impl Table {
    /// The table of a schema file.
    pub fn translate(file: &[u8]) -> Result<Table, Refusal> {
        served()?;
        let words = vec![0; TABLE_WORDS].into_boxed_slice();
        let mut words: Box<[u64; TABLE_WORDS]> = words.try_into().expect("the length is TABLE_WORDS");
        // SAFETY: as in `read`.
        let number = unsafe { raw::shrike_translate(file.as_ptr(), file.len(), words.as_mut_ptr(), words.len()) };
        Refusal::of(number).map(|()| Table { words })
    }

    /// A table of given words. Each call by it first tests that it is proper.
    pub fn from_words(words: Box<[u64; TABLE_WORDS]>) -> Table {
        Table { words }
    }

    /// The words.
    pub fn words(&self) -> &[u64; TABLE_WORDS] {
        &self.words
    }

    /// Whether the first `used` tokens of `doc` are a valid document. If they are, `counts` holds its elements; else it is left as it was.
    pub fn check(&self, doc: &[u32], used: usize, counts: &mut Counts) -> Result<(), Fault> {
        served()?;
        // SAFETY: as in `read`; the counts are as many as the call takes.
        let r = unsafe {
            let (words, room) = (self.words.as_ptr(), doc.len());
            raw::shrike_check(words, TABLE_WORDS, doc.as_ptr(), room, used as u64, counts.as_mut_ptr())
        };
        Fault::of(r.number, r.place)
    }

    /// How many elements of a name a document has, by its counts; 0 for a name that the schema does not have.
    pub fn elements(&self, counts: &Counts, name: u32) -> Result<usize, Refusal> {
        served()?;
        // SAFETY: as in `check`.
        let r = unsafe { raw::shrike_elements(self.words.as_ptr(), TABLE_WORDS, counts.as_ptr(), name) };
        Refusal::of(r.number).map(|()| r.count as usize)
    }

    /// Edits the document in the first `used` places of `doc`, and writes the edit that takes this one back into the first places of `back`:
    /// [`Done::back`] is read from there. Later places of `back` keep their contents, and [`MOST_BACK`] places are always enough. The counts
    /// move by the elements that come less those that go. A refusal leaves all three as they were.
    ///
    /// From a valid document with its counts, an edit that was done can always be taken back, and that again, and a whole run of edits, the last one first:
    ///
    /// ```
    /// use shrikemuff::numbers::{CDATA, EMPTY, IMPLIED};
    /// use shrikemuff::{token, write, Edit, Table, COUNT_PLACES, MOST_BACK};
    ///
    /// let mut schema = [0; 7];
    /// write(&[1, 0, EMPTY, 1, 0, CDATA, IMPLIED], &mut schema).unwrap(); // one element, 0, with an attribute, 0
    /// let table = Table::translate(&schema).unwrap();
    /// let mut doc = [token::start(0), token::end(), 0, 0];
    /// let mut used = 2;
    /// let mut counts = [0; COUNT_PLACES];
    /// table.check(&doc, used, &mut counts).unwrap();
    /// let mut back = [0; MOST_BACK];
    ///
    /// let mut steps: Vec<Vec<u32>> = Vec::new(); // an undo stack
    /// for value in [7, 8, 9] {
    ///     let piece = [token::attribute(0), token::value(value)];
    ///     let done = table.edit(&mut doc, used, Edit::set(0, &piece), &mut back, &mut counts).unwrap();
    ///     used = done.used;
    ///     steps.push(done.back.numbers().collect());
    /// }
    /// assert_eq!(Edit::read(&steps[2]), Some(Edit::set(0, &[token::attribute(0), token::value(8)])));
    /// assert_eq!(Edit::read(&steps[0]), Some(Edit::drop(0, &[token::attribute(0)])));
    /// while let Some(step) = steps.pop() {
    ///     let done = table.edit(&mut doc, used, Edit::read(&step).unwrap(), &mut back, &mut counts).unwrap();
    ///     used = done.used;
    /// }
    /// assert_eq!(doc[..used], [token::start(0), token::end()]);
    /// ```
    pub fn edit<'b>(
        &self,
        doc: &mut [u32],
        used: usize,
        edit: Edit<'_>,
        back: &'b mut [u32],
        counts: &mut Counts,
    ) -> Result<Done<'b>, Fault> {
        served()?;
        // SAFETY: as in `check`.
        let r = unsafe {
            raw::shrike_edit(
                self.words.as_ptr(),
                TABLE_WORDS,
                doc.as_mut_ptr(),
                doc.len(),
                used as u64,
                edit.operation,
                edit.place as u64,
                edit.piece.as_ptr(),
                edit.piece.len(),
                back.as_mut_ptr(),
                back.len(),
                counts.as_mut_ptr(),
            )
        };
        Fault::of(r.number, r.place)?;
        let back = Edit::read(back).expect("an edit that is done writes the one that takes it back");
        Ok(Done { used: r.used as usize, change: r.change, children: r.children as usize, back })
    }

    /// Makes the edits of a list in one call, one after another, as [`Table::edit`] makes each; it ends at the first that is refused, and what
    /// was done before stands, and is counted. No step back is written.
    ///
    /// The list is 1 to [`MOST_EDITS`] edits, each as [`Edit::numbers`] has it. An empty list, and one that ends inside an edit, is
    /// [`Refusal::Shape`], one edit more is [`Refusal::Room`]; of such a list no edit is run.
    ///
    /// ```
    /// use shrikemuff::numbers::{CDATA, EMPTY, IMPLIED};
    /// use shrikemuff::{token, write, Edit, Refusal, Table, COUNT_PLACES};
    ///
    /// let mut schema = [0; 7];
    /// write(&[1, 0, EMPTY, 1, 0, CDATA, IMPLIED], &mut schema).unwrap(); // one element, 0, with an attribute, 0
    /// let table = Table::translate(&schema).unwrap();
    /// let mut doc = [token::start(0), token::end(), 0, 0, 0];
    /// let mut counts = [0; COUNT_PLACES];
    /// table.check(&doc, 2, &mut counts).unwrap();
    ///
    /// let mut step = Vec::new();
    /// step.extend(Edit::set(0, &[token::attribute(0), token::value(7)]).numbers());
    /// step.extend(Edit::set(0, &[token::attribute(0), token::value(8)]).numbers());
    /// step.extend(Edit::insert(3, &[token::text(9)]).numbers());
    /// step.extend(Edit::drop(0, &[token::attribute(0)]).numbers());
    /// let listed = table.list(&mut doc, 2, &step, &mut counts);
    /// assert_eq!((listed.used, listed.done), (4, 2));
    /// assert_eq!(listed.last.unwrap_err().refusal, Refusal::Content); // a text in an element that is empty
    /// assert_eq!(doc[..4], [token::start(0), token::attribute(0), token::value(8), token::end()]);
    /// ```
    pub fn list(&self, doc: &mut [u32], used: usize, list: &[u32], counts: &mut Counts) -> Listed {
        if let Err(refusal) = served() {
            return Listed { used, done: 0, last: Err(refusal.into()) };
        }
        // SAFETY: as in `check`.
        let r = unsafe {
            let (words, room) = (self.words.as_ptr(), doc.len());
            let (doc, counts) = (doc.as_mut_ptr(), counts.as_mut_ptr());
            raw::shrike_list(words, TABLE_WORDS, doc, room, used as u64, list.as_ptr(), list.len(), counts)
        };
        let last = Fault::of(r.last.number, r.last.place);
        let last = last.map(|()| Last { change: r.last.change, children: r.last.children as usize });
        Listed { used: r.last.used as usize, done: r.done as usize, last }
    }

    /// Makes the edits of a list as one: each is tested for form, place and size alone, and only the last document is judged, whole. If it is
    /// valid it takes the document's place; else `doc` is left as it was. The edits are worked on `second`, which has as many places as `doc`
    /// or more. The list is as in [`Table::list`].
    ///
    /// A group carries no counts along: after one that is done, [`Table::check`] writes them before the next edit or list.
    ///
    /// ```
    /// use shrikemuff::numbers::{EMPTY, ID, IDREF, REQUIRED};
    /// use shrikemuff::{token, write, Edit, Refusal, Table, COUNT_PLACES};
    ///
    /// let mut schema = [0; 10];
    /// write(&[1, 0, EMPTY, 2, 0, ID, REQUIRED, 1, IDREF, REQUIRED], &mut schema).unwrap(); // one element, which refers to itself
    /// let table = Table::translate(&schema).unwrap();
    /// let named = |name| [token::start(0), token::attribute(0), token::value(name), token::attribute(1), token::value(name), token::end()];
    /// let (mut doc, mut second, mut counts) = (named(20), [0; 6], [0; COUNT_PLACES]);
    /// table.check(&doc, 6, &mut counts).unwrap();
    ///
    /// // from 20 to 21: the name, and what refers to it
    /// let rename: Vec<u32> = (0..2).flat_map(|attribute| [4, 0, 2, token::attribute(attribute), token::value(21)]).collect();
    /// assert_eq!(table.list(&mut doc, 6, &rename, &mut counts).last.unwrap_err().refusal, Refusal::NoId);
    /// let done = table.group(&mut doc, 6, &rename, &mut second).unwrap();
    /// assert_eq!((done.used, done.change), (6, 0));
    /// assert_eq!(doc, named(21));
    /// table.check(&doc, 6, &mut counts).unwrap();
    /// ```
    pub fn group(&self, doc: &mut [u32], used: usize, list: &[u32], second: &mut [u32]) -> Result<Grouped, GroupFault> {
        served()?;
        // SAFETY: as in `read`.
        let r = unsafe {
            let (words, room, second_room) = (self.words.as_ptr(), doc.len(), second.len());
            let (doc, second) = (doc.as_mut_ptr(), second.as_mut_ptr());
            raw::shrike_group(words, TABLE_WORDS, doc, room, used as u64, list.as_ptr(), list.len(), second, second_room)
        };
        let which = if r.which == 0 { None } else { Some(r.which as usize) };
        Fault::of(r.number, r.place).map_err(|fault| GroupFault { fault, which })?;
        Ok(Grouped { used: r.used as usize, change: r.change })
    }
}

/// Compares the content of an element in two tables. `None`: the new one takes every sequence of children that the old one takes. Else the
/// shortest sequence that would be lost, as numbers of elements, of equals the lowest from the left; it stands in the first places of
/// `sequence`, and later ones keep their contents. `sequence` has [`SEQUENCE_PLACES`] places or more.
///
/// ```
/// use shrikemuff::numbers::{CHOICE, EMPTY, MODEL, NAMED, OPTIONAL};
/// use shrikemuff::{compare, write, Refusal, Table, SEQUENCE_PLACES};
///
/// let table = |numbers: &[u32]| {
///     let mut file = [0; 32];
///     let length = write(numbers, &mut file).unwrap();
///     Table::translate(&file[..length]).unwrap()
/// };
/// // element 0 is 1 | 2 at first, and then 1?; 1 and 2 are empty
/// let old = table(&[3, 0, MODEL, 3, CHOICE, NAMED + 1, NAMED + 2, 0, EMPTY, 0, EMPTY, 0]);
/// let new = table(&[3, 0, MODEL, 2, OPTIONAL, NAMED + 1, 0, EMPTY, 0, EMPTY, 0]);
/// let mut sequence = [0; SEQUENCE_PLACES];
/// assert_eq!(compare(&old, &new, 0, &mut sequence), Ok(Some(&[2][..])));
/// assert_eq!(compare(&new, &old, 0, &mut sequence), Ok(Some(&[][..])));
/// assert_eq!(compare(&old, &new, 1, &mut sequence), Ok(None));
/// assert_eq!(compare(&old, &new, 3, &mut sequence), Err(Refusal::Place));
/// ```
pub fn compare<'a>(old: &Table, new: &Table, element: u32, sequence: &'a mut [u32]) -> Result<Option<&'a [u32]>, Refusal> {
    served()?;
    // SAFETY: as in `read`.
    let r = unsafe {
        raw::shrike_compare(
            old.words.as_ptr(),
            TABLE_WORDS,
            new.words.as_ptr(),
            TABLE_WORDS,
            element,
            sequence.as_mut_ptr(),
            sequence.len(),
        )
    };
    Refusal::of(r.number).map(|()| if r.takes_all == 1 { None } else { Some(&sequence[..r.length as usize]) })
}

impl fmt::Debug for Table {
    fn fmt(&self, f: &mut fmt::Formatter<'_>) -> fmt::Result {
        write!(f, "Table of {} elements, root {}", self.words[0], self.words[1])
    }
}
