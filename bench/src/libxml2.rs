//! libxml2, as a host uses it: an XML text with its DTD is parsed to a tree, and the tree is validated whole, or changed and validated; a
//! DTD's text is parsed alone.

pub mod changes;

use std::ffi::c_void;
use std::os::raw::{c_char, c_int};
use std::ptr;
use std::sync::atomic::{AtomicUsize, Ordering};

extern "C" {
    fn xmlInitParser();
    fn xmlSetStructuredErrorFunc(context: *mut c_void, handler: Option<extern "C" fn(*mut c_void, *mut c_void)>);
    fn xmlReadMemory(text: *const c_char, size: c_int, url: *const c_char, encoding: *const c_char, options: c_int) -> *mut c_void;
    fn xmlFreeDoc(document: *mut c_void);
    fn xmlParserInputBufferCreateMem(text: *const c_char, size: c_int, encoding: c_int) -> *mut c_void;
    fn xmlIOParseDTD(handler: *mut c_void, input: *mut c_void, encoding: c_int) -> *mut c_void;
    fn xmlFreeDtd(dtd: *mut c_void);
    fn xmlNewValidCtxt() -> *mut c_void;
    fn xmlFreeValidCtxt(context: *mut c_void);
    fn xmlValidateDocument(context: *mut c_void, document: *mut c_void) -> c_int;
}

static FAULTS: AtomicUsize = AtomicUsize::new(0);

/// Faults are counted and not printed.
extern "C" fn count(_context: *mut c_void, _fault: *mut c_void) {
    FAULTS.fetch_add(1, Ordering::Relaxed);
}

/// To be called before all others.
pub fn begin() {
    unsafe {
        xmlInitParser();
        xmlSetStructuredErrorFunc(ptr::null_mut(), Some(count));
    }
}

/// A document in memory, and what it takes to validate it again and again.
pub struct Tree {
    document: *mut c_void,
    context: *mut c_void,
}

impl Tree {
    /// The text is well formed.
    pub fn parse(text: &str) -> Tree {
        unsafe {
            let document = xmlReadMemory(text.as_ptr().cast(), text.len() as c_int, ptr::null(), ptr::null(), 0);
            assert!(!document.is_null(), "libxml2 refuses to parse a document");
            Tree { document, context: xmlNewValidCtxt() }
        }
    }

    pub fn is_valid(&self) -> bool {
        unsafe { xmlValidateDocument(self.context, self.document) == 1 }
    }
}

impl Drop for Tree {
    fn drop(&mut self) {
        unsafe {
            xmlFreeValidCtxt(self.context);
            xmlFreeDoc(self.document);
        }
    }
}

/// Parses a DTD's text and frees what it declares. True if it is taken.
pub fn import(text: &[u8]) -> bool {
    const UTF_8: c_int = 1;
    unsafe {
        let input = xmlParserInputBufferCreateMem(text.as_ptr().cast(), text.len() as c_int, UTF_8);
        let dtd = xmlIOParseDTD(ptr::null_mut(), input, UTF_8);
        if dtd.is_null() {
            return false;
        }
        xmlFreeDtd(dtd);
    }
    true
}

/// Parses the text with its DTD, validates as it goes, and frees the tree. True if the text is valid.
pub fn load(text: &str) -> bool {
    const VALIDATE: c_int = 1 << 4;
    let before = FAULTS.load(Ordering::Relaxed);
    unsafe {
        let document = xmlReadMemory(text.as_ptr().cast(), text.len() as c_int, ptr::null(), ptr::null(), VALIDATE);
        if document.is_null() {
            return false;
        }
        xmlFreeDoc(document);
    }
    FAULTS.load(Ordering::Relaxed) == before
}
