//! A script step on a tree of libxml2: each edit is a change of the tree by nodes that are at hand, and a validation behind it.

use super::Tree;
use bench::calls::{Edit, DROP, INSERT, REMOVE, REPLACE};
use bench::plain::spliced;
use std::ffi::{c_void, CString};
use std::os::raw::{c_char, c_int};
use std::ptr;

extern "C" {
    fn xmlDocGetRootElement(document: *mut c_void) -> *mut Node;
    fn xmlNewDocNode(document: *mut c_void, space: *mut c_void, name: *const c_char, content: *const c_char) -> *mut Node;
    fn xmlNewDocText(document: *mut c_void, content: *const c_char) -> *mut Node;
    fn xmlAddChild(parent: *mut Node, node: *mut Node) -> *mut Node;
    fn xmlAddPrevSibling(next: *mut Node, node: *mut Node) -> *mut Node;
    fn xmlUnlinkNode(node: *mut Node);
    fn xmlReplaceNode(old: *mut Node, new: *mut Node) -> *mut Node;
    fn xmlFreeNode(node: *mut Node);
    fn xmlSetProp(node: *mut Node, name: *const c_char, value: *const c_char) -> *mut c_void;
    fn xmlUnsetProp(node: *mut Node, name: *const c_char) -> c_int;
    fn xmlValidateOneElement(context: *mut c_void, document: *mut c_void, node: *mut Node) -> c_int;
    fn xmlDocDumpMemory(document: *mut c_void, text: *mut *mut c_char, size: *mut c_int);
    fn free(memory: *mut c_void);
}

/// The head of libxml2's `xmlNode`.
#[repr(C)]
struct Node {
    private: *mut c_void,
    sort: c_int,
    name: *const c_char,
    children: *mut Node,
    last: *mut Node,
    parent: *mut Node,
    next: *mut Node,
}

const ELEMENT: c_int = 1;

/// What is validated behind each change.
#[derive(Clone, Copy, PartialEq, Eq)]
pub enum Validation {
    /// The document.
    Whole,
    /// The parent's content, or that of the element whose attribute is set, and the piece's: IDs, references and values are missed.
    Parent,
}

/// A change of a tree.
enum Change {
    /// A node comes before another, or as the last child.
    Put { node: *mut Node, parent: *mut Node, next: *mut Node },
    /// A node goes.
    Take { node: *mut Node },
    /// A node takes another's place.
    Swap { old: *mut Node, new: *mut Node },
    /// An attribute gets a value.
    Set { node: *mut Node, name: CString, value: CString },
    /// An attribute goes.
    Unset { node: *mut Node, name: CString },
}

/// The changes of a step, and those that take them back, on a tree of its own.
pub struct Script {
    tree: Tree,
    there: Vec<Change>,
    back: Vec<Change>,
    /// Nodes that came with pieces. Behind a step that was taken back they are not in the tree.
    pieces: Vec<*mut Node>,
}

impl Script {
    /// The edits of a document, which is there as text and as tokens. The tree is as before in the end.
    pub fn of(text: &str, tokens: &[u32], edits: &[Edit]) -> Script {
        let mut script = Script { tree: Tree::parse(text), there: Vec::new(), back: Vec::new(), pieces: Vec::new() };
        let mut buffer = tokens.to_vec();
        for edit in edits {
            script.add(&buffer, edit);
            buffer = spliced(&buffer, edit);
        }
        script.back.reverse();
        script.back.iter().for_each(|change| script.make(change));
        script
    }

    /// Makes the step and takes it back, with a validation behind each change. True if each says valid.
    pub fn there_and_back(&mut self, by: Validation) -> bool {
        self.run(&self.there, by) && self.run(&self.back, by)
    }

    /// Makes the step and takes it back, with one validation of the whole document behind each. True if both say valid.
    pub fn there_and_back_as_groups(&mut self) -> bool {
        [&self.there, &self.back].iter().all(|changes| {
            changes.iter().for_each(|change| self.make(change));
            self.tree.is_valid()
        })
    }

    /// The text of the tree behind the step, which is taken back.
    pub fn text_behind(&mut self) -> Vec<u8> {
        self.there.iter().for_each(|change| self.make(change));
        let text = text_of(&self.tree);
        self.back.iter().for_each(|change| self.make(change));
        text
    }

    fn run(&self, changes: &[Change], by: Validation) -> bool {
        changes.iter().all(|change| {
            let touched = self.touched(change);
            self.make(change);
            match by {
                Validation::Whole => self.tree.is_valid(),
                Validation::Parent => touched.into_iter().all(|node| self.is_valid_alone(node)),
            }
        })
    }

    fn is_valid_alone(&self, node: *mut Node) -> bool {
        node.is_null() || unsafe { xmlValidateOneElement(self.tree.context, self.tree.document, node) == 1 }
    }

    /// The parent, or the element that is set, and the node that comes; null for none.
    fn touched(&self, change: &Change) -> [*mut Node; 2] {
        unsafe {
            match change {
                Change::Put { node, parent, .. } => [*parent, *node],
                Change::Take { node } => [(**node).parent, ptr::null_mut()],
                Change::Swap { old, new } => [(**old).parent, *new],
                Change::Set { node, .. } | Change::Unset { node, .. } => [*node, ptr::null_mut()],
            }
        }
    }

    /// Resolves an edit, makes it, and notes both it and what takes it back.
    fn add(&mut self, tokens: &[u32], edit: &Edit) {
        let place = edit.place as usize;
        let node = self.node(tokens, place);
        let name = |token: u32| CString::new(format!("a{}", token >> 3)).unwrap();
        let value = |token: u32| CString::new(format!("v{}", token >> 3)).unwrap();
        let (there, back) = unsafe {
            match edit.operation {
                INSERT => {
                    let piece = self.piece(&edit.piece);
                    (Change::Put { node: piece, parent: (*node).parent, next: node }, Change::Take { node: piece })
                }
                REMOVE => (Change::Take { node }, Change::Put { node, parent: (*node).parent, next: (*node).next }),
                REPLACE => {
                    let piece = self.piece(&edit.piece);
                    (Change::Swap { old: node, new: piece }, Change::Swap { old: piece, new: node })
                }
                operation => {
                    let attribute = edit.piece[0];
                    let unset = Change::Unset { node, name: name(attribute) };
                    let set = |value| Change::Set { node, name: name(attribute), value };
                    let before = values(tokens, place, attribute).map(value);
                    let there = if operation == DROP { Change::Unset { node, name: name(attribute) } } else { set(value(edit.piece[1])) };
                    (there, before.map_or(unset, set))
                }
            }
        };
        self.make(&there);
        self.there.push(there);
        self.back.push(back);
    }

    fn make(&self, change: &Change) {
        unsafe {
            match change {
                Change::Put { node, parent, next } if next.is_null() => drop(xmlAddChild(*parent, *node)),
                Change::Put { node, next, .. } => drop(xmlAddPrevSibling(*next, *node)),
                Change::Take { node } => xmlUnlinkNode(*node),
                Change::Swap { old, new } => drop(xmlReplaceNode(*old, *new)),
                Change::Set { node, name, value } => drop(xmlSetProp(*node, name.as_ptr(), value.as_ptr())),
                Change::Unset { node, name } => drop(xmlUnsetProp(*node, name.as_ptr())),
            }
        }
    }

    /// The node of the element that starts at a place.
    fn node(&self, tokens: &[u32], place: usize) -> *mut Node {
        let mut earlier = tokens[..place].iter().filter(|&&token| token & 7 == 1).count();
        let mut node = unsafe { xmlDocGetRootElement(self.tree.document) };
        while earlier > 0 {
            node = following(node);
            earlier -= unsafe { ((*node).sort == ELEMENT) as usize };
        }
        node
    }

    /// A node of a piece: one element with attributes of one value and perhaps a text.
    fn piece(&mut self, piece: &[u32]) -> *mut Node {
        let words = |letter: char, token: u32| CString::new(format!("{}{}", letter, token >> 3)).unwrap();
        let node = unsafe { xmlNewDocNode(self.tree.document, ptr::null_mut(), words('e', piece[0]).as_ptr(), ptr::null()) };
        for pair in piece.windows(2) {
            unsafe {
                match pair[0] & 7 {
                    4 => drop(xmlSetProp(node, words('a', pair[0]).as_ptr(), words('v', pair[1]).as_ptr())),
                    3 => drop(xmlAddChild(node, xmlNewDocText(self.tree.document, words('t', pair[0]).as_ptr()))),
                    _ => {}
                }
            }
        }
        self.pieces.push(node);
        node
    }
}

impl Drop for Script {
    fn drop(&mut self) {
        self.pieces.iter().for_each(|&node| unsafe { xmlFreeNode(node) });
    }
}

/// The tree as libxml2 writes it.
pub fn text_of(tree: &Tree) -> Vec<u8> {
    let (mut text, mut size) = (ptr::null_mut(), 0);
    unsafe {
        xmlDocDumpMemory(tree.document, &mut text, &mut size);
        let copy = std::slice::from_raw_parts(text as *const u8, size as usize).to_vec();
        free(text.cast());
        copy
    }
}

/// The next node in the order of the document.
fn following(mut node: *mut Node) -> *mut Node {
    unsafe {
        if !(*node).children.is_null() {
            return (*node).children;
        }
        while (*node).next.is_null() {
            node = (*node).parent;
        }
        (*node).next
    }
}

/// The first value of an attribute of the element at a place, if it has the attribute.
fn values(tokens: &[u32], place: usize, attribute: u32) -> Option<u32> {
    let attributes = tokens[place + 1..].iter().take_while(|&&token| matches!(token & 7, 4 | 5));
    attributes.clone().position(|&token| token == attribute).map(|at| tokens[place + 2 + at])
}
