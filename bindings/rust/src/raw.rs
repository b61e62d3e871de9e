//! The calls as `include/shrikemuff.h` declares them, which says what each asks and answers.

/// `shrike_count`
#[repr(C)]
#[derive(Clone, Copy, Debug, PartialEq, Eq)]
pub struct Count {
    pub number: u32,
    pub count: u32,
}

/// `shrike_verdict`
#[repr(C)]
#[derive(Clone, Copy, Debug, PartialEq, Eq)]
pub struct Verdict {
    pub number: u32,
    pub place: u32,
}

/// `shrike_answer`
#[repr(C)]
#[derive(Clone, Copy, Debug, PartialEq, Eq)]
pub struct Answer {
    pub number: u32,
    pub place: u32,
    pub used: u64,
    pub change: i32,
    pub children: u32,
}

/// `shrike_listed`
#[repr(C)]
#[derive(Clone, Copy, Debug, PartialEq, Eq)]
pub struct Listed {
    pub last: Answer,
    pub done: u32,
}

/// `shrike_grouped`
#[repr(C)]
#[derive(Clone, Copy, Debug, PartialEq, Eq)]
pub struct Grouped {
    pub number: u32,
    pub place: u32,
    pub used: u64,
    pub change: i32,
    pub which: u32,
}

/// `shrike_compared`
#[repr(C)]
#[derive(Clone, Copy, Debug, PartialEq, Eq)]
pub struct Compared {
    pub number: u32,
    pub takes_all: u32,
    pub length: u32,
}

/// `shrike_spot`
#[repr(C)]
#[derive(Clone, Copy, Debug, PartialEq, Eq)]
pub struct Spot {
    pub number: u32,
    pub offset: u64,
}

extern "C" {
    pub fn shrike_version() -> u32;
    pub fn shrike_read(file: *const u8, file_len: usize, tokens: *mut u32, room: usize) -> Count;
    pub fn shrike_write(tokens: *const u32, n: usize, file: *mut u8, room: usize) -> Count;
    pub fn shrike_import(text: *const u8, n: usize, file: *mut u8, room: usize) -> Count;
    pub fn shrike_names(text: *const u8, n: usize, names: *mut u8, room: usize) -> Count;
    pub fn shrike_import_spot(text: *const u8, n: usize) -> Spot;
    pub fn shrike_translate(file: *const u8, file_len: usize, table: *mut u64, words: usize) -> u32;
    pub fn shrike_check(table: *const u64, words: usize, doc: *const u32, room: usize, used: u64, counts: *mut i32) -> Verdict;
    pub fn shrike_edit(
        table: *const u64,
        words: usize,
        doc: *mut u32,
        room: usize,
        used: u64,
        operation: u32,
        place: u64,
        piece: *const u32,
        n: usize,
        back: *mut u32,
        back_room: usize,
        counts: *mut i32,
    ) -> Answer;
    pub fn shrike_list(
        table: *const u64,
        words: usize,
        doc: *mut u32,
        room: usize,
        used: u64,
        list: *const u32,
        n: usize,
        counts: *mut i32,
    ) -> Listed;
    pub fn shrike_group(
        table: *const u64,
        words: usize,
        doc: *mut u32,
        room: usize,
        used: u64,
        list: *const u32,
        n: usize,
        second: *mut u32,
        second_room: usize,
    ) -> Grouped;
    pub fn shrike_elements(table: *const u64, words: usize, counts: *const i32, name: u32) -> Count;
    pub fn shrike_compare(
        old_table: *const u64,
        old_words: usize,
        new_table: *const u64,
        new_words: usize,
        element: u32,
        sequence: *mut u32,
        room: usize,
    ) -> Compared;
}
