//! The core, through its C interface.

use ::shrikemuff::raw;
use bench::calls::{Answer, Calls, Compared, Count, Counts, Grouped, Listed, Spot, Verdict};

pub struct Core;

fn answer(said: raw::Answer) -> Answer {
    Answer { number: said.number, place: said.place, used: said.used, change: said.change, children: said.children }
}

impl Calls for Core {
    fn name(&self) -> &'static str {
        "core"
    }

    fn read(&self, file: &[u8], tokens: &mut [u32]) -> Count {
        let said = unsafe { raw::shrike_read(file.as_ptr(), file.len(), tokens.as_mut_ptr(), tokens.len()) };
        Count { number: said.number, count: said.count }
    }

    fn write(&self, tokens: &[u32], file: &mut [u8]) -> Count {
        let said = unsafe { raw::shrike_write(tokens.as_ptr(), tokens.len(), file.as_mut_ptr(), file.len()) };
        Count { number: said.number, count: said.count }
    }

    fn import(&self, text: &[u8], file: &mut [u8]) -> Count {
        let said = unsafe { raw::shrike_import(text.as_ptr(), text.len(), file.as_mut_ptr(), file.len()) };
        Count { number: said.number, count: said.count }
    }

    fn names(&self, text: &[u8], names: &mut [u8]) -> Count {
        let said = unsafe { raw::shrike_names(text.as_ptr(), text.len(), names.as_mut_ptr(), names.len()) };
        Count { number: said.number, count: said.count }
    }

    fn import_spot(&self, text: &[u8]) -> Spot {
        let said = unsafe { raw::shrike_import_spot(text.as_ptr(), text.len()) };
        Spot { number: said.number, offset: said.offset }
    }

    fn translate(&self, file: &[u8], table: &mut [u64]) -> u32 {
        unsafe { raw::shrike_translate(file.as_ptr(), file.len(), table.as_mut_ptr(), table.len()) }
    }

    fn check(&self, table: &[u64], buffer: &[u32], used: u64, counts: &mut Counts) -> Verdict {
        let (words, room) = (table.len(), buffer.len());
        let said = unsafe { raw::shrike_check(table.as_ptr(), words, buffer.as_ptr(), room, used, counts.as_mut_ptr()) };
        Verdict { number: said.number, place: said.place }
    }

    fn edit(
        &self,
        table: &[u64],
        buffer: &mut [u32],
        used: u64,
        operation: u32,
        place: u64,
        piece: &[u32],
        back: &mut [u32],
        counts: &mut Counts,
    ) -> Answer {
        let (words, room, n, back_room) = (table.len(), buffer.len(), piece.len(), back.len());
        let (table, doc, piece, back) = (table.as_ptr(), buffer.as_mut_ptr(), piece.as_ptr(), back.as_mut_ptr());
        let counts = counts.as_mut_ptr();
        let said = unsafe { raw::shrike_edit(table, words, doc, room, used, operation, place, piece, n, back, back_room, counts) };
        answer(said)
    }

    fn list(&self, table: &[u64], buffer: &mut [u32], used: u64, list: &[u32], counts: &mut Counts) -> Listed {
        let (words, room, n, counts) = (table.len(), buffer.len(), list.len(), counts.as_mut_ptr());
        let said = unsafe { raw::shrike_list(table.as_ptr(), words, buffer.as_mut_ptr(), room, used, list.as_ptr(), n, counts) };
        Listed { last: answer(said.last), done: said.done }
    }

    fn group(&self, table: &[u64], buffer: &mut [u32], used: u64, list: &[u32], second: &mut [u32]) -> Grouped {
        let (words, room, n, second_room) = (table.len(), buffer.len(), list.len(), second.len());
        let (table, doc, list, second) = (table.as_ptr(), buffer.as_mut_ptr(), list.as_ptr(), second.as_mut_ptr());
        let said = unsafe { raw::shrike_group(table, words, doc, room, used, list, n, second, second_room) };
        Grouped { number: said.number, place: said.place, used: said.used, change: said.change, which: said.which }
    }

    fn elements(&self, table: &[u64], counts: &Counts, name: u32) -> Count {
        let said = unsafe { raw::shrike_elements(table.as_ptr(), table.len(), counts.as_ptr(), name) };
        Count { number: said.number, count: said.count }
    }

    fn compare(&self, old: &[u64], new: &[u64], element: u32, sequence: &mut [u32]) -> Compared {
        let (old_words, new_words, room) = (old.len(), new.len(), sequence.len());
        let (old, new, sequence) = (old.as_ptr(), new.as_ptr(), sequence.as_mut_ptr());
        let said = unsafe { raw::shrike_compare(old, old_words, new, new_words, element, sequence, room) };
        Compared { number: said.number, takes_all: said.takes_all, length: said.length }
    }
}
