//! A group of cases around one schema. Each case is known by its seed and its number: number / SLOTS is the group, the rest the
//! slot in it. The slots of a group are made in order, as a run of edits goes on from the outcome of the last.

use super::documents::Scale;
use super::lent::{lent_changed, lent_document, lent_table, old_words, other_used, Base};
use super::runs::Run;
use super::{bad_texts, compares, edits, files, groups, lists, programs, schemas, tables, tallies, texts};
use crate::case::{Case, Outcome, Table};
use crate::paper::compare::LEAST_ROOM;
use crate::paper::table::{FIXED, WORDS};
use crate::paper::{dtd, tree};
use crate::random::Random;
use std::rc::Rc;

/// Slots of a group, and how many of them, the last ones, are runs of the edit program.
pub const SLOTS: u64 = 115;
pub const PROGRAM_SLOTS: u64 = 4;

pub struct Group {
    number: usize,
    schema: Base,
    drawn: Base,
    scale: Scale,
    run: Run,
    run_is_drawn: bool,
    /// The runs of edits that were stepped back whole: how many edits each had.
    pub stepped_back: Vec<usize>,
}

impl Group {
    pub fn new(seed: u64, number: u64) -> Group {
        let mut random = Random::new(seed, number * SLOTS);
        let schema = Base::new(Table::of_schema(schemas::schema(&mut random))).expect("a schema's table is proper");
        let drawn = Base::new(Table::of_words(tables::proper(&mut random))).expect("a table drawn to be proper");
        let scale = Scale::draw(&mut random);
        let run = Run::new(Vec::new(), 0, 0);
        Group { number: number as usize, schema, drawn, scale, run, run_is_drawn: false, stepped_back: Vec::new() }
    }

    /// The case of a slot; `random` is its own. `programs` counts the groups before this one that ran the edit program.
    pub fn case(&mut self, random: &mut Random, slot: u64, programs: u64) -> Case {
        let programs_from = SLOTS - PROGRAM_SLOTS;
        match slot {
            0 => Case::Translate { file: self.schema_file(), buffer: old_words(random, WORDS) },
            1..=4 => self.translate(random),
            5..=8 => {
                let (file, buffer) = files::to_read(random);
                Case::Read { file, buffer }
            }
            9..=11 => {
                let (tokens, buffer) = files::to_write(random);
                Case::Write { tokens, buffer }
            }
            12..=25 => self.check(random),
            26..=85 => self.edit(random),
            86..=93 => self.text(random, slot - 86),
            94..=97 => self.compare(random),
            98..=103 => self.list(random),
            104..=108 => self.group(random),
            _ if slot < programs_from => self.elements(random),
            _ => {
                let way = (programs * PROGRAM_SLOTS + slot - programs_from) as usize;
                Case::Program(self.program(random, way % programs::WAYS))
            }
        }
    }

    /// What a later slot must know of the outcome.
    pub fn went(&mut self, case: &Case, outcome: &Outcome) {
        self.stepped_back.extend(self.run.went(case, outcome));
    }

    fn schema_file(&self) -> Vec<u8> {
        self.schema.table.schema.clone().expect("the schema's table has its file")
    }

    fn translate(&self, random: &mut Random) -> Case {
        let file = match random.chance(85) {
            true => schemas::damaged(random, self.schema.ground().grammar),
            false => self.schema_file(),
        };
        let length = match random.below(12) {
            0 => *random.pick(&[0, 1, 2, FIXED, WORDS - 1, WORDS + 1, 2 * WORDS]),
            _ => WORDS,
        };
        Case::Translate { file, buffer: old_words(random, length) }
    }

    /// A DTD text: sound, ambiguous, damaged, with a slip, misled, the small shade damaged at the group's byte, at the group's limit.
    fn text(&self, random: &mut Random, way: u64) -> Case {
        let mut spelled = texts::spelled(random, self.schema.ground().grammar);
        if way == 2 && random.chance(50) {
            let drawn = schemas::drawn_models(random, self.schema.ground().grammar);
            spelled = texts::spelled(random, &drawn);
        }
        let mut text = match way {
            4 => bad_texts::slip(random, &spelled.text()),
            5 => bad_texts::misled(random, spelled),
            6 => bad_texts::SHADE.as_bytes().to_vec(),
            7 => bad_texts::at_limit(random, self.number % bad_texts::LIMITS),
            _ => spelled.text(),
        };
        if [3, 6].contains(&way) {
            let at = if way == 6 { self.number % (text.len() + 1) } else { random.below(text.len() + 1) };
            bad_texts::damage(random, &mut text, at);
        }
        let call = if way < 3 { way as usize } else { *random.pick(&[0, 1, 3]) };
        let needed = |made: Result<Vec<u8>, u32>| made.map_or(20, |bytes| bytes.len());
        match call {
            0 => {
                let room = files::room(random, needed(dtd::import(&text, usize::MAX)));
                Case::Import { text, buffer: files::old_bytes(random, room) }
            }
            1 => {
                let room = files::room(random, needed(dtd::names(&text, usize::MAX)));
                Case::Names { text, buffer: files::old_bytes(random, room) }
            }
            2 => Case::Imported { text, buffer: old_words(random, WORDS) },
            _ => Case::Spot { text },
        }
    }

    /// An element's content in two tables.
    fn compare(&self, random: &mut Random) -> Case {
        let base = if random.chance(70) { &self.schema } else { &self.drawn };
        let mut element = compares::element(random, base.ground().grammar);
        let one = Rc::clone(&base.table);
        let (mut old, mut new) = match random.below(12) {
            0 => (Rc::clone(&one), one),
            1 => (one, Rc::clone(&self.drawn.table)),
            2 => {
                element = 0;
                let (old, new) = compares::cycles(random);
                (Rc::new(old), Rc::new(new))
            }
            3 => (lent_table(random, base), lent_table(random, base)),
            _ => match &one.schema {
                Some(file) => (Rc::clone(&one), Rc::new(compares::altered(random, file, element))),
                None => (Rc::clone(&one), Rc::new(compares::other_runs(random, &one.words, element))),
            },
        };
        if random.chance(30) {
            std::mem::swap(&mut old, &mut new);
        }
        if random.chance(6) {
            let improper = lent_changed(random, base);
            *if random.chance(50) { &mut old } else { &mut new } = improper;
        }
        let room = match random.below(12) {
            0 => *random.pick(&[0, 1, LEAST_ROOM - 2, LEAST_ROOM - 1]),
            1 => LEAST_ROOM + random.within(1, 900),
            _ => LEAST_ROOM,
        };
        Case::Compare { old, new, element, buffer: files::old_tokens(random, room) }
    }

    fn check(&self, random: &mut Random) -> Case {
        let base = if random.chance(75) { &self.schema } else { &self.drawn };
        let (doc, used) = lent_document(random, &base.ground(), self.scale);
        let used = if random.chance(6) { other_used(random, used, doc.len()) } else { used };
        Case::Check { table: lent_table(random, base), doc, used, counts: tallies::alone(random) }
    }

    fn edit(&mut self, random: &mut Random) -> Case {
        if let Some(case) = self.run.step(random) {
            return case;
        }
        if self.run.edits_left == 0 {
            self.run_is_drawn = random.chance(20);
            let base = if self.run_is_drawn { &self.drawn } else { &self.schema };
            let (buffer, used) = lent_document(random, &base.ground(), self.scale);
            let has_shape = tree::document(&buffer, used).is_some();
            self.run = Run::new(buffer, used, if has_shape { random.within(1, 10) } else { 1 });
        }
        let base = if self.run_is_drawn { &self.drawn } else { &self.schema };
        let room = self.run.buffer.len();
        let edit = match tree::document(&self.run.buffer, self.run.used) {
            Some(root) => edits::edit(random, &base.ground(), &root),
            None => edits::blind(random, &base.ground(), room),
        };
        let used = if random.chance(4) { other_used(random, self.run.used, room) } else { self.run.used };
        let table = lent_table(random, base);
        self.run.edit(random, table, used, edit)
    }

    fn list(&self, random: &mut Random) -> Case {
        let base = if random.chance(75) { &self.schema } else { &self.drawn };
        let (doc, used) = lent_document(random, &base.ground(), self.scale);
        let list = lists::list(random, &base.ground(), &doc, used);
        let used = if random.chance(4) { other_used(random, used, doc.len()) } else { used };
        let table = lent_table(random, base);
        let counts = tallies::for_list(random, table.grammar.as_ref(), &doc, used, &list);
        Case::List { table, doc, used, list, counts }
    }

    /// A group of edits, with a second buffer.
    fn group(&self, random: &mut Random) -> Case {
        let base = if random.chance(80) { &self.schema } else { &self.drawn };
        let (doc, used) = lent_document(random, &base.ground(), self.scale);
        let list = groups::group(random, &base.ground(), &doc, used);
        let used = if random.chance(4) { other_used(random, used, doc.len()) } else { used };
        let second = groups::second(random, doc.len());
        Case::Group { table: lent_table(random, base), doc, used, list, second }
    }

    /// The question, by a name that is declared or not.
    fn elements(&self, random: &mut Random) -> Case {
        let base = if random.chance(75) { &self.schema } else { &self.drawn };
        let count = base.ground().grammar.elements.len();
        let name = match random.below(4) {
            0 => random.below(48) as u32,
            1 => *random.pick(&[count as u32, 47, 48, 49, 63, 64, 1 << 16, 1 << 31, u32::MAX]),
            _ => random.below(count) as u32,
        };
        Case::Elements { table: lent_table(random, base), counts: tallies::alone(random), name }
    }

    fn program(&self, random: &mut Random, way: usize) -> crate::paper::program::Files {
        let schema = self.schema_file();
        programs::files(random, &self.schema.ground(), &schema, way)
    }
}
