//! `bench [--samples N] FOLDER`: makes the inputs, sees that all contenders agree on them, times them, prints the tables and writes
//! FOLDER/table.md and FOLDER/cost.svg.

mod cases;
mod chance;
mod groups;
#[cfg(feature = "libxml2")]
mod libxml2;
mod lists;
mod plot;
mod report;
mod shrikemuff;
mod timing;

use bench::calls::{Calls, Edit};
use bench::documents::{self, Mix, MIXES, SPOTS};
use bench::plain::{Keys, Plain, BACK, WORDS};
use bench::steps::Step;
use bench::texts;
use bench::xml;
use cases::Input;
use groups::GroupInput;
use lists::ListInput;
use report::{grouped, Report, Row, Section, SIZES};
use std::path::PathBuf;
use std::rc::Rc;
use std::time::Duration;
use timing::Plan;

/// The documents that are edited: an insert still fits into 8,192.
const EDIT_TOKENS: usize = 8184;
const ROOM: usize = 8192;
/// The lists of edits.
const LISTS: [usize; 3] = [1, 16, 256];
/// The sizes of the plot beside those of the table.
const MORE_SIZES: [usize; 3] = [500, 2000, 6000];
/// The element whose number is asked for.
const ITEM: u32 = 2;
/// Where a table has the last occurrences of element 0.
const LAST_OF_0: usize = 2 + 9;
/// Rounds of calls by chance for each mix.
const ROUNDS: u32 = 2000;

/// An input, and the rows it gives: one, or two for an edit and the one that takes it back.
struct Case {
    rows: Vec<Row>,
    input: Input,
}

impl Case {
    fn new(section: Section, mix: &'static str, what: &str, tokens: usize, input: Input) -> Case {
        Case { rows: vec![Row::new(section, mix, what, tokens)], input }
    }
}

fn main() {
    let (plan, folder) = arguments();
    #[cfg(feature = "libxml2")]
    libxml2::begin();
    let contenders: [&dyn Calls; 3] = [&shrikemuff::Core, &Plain { keys: Keys::Pairs }, &Plain { keys: Keys::Field }];

    let mut groups: Vec<Vec<Case>> = MIXES.iter().map(|&mix| cases_of(mix)).collect();
    groups.push(cases_of_files());
    let mut inputs = 0;
    for case in groups.iter().flatten() {
        if let Err(what) = case.input.agree(&contenders) {
            stop(&format!("{}, {}, {} tokens: {}", case.rows[0].mix, case.rows[0].what, case.rows[0].tokens, what));
        }
        inputs += 1;
    }
    let by_chance = chance::agree(&contenders, ROUNDS).unwrap_or_else(|what| stop(&what));
    eprintln!("all agree on {} inputs and on {} calls by chance", inputs, by_chance);

    for group in &mut groups {
        time(group, &contenders, &plan);
        eprintln!("timed: {}", group[0].rows[0].mix);
    }
    let rows: Vec<Row> = groups.into_iter().flatten().flat_map(|case| case.rows).collect();
    let report = Report { rows: &rows, edit_tokens: EDIT_TOKENS };
    let text = format!("{}{}", report.text(), method(&plan, &report, inputs, by_chance));
    print!("{}", text);
    write(&folder.join("table.md"), &text);
    write(&folder.join("cost.svg"), &plot::svg(&report));
}

fn arguments() -> (Plan, PathBuf) {
    let mut plan = Plan { samples: 61, sample: Duration::from_millis(1) };
    let mut folder = None;
    let mut arguments = std::env::args().skip(1);
    while let Some(argument) = arguments.next() {
        if argument == "--samples" {
            let samples = arguments.next().and_then(|count| count.parse().ok());
            plan.samples = samples.filter(|&count| count > 0).unwrap_or_else(|| stop("--samples takes a number"));
        } else {
            folder = Some(PathBuf::from(argument));
        }
    }
    (plan, folder.unwrap_or_else(|| stop("a folder to write to is wanted")))
}

fn stop(what: &str) -> ! {
    eprintln!("bench: {}", what);
    std::process::exit(1)
}

fn write(path: &std::path::Path, text: &str) {
    if let Err(error) = std::fs::write(path, text) {
        stop(&format!("{}: {}", path.display(), error));
    }
}

/// The checks, the parts of a check, the edits and the parts of an edit.
fn cases_of(mix: Mix) -> Vec<Case> {
    let name = mix.name();
    let table = Rc::new(table_of(&mix.schema()));
    let doctype = xml::doctype(&mix.schema());
    let text_of = |tokens: &[u32]| doctype.clone() + &xml::document(tokens);
    let check = |tokens: &[u32], used: usize, number| {
        let text = if used > 0 { Some(text_of(tokens)) } else { None };
        let mut buffer = tokens.to_vec();
        buffer.resize(ROOM, 0);
        Input::Check { table: table.clone(), buffer, used: used as u64, number, text }
    };
    let mut cases = Vec::new();

    for size in SIZES.into_iter().chain(MORE_SIZES).chain([EDIT_TOKENS]) {
        cases.push(Case::new(Section::Check, name, "check", size, check(&mix.document(size), size, 0)));
    }

    let tokens = mix.document(EDIT_TOKENS);
    let mut buffer = tokens.clone();
    buffer.resize(ROOM, 0);
    let no_operation = Edit { operation: 0, place: 0, piece: vec![] };
    let no_edit = Input::Refused { table: table.clone(), buffer: buffer.clone(), used: EDIT_TOKENS as u64, edit: no_operation, number: 6 };
    let parts = [
        ("table", check(&tokens, 0, 4)),
        ("shape", no_edit),
        ("root's name", check(&documents::with_other_root(&tokens), EDIT_TOKENS, 10)),
        ("elements", check(&documents::with_last_element_wrong(&tokens), EDIT_TOKENS, 8)),
    ];
    for (what, input) in parts {
        cases.push(Case::new(Section::CheckPart, name, what, EDIT_TOKENS, input));
    }

    for spot in SPOTS {
        for pair in mix.pairs(&tokens, spot) {
            let row = |what: &str| Row { spot: spot.name(), ..Row::new(Section::Edit, name, what, EDIT_TOKENS) };
            let rows = if pair.name == pair.back_name { vec![row(pair.name)] } else { vec![row(pair.name), row(pair.back_name)] };
            let texts = [text_of(&edited(&table, &buffer, EDIT_TOKENS, &pair.edit)), text_of(&tokens)];
            let input = Input::Pair {
                table: table.clone(),
                buffer: buffer.clone(),
                used: EDIT_TOKENS as u64,
                edit: pair.edit,
                back: pair.back,
                texts,
            };
            cases.push(Case { rows, input });
        }
        for refused in mix.refused_inserts(&tokens, spot) {
            let input = Input::Refused {
                table: table.clone(),
                buffer: if refused.is_full { tokens.clone() } else { buffer.clone() },
                used: EDIT_TOKENS as u64,
                edit: refused.edit,
                number: refused.number,
            };
            let mut case = Case::new(Section::EditPart, name, refused.after, EDIT_TOKENS, input);
            case.rows[0].spot = spot.name();
            cases.push(case);
        }
    }
    for edits in LISTS {
        let step = Step::spread(mix, &table, &tokens, ROOM, edits);
        let texts = [text_of(&tokens), text_of(&step.tokens)];
        let input = Input::List(ListInput::new(table.clone(), buffer.clone(), EDIT_TOKENS as u64, step, texts));
        let what = format!("{} edit{}", edits, if edits == 1 { "" } else { "s" });
        cases.push(Case::new(Section::List, name, &what, EDIT_TOKENS, input));
    }
    let rename = Step::of_sets(&tokens, mix.rename(&tokens));
    let spread = Step::spread(mix, &table, &tokens, ROOM, LISTS[2]);
    for (what, step) in [("rename", rename), ("script step", spread)] {
        let what = format!("{} of {} edits", what, step.there.len());
        let input = Input::Group(GroupInput::new(table.clone(), buffer.clone(), EDIT_TOKENS as u64, step, text_of(&tokens)));
        cases.push(Case::new(Section::Group, name, &what, EDIT_TOKENS, input));
    }
    cases
}

/// The used tokens after an edit that is done, by the plain version.
fn edited(table: &[u64], buffer: &[u32], used: usize, edit: &Edit) -> Vec<u32> {
    let mut lent = buffer.to_vec();
    let plain = Plain { keys: Keys::Field };
    let mut counts = cases::counts_of(table, buffer, used as u64);
    let answer = plain.edit(table, &mut lent, used as u64, edit.operation, edit.place, &edit.piece, &mut [0; BACK], &mut counts);
    if answer.number != 0 {
        stop("the plain version refuses an edit that is to be done");
    }
    lent.truncate(answer.used as usize);
    lent
}

fn table_of(schema: &[u32]) -> Vec<u64> {
    let mut table = vec![0; WORDS];
    if (Plain { keys: Keys::Field }).translate(&documents::file(schema), &mut table) != 0 {
        stop("the plain version refuses a schema");
    }
    table
}

fn cases_of_files() -> Vec<Case> {
    let mut cases = Vec::new();
    let translate =
        |name, schema: &[u32]| Case::new(Section::File, name, "translate", 0, Input::Translate { file: documents::file(schema) });
    cases.push(translate("small shade", &documents::SMALL_SHADE));
    cases.push(translate("schema at the limits", &documents::dense_schema()));
    let dense = Input::Check { table: Rc::new(table_of(&documents::dense_schema())), buffer: vec![0; 2], used: 0, number: 4, text: None };
    cases.push(Case::new(Section::File, "schema at the limits", "test of the table alone", 0, dense));
    let most_fixed = Rc::new(table_of(&documents::dense_schema_with_fixed()));
    let most_fixed = Input::Check { table: most_fixed, buffer: vec![0; 2], used: 0, number: 4, text: None };
    cases.push(Case::new(Section::File, "schema at the limits, 16 fixed attributes", "test of the table alone", 0, most_fixed));
    cases.extend(small_and_bare());
    cases.extend(comparisons());
    cases.extend(imports());
    let mix = Mix::FewIds;
    for size in SIZES {
        let tokens = mix.document(size);
        let file = documents::file(&tokens);
        cases.push(Case::new(Section::File, mix.name(), "read", size, Input::Read { file, tokens: size }));
    }
    for size in SIZES {
        cases.push(Case::new(Section::File, mix.name(), "write", size, Input::Write { tokens: mix.document(size) }));
    }
    for mix in MIXES {
        for size in SIZES {
            let tokens = mix.document(size);
            let input = Input::Load {
                schema: documents::file(&mix.schema()),
                file: documents::file(&tokens),
                tokens: size,
                text: xml::doctype(&mix.schema()) + &xml::document(&tokens),
            };
            cases.push(Case::new(Section::File, mix.name(), "load", size, input));
        }
    }
    cases
}

/// The paper's small document, and large ones with no ID and with fixed captions: each checked, and an insert with the remove that takes it
/// back.
fn small_and_bare() -> Vec<Case> {
    let bare = documents::no_ids(EDIT_TOKENS);
    let bare_pair = Mix::Depth64.pairs(&bare, SPOTS[0]).swap_remove(0);
    let mut cases = judged("small shade", &documents::SMALL_SHADE, &documents::SMALL_DOCUMENT, documents::small_pair());
    cases.extend(judged("no ID", &Mix::Depth64.schema(), &bare, bare_pair));
    let (schema, fixed) = documents::fixed_captions(EDIT_TOKENS);
    let fixed_pair = Mix::FewIds.pairs(&fixed, SPOTS[0]).swap_remove(0);
    cases.extend(judged("fixed captions", &schema, &fixed, fixed_pair));
    cases
}

/// A document's check, an edit of it with the one that takes it back, and the question for its elements.
fn judged(name: &'static str, schema: &[u32], tokens: &[u32], pair: documents::Pair) -> Vec<Case> {
    let table = Rc::new(table_of(schema));
    let doctype = xml::doctype(schema);
    let text_of = |tokens: &[u32]| doctype.clone() + &xml::document(tokens);
    let mut buffer = tokens.to_vec();
    buffer.resize(ROOM, 0);
    let used = tokens.len();
    let check = Input::Check { table: table.clone(), buffer: buffer.clone(), used: used as u64, number: 0, text: Some(text_of(tokens)) };
    let counts = cases::counts_of(&table, &buffer, used as u64);
    let count = counts[ITEM as usize] as u32;
    let elements = Input::Elements { table: table.clone(), counts, name: ITEM, count };
    let elements = Case::new(Section::File, name, "elements", used, elements);
    let texts = [text_of(&edited(&table, &buffer, used, &pair.edit)), text_of(tokens)];
    let both = Input::Pair { table, buffer, used: used as u64, edit: pair.edit, back: pair.back, texts };
    let mut edits = Case::new(Section::File, name, pair.name, used, both);
    edits.rows.push(Row::new(Section::File, name, pair.back_name, used));
    vec![Case::new(Section::File, name, "check", used, check), edits, elements]
}

/// A DTD at the limits of elements and attributes in about 8 KB, and hostile texts of 65,536 bytes.
fn imports() -> Vec<Case> {
    let import = |(name, text, number, taken): (&'static str, Vec<u8>, u32, bool)| {
        let section = if text.len() > texts::ORDINARY { Section::Hostile } else { Section::File };
        Case::new(section, name, "import", 0, Input::Import { text, number, taken })
    };
    texts::all().into_iter().map(import).collect()
}

/// Two cycles of 64 and 63 occurrences meet in 4,033 pairs. The new one may end everywhere, or everywhere but where both come round.
fn comparisons() -> Vec<Case> {
    let (small, other) = (table_of(&documents::SMALL_SHADE), table_of(&documents::other_small_shade()));
    let (old, cycle, dense) = (table_of(&documents::cycle(64)), table_of(&documents::cycle(63)), table_of(&documents::dense_schema()));
    let ending_at = |last: u64| {
        let mut new = cycle.clone();
        new[LAST_OF_0] = last;
        new
    };
    let compare = |name, old: &[u64], new: Vec<u64>, lost| {
        Case::new(Section::File, name, "compare", 0, Input::Compare { old: old.to_vec(), new, lost })
    };
    vec![
        compare("small shade, 3 names lost", &small, other, Some(3)),
        compare("schema at the limits, with itself", &dense, dense.clone(), None),
        compare("4,033 pairs, nothing lost", &old, ending_at(u64::MAX >> 1), None),
        compare("4,033 pairs, 4,032 names lost", &old, ending_at(u64::MAX >> 2), Some(4032)),
    ]
}

/// Times all cases of a group by all who can run them, taking turns.
fn time(group: &mut [Case], contenders: &[&dyn Calls; 3], plan: &Plan) {
    let mut jobs = Vec::new();
    let mut whose = Vec::new();
    for (case, Case { input, .. }) in group.iter().enumerate() {
        for (who, job) in input.jobs(contenders) {
            whose.push((case, who as usize));
            jobs.push(job);
        }
    }
    let times = timing::run(&mut jobs, plan);
    drop(jobs);
    for ((case, who), times) in whose.into_iter().zip(times) {
        for (row, time) in group[case].rows.iter_mut().zip(times) {
            row.times[who] = Some(time);
        }
    }
}

fn method(plan: &Plan, report: &Report, inputs: usize, by_chance: u64) -> String {
    let (spread, widest) = report.spread();
    let mut text = String::from("## The mixes\n\n");
    for mix in MIXES {
        text += &format!("- {}: {}.\n", mix.name(), mix.about());
    }
    text += "- fixed captions: few IDs, the captions of rows fixed to one value, which every second row has (libxml2 adds it to the others when \
             it parses).\n";
    text += &format!(
        "\n## How it was measured\n\n\
         - Core: the archive's twelve calls through C. Plain: a straightforward safe Rust version of the same calls with the same promises \
         (`bench/src/plain`), IDs compared in pairs; the second one marks them in a field of 65,536 bits and is the same otherwise. \
         Both are compiled with optimisation 3; the archive is not optimised across its border. Checks, edits and lists keep the counts of elements, in \
         all three.\n\
         - Before timing, core and both plain versions gave the same answers and left the same memory on all {} inputs and on {} calls \
         by chance{}.\n\
         - Each time is the median of {} samples; a sample repeats the call for at least {} ms. The clock is that of the thread, which stands still while other programs run. In one round every contender takes one sample \
         of every input of a mix, so that a drift of the machine meets all. Half of the samples lie within {:.0} % of the median \
         for the middle row and within {:.0} % for the worst.\n\
         - \"Near\" marks a ratio within {:.0} % of its limit: another run may find it on the other side. Ratios also move with the compiler \
         of the plain version and with where the linker puts a short loop, those of the pairs of IDs most.\n\
         - An edit and the one that takes it back take turns on one buffer, each timed by itself: insert and remove, set and drop, replace \
         and replace (the first of the two is shown). All are done, none refused.\n\
         - A list and the one that takes it back take turns on one buffer, and so do their single calls and libxml2's changes; the time is that \
         of both, for each edit. Before timing, each list was compared with its single calls, and libxml2's tree behind the changes with the \
         tree of the edited document.\n\
         - A group and the one that takes it back take turns in the same way; the time is that of one of them.\n\
         - The documents that are edited have {} tokens, so that an insert fits into {}.\n",
        inputs,
        grouped(by_chance as usize),
        if cfg!(feature = "libxml2") { ", and libxml2 found the same documents valid and invalid" } else { ". libxml2 is left out" },
        plan.samples,
        plan.sample.as_millis(),
        spread * 50.0,
        widest * 50.0,
        report::NEAR * 100.0,
        grouped(EDIT_TOKENS),
        grouped(ROOM),
    );
    text
}
