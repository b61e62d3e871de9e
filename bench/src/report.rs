//! The tables, as Markdown.

use crate::timing::Time;
use std::fmt::Write;

/// Who is timed.
#[derive(Clone, Copy, PartialEq, Eq, Debug)]
pub enum Who {
    Core,
    Plain,
    Field,
    Libxml2,
    /// The core's single calls, where a list is timed.
    Single,
    /// libxml2's check of the parent alone.
    Parent,
    /// The moving of the tokens.
    Moving,
}

/// Those who are timed on all inputs.
pub const WHO: [Who; 4] = [Who::Core, Who::Plain, Who::Field, Who::Libxml2];
const ALL: usize = 7;

impl Who {
    pub fn name(self) -> &'static str {
        match self {
            Who::Core => "core",
            Who::Plain => "plain",
            Who::Field => "plain, bit field",
            Who::Libxml2 => "libxml2",
            Who::Single => "core, single calls",
            Who::Parent => "libxml2, parent alone",
            Who::Moving => "moving",
        }
    }
}

#[derive(Clone, Copy, PartialEq, Eq)]
pub enum Section {
    Check,
    Edit,
    CheckPart,
    EditPart,
    File,
    Hostile,
    List,
    Group,
}

/// What was timed, and the times of each who did it.
pub struct Row {
    pub section: Section,
    pub mix: &'static str,
    pub what: String,
    pub spot: &'static str,
    pub tokens: usize,
    pub times: [Option<Time>; ALL],
}

impl Row {
    pub fn new(section: Section, mix: &'static str, what: &str, tokens: usize) -> Row {
        Row { section, mix, what: what.to_string(), spot: "", tokens, times: [None; ALL] }
    }

    pub fn median(&self, who: Who) -> Option<f64> {
        self.times[who as usize].map(|time| time.median)
    }

    fn ratio(&self, over: Who, under: Who) -> Option<f64> {
        Some(self.median(over)? / self.median(under)?)
    }
}

/// The sizes whose checks stand in the table; the plot has more.
pub const SIZES: [usize; 3] = [1000, 4000, 8192];

/// Most that a call of the core may cost, in calls of the plain version.
pub const MOST_PLAIN: f64 = 1.5;
/// Most that a check or an edit of the core may cost, in those of the plain version with a bit field.
pub const MOST_FIELD: f64 = 1.2;
/// Most that an edit may cost, in whole checks of the same document.
pub const MOST_CHECKS: f64 = 1.2;
/// Most that a list of 256 edits may cost, in its single calls: where a parent has few children, and where it has many.
pub const MOST_SINGLE: f64 = 0.1;
pub const MOST_SINGLE_WIDE: f64 = 1.0 / 3.0;
/// The mixes in which a parent has many children.
const WIDE: [&str; 2] = ["2,000 IDs", "40-name choice"];
/// The list that the limits speak of.
const LONGEST: &str = "256 edits";
/// Most nanoseconds that a hostile text may take.
pub const MOST_HOSTILE: f64 = 1e9;

/// The calls of the files' table that are checks and edits.
const JUDGED: [&str; 3] = ["check", "insert", "remove"];

/// A ratio this near to its limit, as a part of the limit, may fall on the other side in another run.
pub const NEAR: f64 = 0.05;

pub struct Report<'a> {
    pub rows: &'a [Row],
    pub edit_tokens: usize,
}

impl Report<'_> {
    fn section(&self, section: Section) -> impl Iterator<Item = &Row> {
        self.rows.iter().filter(move |row| row.section == section)
    }

    /// The rows that the limits speak of.
    fn limited(&self) -> impl Iterator<Item = &Row> {
        self.rows.iter().filter(|row| match row.section {
            Section::Check => SIZES.contains(&row.tokens) || row.tokens == self.edit_tokens,
            Section::Edit | Section::File | Section::Group => true,
            Section::CheckPart | Section::EditPart | Section::Hostile | Section::List => false,
        })
    }

    fn whole_check(&self, row: &Row) -> &Row {
        self.section(Section::Check)
            .find(|check| check.mix == row.mix && check.tokens == row.tokens)
            .expect("the document of an edit is checked")
    }

    /// An edit in whole checks of the same document.
    pub fn in_checks(&self, row: &Row, who: Who) -> Option<f64> {
        Some(row.median(who)? / self.whole_check(row).median(who)?)
    }

    pub fn text(&self) -> String {
        let mut text = String::new();
        self.limits(&mut text);
        self.checks(&mut text);
        self.edits(&mut text);
        self.lists(&mut text);
        self.groups(&mut text);
        self.files(&mut text);
        self.hostile(&mut text);
        self.parts(&mut text);
        text
    }

    fn limits(&self, text: &mut String) {
        text.push_str("## Limits\n\n| limit | measured | |\n|---|---|---|\n");
        let edits = self.section(Section::Edit).map(|row| (self.in_checks(row, Who::Core), row));
        limit(text, &format!("an edit costs at most {} whole checks of the same document", MOST_CHECKS), MOST_CHECKS, edits);
        let calls = |plain| self.limited().map(move |row| (row.ratio(Who::Core, plain), row));
        limit(text, &format!("every call within {} × plain, which compares IDs in pairs", MOST_PLAIN), MOST_PLAIN, calls(Who::Plain));
        let is_judged = |row: &Row| match row.section {
            Section::File => JUDGED.contains(&row.what.as_str()),
            section => section != Section::Group,
        };
        let judged = calls(Who::Field).filter(|(_, row)| is_judged(row));
        limit(text, &format!("every check and edit within {} × plain with a bit field", MOST_FIELD), MOST_FIELD, judged);
        let hostile = self.section(Section::Hostile).map(|row| (row.median(Who::Core).map(|ns| ns / MOST_HOSTILE), row));
        for (wide, most, words) in [(false, MOST_SINGLE, "a tenth"), (true, MOST_SINGLE_WIDE, "a third")] {
            let lists = self.section(Section::List).filter(|row| row.what == LONGEST && WIDE.contains(&row.mix) == wide);
            let lists: Vec<_> = lists.map(|row| (row.ratio(Who::Core, Who::Single), row)).collect();
            let mixes: Vec<&str> = lists.iter().map(|(_, row)| row.mix).collect();
            let what = format!("a list of {} within {} of its single calls: {}", LONGEST, words, mixes.join(", "));
            limit(text, &what, most, lists.into_iter());
        }
        limit(text, "a hostile DTD text within a second (in seconds)", 1.0, hostile);
        text.push('\n');
    }

    fn checks(&self, text: &mut String) {
        text.push_str("## Whole check\n\n");
        text.push_str("Microseconds a call; libxml2: `xmlValidateDocument` of the same document as a tree in memory.\n\n");
        text.push_str("| mix | tokens | core | plain | plain, bit field | libxml2 | ns a token: core | plain | libxml2 | core/plain | core/bit field | libxml2/core | within 1.2 × bit field |\n");
        text.push_str("|---|--:|--:|--:|--:|--:|--:|--:|--:|--:|--:|--:|---|\n");
        for row in self.section(Section::Check).filter(|row| SIZES.contains(&row.tokens)) {
            let per_token = |who| decimal(row.median(who).map(|ns| ns / row.tokens as f64), 1);
            writeln!(
                text,
                "| {} | {} | {} | {} | {} | {} | {} | {} | {} | {} |",
                row.mix,
                grouped(row.tokens),
                self.times(row),
                per_token(Who::Core),
                per_token(Who::Plain),
                per_token(Who::Libxml2),
                decimal(row.ratio(Who::Core, Who::Plain), 2),
                decimal(row.ratio(Who::Core, Who::Field), 2),
                decimal(row.ratio(Who::Libxml2, Who::Core), 1),
                kept(row.ratio(Who::Core, Who::Field), MOST_FIELD),
            )
            .unwrap();
        }
        text.push('\n');
    }

    fn edits(&self, text: &mut String) {
        writeln!(text, "## Edits at {} tokens\n", grouped(self.edit_tokens)).unwrap();
        text.push_str("Microseconds an edit that is done. \"Checks\": the core's edit in the core's whole checks of the same document. ");
        text.push_str(
            "libxml2: whole validation of the edited document, without the change of its tree, which a host pays in addition.\n\n",
        );
        text.push_str("| mix | edit | near the | core | plain | plain, bit field | libxml2 | core/plain | core/bit field | libxml2/core | checks | within 1.2 × bit field | within 1.2 checks |\n");
        text.push_str("|---|---|---|--:|--:|--:|--:|--:|--:|--:|--:|---|---|\n");
        for row in self.section(Section::Edit) {
            let checks = self.in_checks(row, Who::Core);
            writeln!(
                text,
                "| {} | {} | {} | {} | {} | {} | {} | {} | {} | {} |",
                row.mix,
                row.what,
                row.spot,
                self.times(row),
                decimal(row.ratio(Who::Core, Who::Plain), 2),
                decimal(row.ratio(Who::Core, Who::Field), 2),
                decimal(row.ratio(Who::Libxml2, Who::Core), 1),
                decimal(checks, 2),
                kept(row.ratio(Who::Core, Who::Field), MOST_FIELD),
                kept(checks, MOST_CHECKS),
            )
            .unwrap();
        }
        text.push('\n');
    }

    fn lists(&self, text: &mut String) {
        writeln!(text, "## Lists of edits at {} tokens\n", grouped(self.edit_tokens)).unwrap();
        text.push_str(
            "Nanoseconds an edit of a script step: insert, remove, set, drop and replace in turn, spread over the document in no order of ",
        );
        text.push_str("places, all done, and the step that takes them back. \"Single calls\": the same edits by the core, a call each. \"Bit field\": the plain ");
        text.push_str("version's list, which makes single edits one after another. \"Whole\": libxml2, the change of its tree and whole validation after each. ");
        text.push_str("\"Parent alone\": the change and `xmlValidateOneElement` of the parent and of the piece, **which misses IDs, references and the values of ");
        text.push_str("attributes**: it does not tell whether the document is valid. \"Moving\": the tokens behind the place moved and nothing else, the floor.\n\n");
        text.push_str("| mix | list of | core, list | core, single calls | plain, bit field | libxml2, whole | libxml2, parent alone | moving | list/single | list/bit field | list/moving | whole/list | parent alone/list |\n");
        text.push_str("|---|---|--:|--:|--:|--:|--:|--:|--:|--:|--:|--:|--:|\n");
        for row in self.section(Section::List) {
            let times = [Who::Core, Who::Single, Who::Field, Who::Libxml2, Who::Parent, Who::Moving].map(|who| decimal(row.median(who), 0));
            writeln!(
                text,
                "| {} | {} | {} | {} | {} | {} | {} | {} |",
                row.mix,
                row.what,
                times.join(" | "),
                decimal(row.ratio(Who::Core, Who::Single), 3),
                decimal(row.ratio(Who::Core, Who::Field), 3),
                decimal(row.ratio(Who::Core, Who::Moving), 1),
                decimal(row.ratio(Who::Libxml2, Who::Core), 1),
                decimal(row.ratio(Who::Parent, Who::Core), 1),
            )
            .unwrap();
        }
        text.push_str("\nWhere a parent has many children (2,000 panels of one shade, all children of the 40-name choice) they are walked from the first at each ");
        text.push_str("edit. Remembering at each child the occurrence that the run stood at would save the walk: it would begin at the place and end where it ");
        text.push_str("meets a remembered occurrence (in C, measured on the same documents: under 1 µs an edit on every mix). It would need a byte for each ");
        text.push_str(
            "of 8,192 tokens, moved with them, and the law that a run goes on from an occurrence alike wherever it came from.\n\n",
        );
    }

    fn groups(&self, text: &mut String) {
        writeln!(text, "## Groups of edits at {} tokens\n", grouped(self.edit_tokens)).unwrap();
        text.push_str(
            "Microseconds a group that is done. Rename: an ID that is referred to and all its references get another value. Script step: ",
        );
        text.push_str("the longest list above. \"Checks\": the core's group in the core's whole checks of the same document. libxml2: the changes of ");
        text.push_str("its tree, and whole validation once behind them; a group that is refused, it would have to take back.\n\n");
        text.push_str("| mix | group | core | plain | plain, bit field | libxml2 | core/plain | core/bit field | libxml2/core | checks | within 1.5 × plain |\n");
        text.push_str("|---|---|--:|--:|--:|--:|--:|--:|--:|--:|---|\n");
        for row in self.section(Section::Group) {
            writeln!(
                text,
                "| {} | {} | {} | {} | {} | {} | {} | {} |",
                row.mix,
                row.what,
                self.times(row),
                decimal(row.ratio(Who::Core, Who::Plain), 2),
                decimal(row.ratio(Who::Core, Who::Field), 2),
                decimal(row.ratio(Who::Libxml2, Who::Core), 1),
                decimal(self.in_checks(row, Who::Core), 2),
                kept(row.ratio(Who::Core, Who::Plain), MOST_PLAIN),
            )
            .unwrap();
        }
        text.push('\n');
    }

    fn hostile(&self, text: &mut String) {
        text.push_str("## Hostile DTD texts\n\n");
        text.push_str("Microseconds an import of 65,536 bytes. What goes past the core's tables (brackets over some 30 deep that close, ");
        text.push_str("ATTLISTs of a 49th name) is found again in the text: no array depends on what a text holds.\n\n");
        text.push_str(
            "| text | core | plain | plain, bit field | libxml2 | core/plain | within a second |\n|---|--:|--:|--:|--:|--:|---|\n",
        );
        for row in self.section(Section::Hostile) {
            let seconds = row.median(Who::Core).map(|ns| ns / MOST_HOSTILE);
            let (times, ratio) = (self.times(row), decimal(row.ratio(Who::Core, Who::Plain), 2));
            writeln!(text, "| {} | {} | {} | {} |", row.mix, times, ratio, kept(seconds, 1.0)).unwrap();
        }
        text.push('\n');
    }

    fn files(&self, text: &mut String) {
        text.push_str("## Files\n\n");
        text.push_str("Microseconds a call. Load is translate, read and check, from the two files to a judged document; libxml2: ");
        text.push_str("the same schema and document as one XML text, parsed to a tree and validated, tree freed. ");
        text.push_str("Read, write, translate, elements and compare have no counterpart there.\n\n");
        text.push_str("| call | input | core | plain | plain, bit field | libxml2 | core/plain | core/bit field | libxml2/core | within 1.5 × plain |\n");
        text.push_str("|---|---|--:|--:|--:|--:|--:|--:|--:|---|\n");
        for row in self.section(Section::File) {
            let input = match row.tokens {
                0 => row.mix.to_string(),
                tokens => format!("{}, {} tokens", row.mix, grouped(tokens)),
            };
            writeln!(
                text,
                "| {} | {} | {} | {} | {} | {} | {} |",
                row.what,
                input,
                self.times(row),
                decimal(row.ratio(Who::Core, Who::Plain), 2),
                decimal(row.ratio(Who::Core, Who::Field), 2),
                decimal(row.ratio(Who::Libxml2, Who::Core), 1),
                kept(row.ratio(Who::Core, Who::Plain), MOST_PLAIN),
            )
            .unwrap();
        }
        text.push('\n');
    }

    /// The parts of a call, each the difference of two rows that stop one step apart.
    fn parts(&self, text: &mut String) {
        text.push_str("## Parts of a check\n\n");
        text.push_str(
            "Microseconds, by differences of refused checks: the table's test is a check of a document with used length 0 (answer 4); ",
        );
        text.push_str(
            "shape is what an edit with operation 0 costs more, which stops behind it (6); then come a check of a document whose root has ",
        );
        text.push_str("another name (10), behind which the core has found the matching ends and plain has not; one whose last element has an unknown ");
        text.push_str("attribute (8); and the valid document (0).\n\n");
        text.push_str("| mix | tokens | who | table | shape | to the root's name | to the last element | IDs | whole |\n|---|--:|---|--:|--:|--:|--:|--:|--:|\n");
        for check in self.section(Section::Check).filter(|row| row.tokens == self.edit_tokens) {
            let steps: Vec<&Row> = self.section(Section::CheckPart).filter(|row| row.mix == check.mix).chain([check]).collect();
            for who in [Who::Core, Who::Plain, Who::Field] {
                write!(text, "| {} | {} | {} |", check.mix, grouped(check.tokens), who.name()).unwrap();
                differences(text, &steps, who);
            }
        }
        text.push_str("\n## Parts of an insert\n\n");
        text.push_str("Microseconds, by differences of inserts that are refused one step later each: operation 0 (6); a full buffer (5); ");
        text.push_str("an unknown attribute in the piece (8), the parent judged before; a reference to none in the piece (12); the insert that is done. ");
        text.push_str("Differences of a few tenths are noise.\n\n");
        text.push_str("| mix | near the | who | table, shape | piece, place, size | splice, ends, touched elements | IDs | copy back | whole |\n|---|---|---|--:|--:|--:|--:|--:|--:|\n");
        for insert in self.section(Section::Edit).filter(|row| row.what == "insert") {
            let same = |row: &&Row| row.mix == insert.mix && row.spot == insert.spot;
            let steps: Vec<&Row> = self.section(Section::EditPart).filter(same).chain([insert]).collect();
            for who in [Who::Core, Who::Plain, Who::Field] {
                write!(text, "| {} | {} | {} |", insert.mix, insert.spot, who.name()).unwrap();
                differences(text, &steps, who);
            }
        }
        text.push('\n');
    }

    fn times(&self, row: &Row) -> String {
        let cell = |who: Who| decimal(row.median(who).map(|ns| ns / 1000.0), 1);
        WHO.map(cell).join(" | ")
    }

    /// Median and largest of the quartiles' distances.
    pub fn spread(&self) -> (f64, f64) {
        let mut spreads: Vec<f64> = self.rows.iter().flat_map(|row| row.times.iter().flatten().map(|time| time.spread)).collect();
        spreads.sort_by(f64::total_cmp);
        (spreads[spreads.len() / 2], spreads[spreads.len() - 1])
    }
}

fn differences(text: &mut String, steps: &[&Row], who: Who) {
    let mut before = 0.0;
    for step in steps {
        let now = step.median(who).unwrap_or(0.0);
        write!(text, " {:.1} |", (now - before) / 1000.0).unwrap();
        before = now;
    }
    writeln!(text, " {:.1} |", before / 1000.0).unwrap();
}

fn limit<'a>(text: &mut String, what: &str, most: f64, measured: impl Iterator<Item = (Option<f64>, &'a Row)>) {
    let mut measured: Vec<(f64, &Row)> = measured.filter_map(|(ratio, row)| Some((ratio?, row))).collect();
    measured.sort_by(|a, b| b.0.total_cmp(&a.0));
    let over: Vec<_> = measured.iter().take_while(|(ratio, _)| *ratio > most).collect();
    let near = measured.iter().filter(|(ratio, _)| is_near(*ratio, most)).count();
    let say = |(ratio, row): &(f64, &Row)| format!("{:.2} ({})", ratio, place_of(row));
    if over.is_empty() {
        let largest = measured.first().map_or(String::new(), say);
        writeln!(text, "| {} | at most {}; {} of {} near the limit | kept |", what, largest, near, measured.len()).unwrap();
    } else {
        // Of each call and mix the largest; the five edits are one call.
        let call = |row: &Row| if row.section == Section::Edit { "edit".to_string() } else { row.what.clone() };
        let mut shown: Vec<&(f64, &Row)> = Vec::new();
        for pair in over.iter().copied() {
            if !shown.iter().any(|(_, row)| row.mix == pair.1.mix && call(row) == call(pair.1)) {
                shown.push(pair);
            }
        }
        let largest: Vec<String> = shown.into_iter().map(say).collect();
        writeln!(
            text,
            "| {} | {} of {} above, the largest of each call and mix: {}; {} near the limit | not kept |",
            what,
            over.len(),
            measured.len(),
            largest.join("; "),
            near
        )
        .unwrap();
    }
}

fn place_of(row: &Row) -> String {
    let mut words = vec![row.mix.to_string(), row.what.clone()];
    if !row.spot.is_empty() {
        words.push(row.spot.to_string());
    }
    if row.tokens > 0 {
        words.push(format!("{} tokens", grouped(row.tokens)));
    }
    words.join(", ")
}

fn kept(ratio: Option<f64>, most: f64) -> &'static str {
    match ratio {
        Some(ratio) if ratio <= most => {
            if is_near(ratio, most) {
                "kept, near"
            } else {
                "kept"
            }
        }
        Some(ratio) => {
            if is_near(ratio, most) {
                "**not kept**, near"
            } else {
                "**not kept**"
            }
        }
        None => "",
    }
}

fn is_near(ratio: f64, most: f64) -> bool {
    (ratio - most).abs() <= NEAR * most
}

fn decimal(value: Option<f64>, places: usize) -> String {
    value.map_or(String::new(), |value| format!("{:.*}", places, value))
}

pub fn grouped(number: usize) -> String {
    match number {
        0..=999 => number.to_string(),
        _ => format!("{},{:03}", number / 1000, number % 1000),
    }
}
