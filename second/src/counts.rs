//! How often each answer was given, and which must be.

use second::case::{Case, Outcome, Said};
use second::make::programs::WAYS;
use std::collections::BTreeMap;

/// The answers are the numbers below this.
const ANSWERS: usize = 17;

/// The answers that each kind of call can give. Those of an edit are asked for by operation, and more often than rarely by how its second
/// buffer (`back`) fits by where its counts go and by what a set finds; those of a list by how many edits it has, which is refused, and by its own faults.
const CALLS: [(&str, &[usize]); 80] = [
    ("read", &[0, 1, 5]),
    ("write", &[0, 4, 5]),
    ("translate", &[0, 1, 2, 3, 13]),
    ("import", &[0, 2, 5, 14]),
    ("names", &[0, 2, 5, 14]),
    ("import spot", &[0, 2, 14]),
    ("import, translate", &[0, 3]),
    ("check", &[0, 4, 8, 9, 10, 11, 12, 13]),
    ("insert", &[0, 4, 5, 6, 7, 8, 9, 10, 11, 12, 13, 15]),
    ("remove", &[0, 4, 5, 6, 7, 8, 9, 10, 11, 12, 13, 15]),
    ("replace", &[0, 4, 5, 6, 7, 8, 9, 10, 11, 12, 13, 15]),
    ("set", &[0, 4, 5, 6, 7, 8, 9, 10, 11, 12, 13, 15]),
    ("drop", &[0, 4, 5, 6, 7, 8, 9, 10, 11, 12, 13, 15]),
    ("no operation", &[4, 6, 13]),
    ("back just enough", &[0, 7, 8, 9, 10, 11, 12]),
    ("back one short", &[5]),
    ("back short, else", &[0, 7, 8, 9, 10, 11, 12]),
    ("back of 0", &[5]),
    ("back of 1", &[5]),
    ("back of 2", &[5]),
    ("back of 3", &[0, 5, 8, 9, 12]),
    ("back over 8,000", &[0, 5]),
    ("set adds", &[0, 5, 8, 12]),
    ("set replaces", &[0, 5, 8, 12]),
    ("set as it was", &[0, 5, 12]),
    ("steps back", &[0]),
    ("counts true", &[0, 7, 8, 9, 10, 11, 12]),
    ("counts to 8,192", &[0]),
    ("counts to -1", &[15]),
    ("counts past 8,192", &[15]),
    ("counts from E on", &[15]),
    ("counts at i32's ends", &[15]),
    ("counts out, else", &[0, 7, 8, 9, 10, 12]),
    ("counts out, no back", &[5]),
    ("elements", &[0, 13, 15]),
    ("elements, E to 47", &[0, 15]),
    ("elements, 48 on", &[0, 15]),
    ("list", &[0, 4, 5, 6, 7, 8, 9, 10, 11, 12, 13, 15]),
    ("list of one", &[0, 4, 5, 6, 8, 9, 12, 13]),
    ("list of 256", &[0, 4]),
    ("list, first refused", &[4, 5, 6, 8, 9, 10, 12, 13]),
    ("list, later refused", &[4, 5, 6, 8, 9, 10, 12, 15]),
    ("list, long piece", &[4]),
    ("list empty", &[4]),
    ("list ends in a head", &[4]),
    ("list ends in a piece", &[4]),
    ("list of 257", &[5]),
    ("list of 256, rest", &[5]),
    ("group", &[0, 4, 5, 6, 8, 9, 10, 11, 12, 13]),
    ("group, the list", &[4, 5]),
    ("group, second short", &[4, 5, 13]),
    ("group, first edit", &[4, 5, 6]),
    ("group, later edit", &[4, 5, 6]),
    ("group, the end", &[0, 8, 9, 10, 11, 12]),
    ("group, as long", &[0, 4, 5, 6, 8, 9, 12]),
    ("group of 256", &[0]),
    ("group, longer within", &[0]),
    ("group shortens", &[0]),
    ("group, not shorter", &[0]),
    ("fixed, none", &[0]),
    ("fixed, one", &[0]),
    ("fixed, 16", &[0]),
    ("fixed, 17th", &[2]),
    ("fixed, not CDATA", &[2]),
    ("fixed, value", &[2]),
    ("table: 17 fixed", &[13]),
    ("table: fixed unused", &[13]),
    ("table: fixed rising", &[13]),
    ("table: fixed from E", &[13]),
    ("table: fixed barred", &[13]),
    ("table: fixed key", &[13]),
    ("table: fixed needed", &[13]),
    ("table: fixed value", &[13]),
    ("fixed right", &[0]),
    ("fixed wrong", &[8]),
    ("fixed twice", &[8]),
    ("set fixed", &[0, 5, 8]),
    ("compare yes", &[0]),
    ("compare no", &[0]),
    ("compare refused", &[5, 6, 13, 16]),
];

/// The lines that the edit program can print. Its document is valid before each edit, so none gives 7.
const LINES: [(&str, &[usize]); 7] = [
    ("program stop missing", &[5]),
    ("program stop long", &[5]),
    ("program stop schema", &[1, 2, 3]),
    ("program stop document", &[1, 5]),
    ("program check", &[0, 4, 8, 9, 10, 11, 12]),
    ("program edit", &[0, 4, 5, 6, 8, 9, 10, 11, 12]),
    ("program stop edits", &[1, 5]),
];

#[derive(Default)]
pub struct Counts {
    rows: BTreeMap<&'static str, [u64; ANSWERS]>,
    pub cases: u64,
    pub programs: u64,
    /// Of edits that were done: the greatest loss and gain in length, and how many began or ended at 8,192 tokens.
    loss: i32,
    gain: i32,
    full: u64,
    longest_piece: usize,
    /// Of edits that were done: the most children looked at.
    most_children: u32,
    /// Runs of edits that were stepped back whole, and the most edits of one.
    runs_back: usize,
    longest_run_back: usize,
    /// Of comparisons that say no.
    longest_lost: u32,
}

impl Counts {
    pub fn add(&mut self, case: &Case, outcome: &Outcome) {
        self.cases += 1;
        self.programs += u64::from(matches!(case, Case::Program(_)));
        for (what, number) in &outcome.counted {
            self.rows.entry(what).or_insert([0; ANSWERS])[*number as usize] += 1;
        }
        if let Said::Compared { length, .. } = &outcome.said {
            self.longest_lost = self.longest_lost.max(*length);
        }
        if let (Case::Edit { used, edit, .. }, Said::Answer(answer)) = (case, &outcome.said) {
            self.longest_piece = self.longest_piece.max(edit.piece.len());
            if answer.number == 0 {
                self.loss = self.loss.min(answer.change);
                self.gain = self.gain.max(answer.change);
                self.full += u64::from(*used == 8_192 || answer.used == 8_192);
                self.most_children = self.most_children.max(answer.children);
            }
        }
    }

    /// The runs of a group that were stepped back: the edits of each.
    pub fn stepped_back(&mut self, runs: &[usize]) {
        self.runs_back += runs.len();
        self.longest_run_back = runs.iter().copied().fold(self.longest_run_back, usize::max);
    }

    pub fn print(&self) {
        let head: Vec<String> = (0..ANSWERS).map(|number| format!("{number:>7}")).collect();
        println!("{:21}{}", "answers", head.concat());
        for (what, _) in CALLS.iter().chain(&LINES) {
            if let Some(row) = self.rows.get(what) {
                let row: Vec<String> = row.iter().map(|count| format!("{:>7}", dot_or(*count))).collect();
                println!("{what:21}{}", row.concat());
            }
        }
        let Counts { loss, gain, full, longest_piece, most_children, longest_lost, .. } = self;
        println!("edits done: change from {loss} to {gain}, {full} at 8192 tokens; longest piece {longest_piece}");
        println!("edits done: at most {most_children} children looked at");
        println!("runs stepped back: {}, the longest of {} edits", self.runs_back, self.longest_run_back);
        println!("comparisons: longest sequence lost {longest_lost}");
    }

    /// The answers that could have been given and were not, if there were enough cases to ask for all.
    pub fn missing(&self) -> Vec<String> {
        let mut missing = Vec::new();
        if self.cases >= 20_000 {
            missing.extend(self.lacking(&CALLS));
            if self.longest_run_back < 3 {
                missing.push("a run of three edits stepped back".to_string());
            }
        }
        if self.programs >= 2 * WAYS as u64 {
            missing.extend(self.lacking(&LINES));
        }
        missing
    }

    fn lacking(&self, asked: &[(&'static str, &[usize])]) -> Vec<String> {
        let count = |what: &str, number: usize| self.rows.get(what).map_or(0, |row| row[number]);
        let lacks = |what: &str, numbers: &[usize]| {
            let absent = numbers.iter().filter(|number| count(what, **number) == 0);
            absent.map(|number| format!("{what} {number}")).collect::<Vec<String>>()
        };
        asked.iter().flat_map(|(what, numbers)| lacks(what, numbers)).collect()
    }
}

fn dot_or(count: u64) -> String {
    match count {
        0 => ".".to_string(),
        _ => count.to_string(),
    }
}
