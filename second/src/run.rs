//! Runs the cases of a seed, up to the first difference.

use crate::calls::{in_words, Caller};
use crate::counts::Counts;
use crate::memory::LastCase;
use second::case::{Case, Outcome};
use second::make::group::{Group, PROGRAM_SLOTS, SLOTS};
use second::random::Random;
use second::saved;
use std::fs;
use std::io::Result;
use std::path::{Path, PathBuf};

/// Where cases are saved, from the folder of the run.
const SAVED: &str = "target/second";

pub struct Order {
    pub seed: u64,
    pub count: u64,
    pub program: Option<PathBuf>,
    /// The edit program is run for one schema in so many.
    pub every: u64,
}

/// On which side of their fields the buffers of a case stand, one bit each.
fn sides(number: u64) -> u8 {
    ((number + number / SLOTS) % 32) as u8
}

/// The case of a number. The slots before it are made too, as a run of edits hangs on them.
fn case_of(seed: u64, number: u64, every: u64) -> Case {
    let mut group = Group::new(seed, number / SLOTS);
    for slot in 0..number % SLOTS {
        let case = made(&mut group, seed, number / SLOTS * SLOTS + slot, every);
        group.went(&case, &case.outcome());
    }
    made(&mut group, seed, number, every)
}

fn made(group: &mut Group, seed: u64, number: u64, every: u64) -> Case {
    let mut random = Random::new(seed.rotate_left(32), number);
    group.case(&mut random, number % SLOTS, number / SLOTS / every)
}

/// Runs the order; true if all agreed and every answer occurred that had to.
pub fn run(order: Order) -> Result<bool> {
    fs::create_dir_all(SAVED)?;
    let mut last = LastCase::new(&Path::new(SAVED).join("last"))?;
    let mut counts = Counts::default();
    let has_program = order.program.is_some();
    let mut caller = Caller::new(order.program);
    let mut group_number = 0;
    'groups: loop {
        let mut group = Group::new(order.seed, group_number);
        let slots = match has_program && group_number % order.every == 0 {
            true => SLOTS,
            false => SLOTS - PROGRAM_SLOTS,
        };
        for slot in 0..slots {
            if counts.cases == order.count {
                break 'groups;
            }
            let number = group_number * SLOTS + slot;
            last.note(order.seed, number);
            let case = made(&mut group, order.seed, number, order.every);
            let outcome = case.outcome();
            let differences = caller.compare(&case, sides(number), &outcome);
            if !differences.is_empty() {
                report(order.seed, number, &case, &outcome, &differences)?;
                return Ok(false);
            }
            group.went(&case, &outcome);
            counts.add(&case, &outcome);
        }
        counts.stepped_back(&group.stepped_back);
        group_number += 1;
    }
    counts.print();
    let missing = counts.missing();
    println!("seed {}: {} cases agreed, {} of them runs of the edit program", order.seed, counts.cases, counts.programs);
    if !missing.is_empty() {
        println!("answers that did not occur: {}", missing.join(", "));
    }
    Ok(missing.is_empty())
}

fn report(seed: u64, number: u64, case: &Case, outcome: &Outcome, differences: &[String]) -> Result<()> {
    let folder = folder_of(seed, number);
    saved::save(&folder, case, sides(number))?;
    let text = format!("{}\n  expected {}\n  {}\n", case.in_words(), in_words(&outcome.said), differences.join("\n  "));
    fs::write(folder.join("difference.txt"), &text)?;
    println!("seed {seed}, case {number}: a difference\n{text}saved in {}", folder.display());
    Ok(())
}

fn folder_of(seed: u64, number: u64) -> PathBuf {
    Path::new(SAVED).join(format!("{seed}-{number}"))
}

/// Saves a case without running it.
pub fn save(seed: u64, number: u64, every: u64) -> Result<()> {
    let case = case_of(seed, number, every);
    let folder = folder_of(seed, number);
    saved::save(&folder, &case, sides(number))?;
    println!("{}\nexpected {}\nsaved in {}", case.in_words(), in_words(&case.outcome().said), folder.display());
    Ok(())
}

/// Runs a saved case; true if it agreed.
pub fn replay(folder: &Path, program: Option<PathBuf>) -> Result<bool> {
    let (case, sides) = saved::load(folder)?;
    let outcome = case.outcome();
    println!("{}\nexpected {}", case.in_words(), in_words(&outcome.said));
    let differences = Caller::new(program).compare(&case, sides, &outcome);
    match differences.is_empty() {
        true => println!("agreed"),
        false => println!("  {}", differences.join("\n  ")),
    }
    Ok(differences.is_empty())
}
