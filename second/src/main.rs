//! `second SEED COUNT [--program COMMAND] [--every N]` compares COUNT random cases of a seed.
//! `second save SEED CASE` saves one case, `second replay FOLDER [--program COMMAND]` runs a saved one. The files of a run of the edit
//! program hang on --every too. `second answers` calls nothing: it answers cases that it is given.

mod answers;
mod calls;
mod counts;
mod memory;
mod run;

use std::path::{Path, PathBuf};
use std::process::ExitCode;

const USE: &str =
    "second SEED COUNT [--program COMMAND] [--every N]\nsecond replay FOLDER [--program COMMAND]\nsecond save SEED CASE [--every N]\nsecond answers";

/// How often the edit program is run if nothing is said: for one schema in so many. It takes a minor part of a long run.
fn usual_every(count: u64) -> u64 {
    (count / 1_000).clamp(20, 60)
}

fn main() -> ExitCode {
    let words: Vec<String> = std::env::args().skip(1).collect();
    let done = match order(&words) {
        Some(Order::Run(order)) => run::run(order),
        Some(Order::Save(seed, number, every)) => run::save(seed, number, every).map(|()| true),
        Some(Order::Replay(folder, program)) => run::replay(Path::new(&folder), program),
        Some(Order::Answers) => answers::answers().map(|()| true),
        None => {
            eprintln!("{USE}");
            return ExitCode::from(2);
        }
    };
    match done {
        Ok(true) => ExitCode::SUCCESS,
        Ok(false) => ExitCode::from(1),
        Err(trouble) => {
            eprintln!("{trouble}");
            ExitCode::from(2)
        }
    }
}

enum Order {
    Run(run::Order),
    Save(u64, u64, u64),
    Replay(String, Option<PathBuf>),
    Answers,
}

fn order(words: &[String]) -> Option<Order> {
    let mut plain = Vec::new();
    let mut program = None;
    let mut every = None;
    let mut words = words.iter();
    while let Some(word) = words.next() {
        match word.as_str() {
            "--program" => program = Some(PathBuf::from(words.next()?)),
            "--every" => every = Some(words.next()?.parse().ok().filter(|every| *every > 0)?),
            word => plain.push(word),
        }
    }
    match plain[..] {
        ["answers"] => Some(Order::Answers),
        ["replay", folder] => Some(Order::Replay(folder.to_string(), program)),
        ["save", seed, number] => Some(Order::Save(seed.parse().ok()?, number.parse().ok()?, every.unwrap_or(usual_every(0)))),
        [seed, count] => {
            let (seed, count) = (seed.parse().ok()?, count.parse().ok()?);
            Some(Order::Run(run::Order { seed, count, program, every: every.unwrap_or_else(|| usual_every(count)) }))
        }
        _ => None,
    }
}
