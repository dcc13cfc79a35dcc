// Tries what reading makes of frames that the static library wrote, under both rules, when one octet
// or some neighbouring bits were changed, and how far one changed octet moves the statistics.
// Arguments: a seed, and `sabotage` where answers are to be turned.

mod frame;
mod line;
mod report;
mod rule;
mod sort;
mod statistics;
mod tally;

use std::io::{stderr, stdout, Write};
use std::process::ExitCode;
use std::thread::scope;

use crate::report::Report;
use crate::rule::Rule;

// Tries both rules and the statistics at a time.
fn main() -> ExitCode {
    let arguments: Vec<String> = std::env::args().skip(1).collect();
    let (seed, sabotage) = match arguments.as_slice() {
        [seed] => (seed, false),
        [seed, word] if word == "sabotage" => (seed, true),
        _ => return usage(),
    };
    let Ok(seed) = seed.parse() else {
        return usage();
    };
    let version = unsafe { ffi::lefkanu_layout_version() };
    assert_eq!(version, ffi::LAYOUT_VERSION, "the layout of liblefkanu.a");
    let tables = scope(|threads| {
        let try_rule = |rule| threads.spawn(move || line::try_rule(rule, seed, sabotage));
        let rules = Rule::ALL.map(try_rule);
        let numbers = statistics::try_all(seed, sabotage);
        let lines = rules.map(|thread| thread.join().expect("the lines of a rule"));
        let lines = lines.into_iter().flatten().collect();
        [(line::head(), lines), (statistics::head(), numbers)]
    });
    conclude(&tables, sabotage)
}

// Says what the driver takes.
fn usage() -> ExitCode {
    complain("the driver takes a seed, a number, and may take `sabotage`\n");
    ExitCode::from(2)
}

// Prints the tables and the sums; says what is wrong on standard error. All is well if each line is.
fn conclude(tables: &[(String, Vec<Report>)], sabotage: bool) -> ExitCode {
    let mut text = String::new();
    let (mut tried, mut wrong, mut well) = (0, 0, true);
    for (head, lines) in tables {
        text += head;
        for line in lines {
            text += &line.text;
            tried += line.tried;
            wrong += line.wrong;
            if !line.is_well {
                complain(&line.complaint());
                well = false;
            }
        }
        text += "\n";
    }
    text += &format!("{tried} tried, {wrong} not as foreseen\n");
    if let Err(error) = stdout().write_all(text.as_bytes()) {
        complain(&format!("can't print the tables: {error}\n"));
        well = false;
    }
    if sabotage && well {
        complain(&format!("all {wrong} turned answers were noticed\n"));
    }
    match well {
        true => ExitCode::SUCCESS,
        false => ExitCode::FAILURE,
    }
}

// Says something on standard error, if that can be written.
fn complain(text: &str) {
    let _ = write!(stderr(), "changes: {text}");
}
