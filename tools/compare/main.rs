// Compares every function of the static library that has input with the Rust and with a model of
// document 01, with document 02's changes.
// Arguments: a seed, and `sabotage` where answers are to be changed. The table goes to descriptor 3,
// since the Rust prints to standard output when it sends a frame.

mod analysis;
mod bip;
mod call;
mod check;
mod check_tables;
mod checks;
mod demand_3;
mod errors;
mod ethernet;
mod finder;
mod functions;
mod inputs;
mod lent;
mod log;
mod mstp;
mod other_rule;
mod outcome;
mod padding;
mod readings;
mod spoil;
mod tally;
mod validation;
mod written;

use std::fs::File;
use std::io::Write;
use std::os::fd::FromRawFd;
use std::process::ExitCode;
use std::sync::atomic::{AtomicUsize, Ordering};
use std::sync::mpsc::channel;
use std::thread::scope;

use shared::random::Random;

use crate::functions::{Function, ALL};
use crate::spoil::Spoiler;
use crate::tally::{Tally, HEAD};

// How many functions are compared at a time.
const THREADS: usize = 2;

// Compares all functions, after the trials.
fn main() -> ExitCode {
    let arguments: Vec<String> = std::env::args().skip(1).collect();
    let (seed, sabotage) = match arguments.as_slice() {
        [seed] => (seed, false),
        [seed, word] if word == "sabotage" => (seed, true),
        _ => return usage(),
    };
    let Ok(seed) = seed.parse() else {
        return usage();
    };
    check::try_examples();
    functions::try_layout();
    functions::try_names();
    // The script opens descriptor 3, and nothing else here uses it.
    let mut out = unsafe { File::from_raw_fd(3) };
    let tallies = compare_all(seed, sabotage, &mut out);
    match conclude(&tallies, sabotage, &mut out) {
        true => ExitCode::SUCCESS,
        false => ExitCode::FAILURE,
    }
}

// Says what the driver takes.
fn usage() -> ExitCode {
    eprintln!("compare: the driver takes a seed, a number, and may take `sabotage`");
    ExitCode::from(2)
}

// Compares all functions, several at a time, and prints their lines in order.
fn compare_all(seed: u64, sabotage: bool, out: &mut File) -> Vec<Tally> {
    print(out, HEAD);
    let next = AtomicUsize::new(0);
    let (sender, receiver) = channel();
    let mut tallies: Vec<Option<Tally>> = ALL.iter().map(|_| None).collect();
    let mut printed = 0;
    scope(|threads| {
        for _ in 0..THREADS {
            let (next, sender) = (&next, sender.clone());
            threads.spawn(move || loop {
                let index = next.fetch_add(1, Ordering::Relaxed);
                let Some(function) = ALL.get(index) else {
                    return;
                };
                let tally = compare(function, seed, index, sabotage);
                sender.send((index, tally)).expect("a receiver");
            });
        }
        drop(sender);
        for (index, tally) in receiver {
            tallies[index] = Some(tally);
            while let Some(Some(tally)) = tallies.get(printed) {
                print(out, &tally.line());
                printed += 1;
            }
        }
    });
    tallies.into_iter().flatten().collect()
}

// Compares a function, with random numbers of its own.
fn compare(function: &Function, seed: u64, index: usize, sabotage: bool) -> Tally {
    let seed = seed.wrapping_mul(64).wrapping_add(1 + index as u64);
    let mut tally = Tally::new(function.name, sabotage.then(Spoiler::new));
    (function.compare)(&mut tally, &mut Random::seeded(seed));
    tally
}

// Prints the sums; says what is missing on standard error. Whether all is well: nothing differs and
// nothing is missing; under sabotage, each change was noticed and nothing else.
fn conclude(tallies: &[Tally], sabotage: bool, out: &mut File) -> bool {
    let mut well = tallies.len() == ALL.len();
    for (tally, function) in tallies.iter().zip(ALL) {
        for gap in tally.gaps(function.answers, function.sights) {
            eprintln!("lefkanu_{}: {gap}", tally.name);
            well = false;
        }
        let changed = tally.spoiler.as_ref().map_or(0, |spoiler| spoiler.done);
        if tally.differ != changed || sabotage && changed == 0 {
            let (name, differ) = (tally.name, tally.differ);
            eprintln!("lefkanu_{name}: {differ} differ, {changed} were changed on purpose");
            well = false;
        }
    }
    let inputs: u64 = tallies.iter().map(|tally| tally.inputs).sum();
    let differ: u64 = tallies.iter().map(|tally| tally.differ).sum();
    print(out, &format!("{inputs} compared, {differ} differ"));
    if sabotage && well {
        eprintln!("compare: all {differ} changes were noticed");
    }
    well
}

// Prints a line.
fn print(out: &mut File, text: &str) {
    writeln!(out, "{text}").expect("descriptor 3 can be written");
}
