// Measures every function of the static library, under the house rule, against the Rust's, and prints
// tables in markdown. Both sides run in this program on the same octets, through function pointers, so
// that neither becomes part of the loop around it. Before a row is measured, both must answer the
// same. Memory that is lent to the library is the same from call to call and isn't cleared; the lists
// that the Rust makes, and their giving back, are part of its cost.
//
// Called with `functions`, it prints the rows of those named behind it alone; with `calls`, it makes
// some calls of each row instead, or of those named behind it.

mod analysis;
mod bvlc;
mod check_tables;
mod checks;
mod ethernet;
mod frames;
mod logs;
mod measure;
mod mstp;
mod readings;
mod row;
mod rules;
mod runs;
mod tables;
mod validators;

use row::{Calls, Row};

// How many calls callgrind counts.
const CALLS: usize = 10;

// Makes some rows.
const ROWS: [fn() -> Vec<Row>; 9] = [
    checks::rows,
    mstp::rows,
    bvlc::rows,
    ethernet::rows,
    validators::rows,
    analysis::rows,
    readings::rows,
    logs::rows,
    check_tables::rows,
];

fn rows() -> Vec<Row> {
    ROWS.iter().flat_map(|rows| rows()).collect()
}

fn print_tables() {
    print_machine();
    tables::functions(&rows());
    tables::readings();
}

// Only the rows of some functions.
fn print_functions(names: &[&str]) {
    let mut rows = rows();
    rows.retain(|row| names.contains(&row.name));
    print_machine();
    tables::functions(&rows);
}

fn print_machine() {
    let cores = std::thread::available_parallelism().map_or(1, |count| count.get());
    println!(
        "A machine of kind {} with {cores} cores; house rule; {} samples each.\n",
        std::env::consts::ARCH,
        measure::SAMPLES
    );
}

// So many calls of a side: what callgrind counts.
#[no_mangle]
#[inline(never)]
pub extern "C" fn counted_calls(calls: &Calls) {
    calls(CALLS);
}

// Makes the calls of all rows, or of those of a function, or of one, and tells which.
fn call(function: Option<&str>, octets: Option<usize>) {
    for row in rows() {
        let wanted = function.is_none_or(|function| function == row.name)
            && octets.is_none_or(|octets| octets == row.octets);
        if !wanted {
            continue;
        }
        counted_calls(&row.ours);
        println!("{}\t{}\t{CALLS}\tlefkanu", row.name, row.octets);
        if let Some(theirs) = &row.theirs {
            counted_calls(theirs);
            println!("{}\t{}\t{CALLS}\trust", row.name, row.octets);
        }
    }
}

fn main() {
    let version = unsafe { ffi::lefkanu_layout_version() };
    assert_eq!(version, ffi::LAYOUT_VERSION, "the layout of liblefkanu.a");
    let arguments: Vec<String> = std::env::args().skip(1).collect();
    let words: Vec<&str> = arguments.iter().map(String::as_str).collect();
    match words[..] {
        [] => print_tables(),
        ["functions", ref names @ ..] => print_functions(names),
        ["calls"] => call(None, None),
        ["calls", function] => call(Some(function), None),
        ["calls", function, octets] => call(Some(function), octets.parse().ok()),
        _ => panic!("usage: driver [functions NAME... | calls [FUNCTION [OCTETS]]]"),
    }
}
