// The tables, in markdown.

use crate::measure::{measure, Measured};
use crate::readings::whole;
use crate::row::Row;
use crate::runs::KINDS;

// How many octets runs have, and the most of them.
const LENGTHS: [usize; 4] = [8_192, 16_384, 32_768, 65_535];
const LONGEST: usize = 65_535;

// What stands above the tables of whole readings.
const READINGS: [&str; 4] = [
    "calls of the finder",
    "frames counted by one call",
    "reports from one call",
    "reports from one call, full list",
];

// The functions at their sizes.
pub fn functions(rows: &[Row]) {
    println!("| function | octets | Lefkanu, ns | Rust, ns | ratio |");
    println!("|---|---|---|---|---|");
    for row in rows {
        let measured = measure(row);
        let Row { name, octets, .. } = row;
        println!("| {name} | {octets} | {} |", sides(&measured, 1.0));
    }
}

// Both times and the ratio, or one time where the Rust has no such function.
fn sides(measured: &Measured, unit: f64) -> String {
    let told = |spread: &crate::measure::Spread| {
        let decimals = if spread.median < 1_000.0 * unit { 1 } else { 0 };
        spread.told(decimals, unit)
    };
    let ours = told(&measured.ours);
    match &measured.theirs {
        Some((theirs, ratio)) => format!("{ours} | {} | {}", told(theirs), ratio.told(2, 1.0)),
        None => format!("{ours} | |"),
    }
}

// Whole readings of the longest runs, a table for each way of reading, and then of all lengths, by
// calls of the finder.
pub fn readings() {
    for (way, title) in READINGS.iter().enumerate() {
        println!("\n| {LONGEST} octets, {title} | reports | Lefkanu, µs | Rust, µs | ratio |");
        println!("|---|---|---|---|---|");
        for kind in 0..KINDS.len() {
            let (reports, rows) = whole(kind, LONGEST);
            let measured = measure(&rows[way]);
            let name = rows[way].name;
            println!("| {name} | {reports} | {} |", sides(&measured, 1e3));
        }
    }
    let lengths = LENGTHS.map(|length| format!(" {length} octets |")).concat();
    println!("\n| ns for each octet, Lefkanu / Rust |{lengths}");
    println!("|---|---|---|---|---|");
    for (kind, (name, _)) in KINDS.iter().enumerate() {
        let cells = LENGTHS.map(|length| growth(kind, length));
        println!("| {name} |{}", cells.concat());
    }
}

// What an octet takes in a reading by calls of the finder.
fn growth(kind: usize, length: usize) -> String {
    let (_, [row, ..]) = whole(kind, length);
    let measured = measure(&row);
    let each = |nanoseconds: f64| nanoseconds / length as f64;
    let ours = each(measured.ours.median);
    let theirs = measured
        .theirs
        .map_or(0.0, |(theirs, _)| each(theirs.median));
    format!(" {ours:.2} / {theirs:.2} |")
}
