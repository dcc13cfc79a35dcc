// Runs the Rust on one of two lists of cases. Arguments: a part of a list, `cases` or `answers` of
// the first, `analysis-cases` or `analysis-answers` of the second; the samples' folder; the file to
// write the part to, since the Rust itself prints to standard output.

mod analysis_answers;
mod analysis_cases;
mod analysis_list;
mod answer;
mod bip_list;
mod bip_readings;
mod bip_writings;
mod check;
mod ethernet_lengths;
mod ethernet_list;
mod ethernet_readings;
mod ethernet_validations;
mod ethernet_writings;
mod frame_validations;
mod ip_validations;
mod list;
mod lists;
mod mstp_checks;
mod mstp_list;
mod mstp_readings;
mod mstp_validations;
mod mstp_writings;
mod padding_cases;
mod patterns_cases;
mod statistics_cases;

use std::path::Path;
use std::process::ExitCode;

use crate::lists::{first, second};

// What the parts are called.
const PARTS: &str = "cases, answers, analysis-cases and analysis-answers";

// Writes the part of a list that the arguments name.
fn main() -> ExitCode {
    let arguments: Vec<String> = std::env::args().skip(1).collect();
    let [part, samples, file] = arguments.as_slice() else {
        eprintln!("oracle: the driver takes the list's part, the samples' folder and a file");
        return ExitCode::from(2);
    };
    let samples = Path::new(samples);
    let text = match part.as_str() {
        "cases" => first(samples).cases,
        "answers" => first(samples).answers,
        "analysis-cases" => second(samples).cases,
        "analysis-answers" => second(samples).answers,
        _ => {
            eprintln!("oracle: no part is called {part}; there are {PARTS}");
            return ExitCode::from(2);
        }
    };
    if let Err(error) = std::fs::write(file, text) {
        eprintln!("oracle: can't write the list to {file}: {error}");
        return ExitCode::FAILURE;
    }
    ExitCode::SUCCESS
}
