// The finder: one call from a place.

use ffi::{lefkanu_find_frame, NONE};
use shared::model::finder;
use shared::model::questions::MOST;
use shared::octets::hex;
use shared::random::Random;
use shared::rust;

use crate::call::Call;
use crate::check::Rule;
use crate::inputs::{one_in, one_of, runs};
use crate::lent::Lent;
use crate::outcome::{model_or_none, Rust};
use crate::tally::Tally;

// How many runs there are under each rule.
const RUNS: usize = 520_000;

// Compares the finder, under both rules and under numbers that name none.
pub fn find_frame(tally: &mut Tally, random: &mut Random) {
    runs::under_rules(RUNS, random, &mut |random, rule, run| {
        let place = place(run, random);
        find(tally, random, rule, run, place);
    });
}

// A place to start from: the run's first, any, its end, or one beyond it.
fn place(run: &[u8], random: &mut Random) -> usize {
    let end = run.len();
    match random.below(4) {
        0 | 1 => 0,
        2 => random.below(end + 1),
        _ if one_in(2, random) => one_of(&[end, end.saturating_sub(8), 1, 2], random),
        _ => one_of(&[end + 1, end + 8, 65_536, 1 << 32, usize::MAX], random),
    }
}

// One call.
fn find(tally: &mut Tally, random: &mut Random, rule: u8, run: &[u8], place: usize) {
    let mut report = Lent::<usize>::new(2, random);
    let answer =
        unsafe { lefkanu_find_frame(rule, run.as_ptr(), run.len(), place, report.array()) };
    tally.compare(Call {
        answer,
        lent: &mut [&mut report],
        model: model_or_none(Rule::of(rule).and_then(|rule| finder::find_frame(rule, run, place))),
        rust: rust_find(rule, run, place),
        input: &|| format!("rule {rule}, place {place}, {}", hex(run)),
    });
}

// What a plain finder over the Rust's validator reports.
fn rust_find(rule: u8, run: &[u8], place: usize) -> Rust {
    if rule != Rule::House as u8 || run.len() > MOST || place > run.len() {
        return Rust::Silent;
    }
    match rust::finder::find(run, place) {
        Some(report) => Rust::whole(Ok(report)),
        None => Rust::answer(NONE),
    }
}
