// The whole reading, counted and into a list; and demand 3 on runs of damage and written frames.

use ffi::{lefkanu_count_frames, lefkanu_read_frames};
use shared::model::finder::{self, Report};
use shared::model::questions::MOST;
use shared::octets::hex;
use shared::random::Random;
use shared::rust;

use crate::call::Call;
use crate::check::Rule;
use crate::demand_3::demand_3;
use crate::inputs::damaged::Damaged;
use crate::inputs::{one_of, runs};
use crate::lent::Lent;
use crate::outcome::{model, Model, Rust};
use crate::tally::Tally;

// How many runs there are under each rule, and how many of damage and written frames.
const RUNS: usize = 510_000;
const DAMAGED: usize = 40_000;

// A run, the rule that it is read under, and its reports by the model.
struct Reading<'a> {
    rule: u8,
    run: &'a [u8],
    reports: Result<Vec<Report>, u8>,
}

impl Reading<'_> {
    // A run with its reports.
    fn new(rule: u8, run: &[u8]) -> Reading<'_> {
        let reports = Rule::of(rule).and_then(|rule| finder::read_frames(rule, run));
        Reading { rule, run, reports }
    }

    // How many numbers the reports need in a list, or so many if there are none.
    fn fit(&self, refused: usize) -> usize {
        let reports = self.reports.as_ref();
        reports.map_or(refused, |reports| 2 * reports.len())
    }

    // What the model says of it: `told` of the reports.
    fn model(&self, told: &dyn Fn(&Vec<Report>) -> Model) -> Model {
        let reports = self.reports.as_ref();
        reports.map_err(|answer| *answer).and_then(told)
    }

    // What the Rust says of it: `told` of the reports of a plain finder over its validator.
    fn rust(&self, told: &dyn Fn(&Vec<Report>) -> Model) -> Rust {
        if self.rule != Rule::House as u8 || self.run.len() > MOST {
            return Rust::Silent;
        }
        match told(&finder::reports(self.run, rust::finder::find)) {
            Ok(written) => Rust::Whole(Ok(written)),
            Err(_) => Rust::Silent,
        }
    }
}

// Compares the count of reports.
pub fn count_frames(tally: &mut Tally, random: &mut Random) {
    runs::under_rules(RUNS, random, &mut |random, rule, run| {
        let reading = Reading::new(rule, run);
        let told = |reports: &Vec<Report>| model(Ok(reports.len()));
        let mut count = Lent::<usize>::new(1, random);
        let (octets, size) = (run.as_ptr(), run.len());
        let answer = unsafe { lefkanu_count_frames(rule, octets, size, count.pointer()) };
        tally.compare(Call {
            answer,
            lent: &mut [&mut count],
            model: reading.model(&told),
            rust: reading.rust(&told),
            input: &|| format!("rule {rule}, {}", hex(run)),
        });
    });
}

// Compares the reports in a list, of a size around the fit; and demand 3.
pub fn read_frames(tally: &mut Tally, random: &mut Random) {
    runs::under_rules(RUNS, random, &mut |random, rule, run| {
        let reading = Reading::new(rule, run);
        let fit = reading.fit(4);
        let less = |by| fit.saturating_sub(by);
        let room = match random.below(4) {
            0 => one_of(&[0, 1, less(1), less(2)], random),
            1 => fit,
            _ => fit + random.below(5),
        };
        read(tally, random, &reading, room);
    });
    for _ in 0..DAMAGED {
        for rule in Rule::ALL {
            let damaged = Damaged::new(rule, random);
            let reading = Reading::new(rule as u8, &damaged.run);
            let reports = read(tally, random, &reading, reading.fit(0));
            demand_3(tally, rule, &damaged, &reports);
        }
    }
}

// Reads into a list of so many numbers; gives the reports in it, if it is accepted.
fn read(tally: &mut Tally, random: &mut Random, reading: &Reading, room: usize) -> Vec<Report> {
    let Reading { rule, run, .. } = *reading;
    let mut out = Lent::<u32>::new(room, random);
    let mut count = Lent::<usize>::new(1, random);
    let (octets, size) = (run.as_ptr(), run.len());
    let (list, counted) = (out.pointer(), count.pointer());
    let answer = unsafe { lefkanu_read_frames(rule, octets, size, list, room, counted) };
    let told = |reports: &Vec<Report>| {
        finder::fit(reports, room)?;
        model(Ok(reports.clone()))
    };
    tally.compare(Call {
        answer,
        lent: &mut [&mut out, &mut count],
        model: reading.model(&told),
        rust: reading.rust(&told),
        input: &|| format!("rule {rule}, room {room}, {}", hex(run)),
    });
    if answer != 0 {
        return Vec::new();
    }
    let numbers = out.after().iter().map(|number| *number as usize);
    let numbers: Vec<usize> = numbers.take(2 * count.after()[0]).collect();
    numbers.chunks(2).map(|pair| (pair[0], pair[1])).collect()
}
