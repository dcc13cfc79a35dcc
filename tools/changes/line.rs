// A line of the first table: a sort of change under a rule.

use crate::frame::{Frame, LONG, SHORT};
use crate::report::{Report, SHOWN};
use crate::rule::Rule;
use crate::sort::{Part, Sort};
use crate::tally::Tally;

pub struct Line {
    rule: Rule,
    sort: Sort,
    tally: Tally,
    shown: Vec<String>,
}

// What stands above the lines.
pub fn head() -> String {
    let last = SHORT.end - 1;
    format!(
        "Under each rule, frames of each type with 0 to {last} data octets; also with\n\
        {LONG:?}, of which only single octets and the header are changed.\n\n\
        | rule | change | tried | accepted | accepted, not foreseen | foreseen, not accepted |\n\
        |---|---|---|---|---|---|\n"
    )
}

// Tries all frames under a rule.
pub fn try_rule(rule: Rule, seed: u64, sabotage: bool) -> Vec<Report> {
    let mut lines = Line::all(rule, sabotage);
    for mut frame in Frame::all(rule, seed) {
        for line in &mut lines {
            if frame.is_short || line.sort.part != Part::Data {
                line.try_all(&mut frame);
            }
        }
    }
    lines.iter().map(Line::report).collect()
}

impl Line {
    // All lines of a rule, with nothing tried yet.
    fn all(rule: Rule, sabotage: bool) -> Vec<Line> {
        let line = |sort| Line {
            rule,
            sort,
            tally: Tally::new(sabotage),
            shown: Vec::new(),
        };
        Sort::all(rule).map(line).into()
    }

    // Tries each change of a frame.
    fn try_all(&mut self, frame: &mut Frame) {
        self.sort.each(frame, |frame, change| {
            frame.turn(change);
            let foreseen = (self.sort.foreseen)(self.rule, change);
            if !self.tally.count(foreseen, frame.is_accepted()) && self.shown.len() < SHOWN {
                self.shown.push(format!("{:02X?}\n", frame.octets()));
            }
            frame.turn(change);
        });
    }

    // What it reports at the end.
    fn report(&self) -> Report {
        let (rule, sort) = (self.rule.name(), &self.sort.name);
        let Tally {
            tried,
            accepted,
            wrong: [unforeseen, missed],
            turned,
            ..
        } = self.tally;
        Report {
            name: format!("{rule}, {sort}"),
            text: format!("| {rule} | {sort} | {tried} | {accepted} | {unforeseen} | {missed} |\n"),
            tried,
            wrong: unforeseen + missed,
            turned: turned.iter().sum(),
            shown: self.shown.concat(),
            is_well: self.tally.is_well(),
        }
    }
}
