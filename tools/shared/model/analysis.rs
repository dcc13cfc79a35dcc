// The analysis: the validator for all kinds, the statistics and the patterns together, under the
// patterns' questions.

use crate::model::checks::Checks;
use crate::model::findings::Findings;
use crate::model::patterns::{detect, Entry};
use crate::model::statistics::Statistics;
use crate::model::validators;

#[derive(Clone, Debug, PartialEq)]
pub struct Analysis {
    pub findings: Findings,
    pub statistics: Statistics,
    pub patterns: Vec<Entry>,
}

// The analysis, its patterns into a list of so many numbers.
pub fn analyze(rule: impl Checks, octets: &[u8], room: usize) -> Result<Analysis, u8> {
    let patterns = detect(octets, room)?;
    Ok(Analysis {
        findings: validators::frame(rule, octets),
        statistics: Statistics::of(octets),
        patterns,
    })
}
