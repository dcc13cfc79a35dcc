// What a line of a table reports when all was tried.

// How many answers that are not as foreseen are shown for each line.
pub const SHOWN: usize = 4;

pub struct Report {
    pub name: String,
    // The line itself.
    pub text: String,
    pub tried: u64,
    // How many answers were not as foreseen, and how many were turned on purpose.
    pub wrong: u64,
    pub turned: u64,
    // The first answers that are not as foreseen.
    pub shown: String,
    pub is_well: bool,
}

impl Report {
    // What is wrong.
    pub fn complaint(&self) -> String {
        let Report {
            name,
            tried,
            wrong,
            turned,
            shown,
            ..
        } = self;
        format!("{name}: {tried} tried, {wrong} not as foreseen, {turned} on purpose\n{shown}")
    }
}
