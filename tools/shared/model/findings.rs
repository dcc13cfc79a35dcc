// A validator's result, and the numbers that it has in lent memory.

// How many errors and warnings a result has room for, and how many numbers it has.
pub const ERRORS: usize = 7;
pub const WARNINGS: usize = 2;
const NUMBERS: usize = 5 + 3 * (ERRORS + WARNINGS);

// A kind and two numbers.
pub type Entry = [usize; 3];

// The link kinds under their numbers.
#[derive(Clone, Copy, Debug, Default, PartialEq)]
pub enum Link {
    #[default]
    None,
    Ip,
    Ethernet,
    Mstp,
}

#[derive(Clone, Debug, Default, PartialEq)]
pub struct Findings {
    pub valid: bool,
    pub link: Link,
    pub size: usize,
    pub errors: Vec<Entry>,
    pub warnings: Vec<Entry>,
}

impl Findings {
    // Validity, link kind, size, both counts, then all entries, 0 where one is unused.
    pub fn numbers(&self) -> [usize; NUMBERS] {
        let [errors, warnings] = [&self.errors, &self.warnings];
        let counts = [errors.len(), warnings.len()];
        assert!(counts[0] <= ERRORS && counts[1] <= WARNINGS, "{self:x?}");
        let mut numbers = [0; NUMBERS];
        numbers[..3].copy_from_slice(&[self.valid.into(), self.link as usize, self.size]);
        numbers[3..5].copy_from_slice(&counts);
        numbers[5..][..3 * counts[0]].copy_from_slice(errors.as_flattened());
        numbers[5 + 3 * ERRORS..][..3 * counts[1]].copy_from_slice(warnings.as_flattened());
        numbers
    }
}
