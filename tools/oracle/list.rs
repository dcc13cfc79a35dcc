// A list: its cases and answers, and how octets stand in them.

use std::collections::HashSet;
use std::path::Path;

use shared::octets::hex;

#[derive(Default)]
pub struct List {
    pub cases: String,
    pub answers: String,
    seen: HashSet<String>,
}

impl List {
    // Adds a case and its answer, each a line, unless the list has the case. A case is two letters,
    // octets and the size of an output.
    pub fn add(&mut self, letters: [char; 2], octets: &[u8], size: usize, answer: &str) {
        let [kind, rule] = letters;
        self.add_line(format!("{kind}{rule}{}", case(octets, size)), answer);
    }

    // Adds a case and its answer as they stand in their lines, unless the list has the case.
    pub fn add_line(&mut self, case: String, answer: &str) {
        if !self.seen.contains(&case) {
            self.cases += &case;
            self.cases.push('\n');
            self.answers += answer;
            self.answers.push('\n');
            self.seen.insert(case);
        }
    }
}

// The most octets that a case tells, or that an answer shows of one thing.
pub const MOST: usize = 2000;

// The octets as an answer has them: all, or the first of very many.
pub fn front(octets: &[u8]) -> String {
    hex(&octets[..octets.len().min(MOST)])
}

// The octets as a case has them, behind two numbers of four digits: how many zeros are left out
// before the last two, only where there are many octets; and the size of an output.
fn case(octets: &[u8], size: usize) -> String {
    let mut left = 0;
    let mut told = octets.to_vec();
    if octets.len() > MOST {
        let last = told.split_off(octets.len() - 2);
        while told.last() == Some(&0) {
            told.pop();
            left += 1;
        }
        told.extend(last);
    }
    assert!(
        told.len() <= MOST && left <= 0xFFFF && size <= 0xFFFF,
        "a case too long"
    );
    format!("{left:04x}{size:04x}{}", hex(&told))
}

// The frames of a file of samples, each a line of octets with spaces between; `#` begins a comment.
pub fn frames(path: &Path) -> Vec<Vec<u8>> {
    let file = match std::fs::read_to_string(path) {
        Ok(file) => file,
        Err(error) => panic!("{}: {error}", path.display()),
    };
    let mut frames = Vec::new();
    for line in file.lines().filter(|line| !line.starts_with('#')) {
        frames.push(line.split(' ').map(octet).collect());
    }
    frames
}

// The octet that two digits stand for.
fn octet(digits: &str) -> u8 {
    match u8::from_str_radix(digits, 16) {
        Ok(octet) => octet,
        Err(error) => panic!("a sample has {digits:?}: {error}"),
    }
}
