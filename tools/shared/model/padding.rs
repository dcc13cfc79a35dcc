// The padding search in order of arrival: what it knows after some octets, and a step.

// The least padding.
pub const LEAST: usize = 4;

// Whether an octet came, the last one, and its run: how many octets at the end, one behind another,
// are equal to it, index 0 not counted.
#[derive(Clone, Copy, Debug, PartialEq)]
pub struct State {
    pub came: bool,
    pub last: u8,
    pub run: usize,
}

impl State {
    // The state after some octets.
    pub fn of(octets: &[u8]) -> State {
        let last = octets.last().copied();
        let counted = octets.iter().skip(1).rev();
        State {
            came: last.is_some(),
            last: last.unwrap_or(0),
            run: counted.take_while(|octet| Some(**octet) == last).count(),
        }
    }

    // The state that three numbers are, if they are one.
    pub fn read([came, last, run]: [usize; 3]) -> Option<State> {
        Some(State {
            came: [false, true].get(came).copied()?,
            last: last.try_into().ok()?,
            run,
        })
    }

    // The three numbers that it has in lent memory.
    pub fn numbers(&self) -> [usize; 3] {
        [self.came.into(), self.last.into(), self.run]
    }

    // The state with one octet more. The highest count stays.
    pub fn step(&self, octet: u8) -> State {
        let run = match self {
            State { came: false, .. } => 0,
            State { last, run, .. } if *last == octet => run.saturating_add(1),
            _ => 1,
        };
        State {
            came: true,
            last: octet,
            run,
        }
    }

    // The padding's length: the run, if it is long enough, or 0.
    pub fn length(&self) -> usize {
        match self.run {
            0..LEAST => 0,
            run => run,
        }
    }
}
