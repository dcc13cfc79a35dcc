// What is counted of a sort of change.

pub struct Tally {
    pub tried: u64,
    pub accepted: u64,
    // How many were accepted and not foreseen; foreseen and not accepted.
    pub wrong: [u64; 2],
    // How many of each came of turned answers.
    pub turned: [u64; 2],
    // Whether answers are turned: that to the first change that is foreseen refused, and that to the
    // first that is foreseen accepted.
    sabotage: bool,
}

impl Tally {
    // Nothing counted yet.
    pub fn new(sabotage: bool) -> Tally {
        Tally {
            tried: 0,
            accepted: 0,
            wrong: [0; 2],
            turned: [0; 2],
            sabotage,
        }
    }

    // Counts an answer; whether it is as foreseen.
    pub fn count(&mut self, foreseen: bool, mut accepted: bool) -> bool {
        let kind = usize::from(foreseen);
        if self.sabotage && self.turned[kind] == 0 {
            self.turned[kind] = 1;
            accepted = !accepted;
        }
        let right = accepted == foreseen;
        self.tried += 1;
        self.accepted += u64::from(accepted);
        self.wrong[kind] += u64::from(!right);
        right
    }

    // Whether something was tried and nothing is wrong; under sabotage, only what was turned.
    pub fn is_well(&self) -> bool {
        let turned = self.turned != [0; 2];
        self.tried > 0 && self.wrong == self.turned && turned == self.sabotage
    }
}
