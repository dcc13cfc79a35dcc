// Sabotage: some answers of each function's model, of the Rust or of the library are changed, one of
// each way that can be, in each form where there are forms, and each must be counted as a difference.

use shared::model::questions::RustError;

use crate::call::Call;
use crate::outcome::{Refusal, Rust};

// How many inputs are left alone before each change.
const STEP: u64 = 997;

// Changes a call if it can; says whether it did.
type Way = fn(&mut Call) -> bool;

const WAYS: [Way; 6] = [
    model_answer,
    model_memory,
    rust_opinion,
    memory_in_front,
    memory_behind,
    guard_word,
];

pub struct Spoiler {
    // How many inputs are still left alone.
    alone: u64,
    // The ways that were not taken yet.
    left: Vec<Way>,
    // How many calls were changed.
    pub done: u64,
}

impl Spoiler {
    // With all ways left.
    pub fn new() -> Spoiler {
        Spoiler {
            alone: STEP,
            left: WAYS.to_vec(),
            done: 0,
        }
    }

    // Leaves all ways again, for the next form of a function.
    pub fn again(&mut self) {
        self.left = WAYS.to_vec();
    }

    // Changes a call in the first way left that it allows, if it is time.
    pub fn spoil(&mut self, call: &mut Call) {
        if self.alone > 0 {
            self.alone -= 1;
            return;
        }
        if let Some(taken) = self.left.iter().position(|way| way(call)) {
            self.left.remove(taken);
            self.done += 1;
            self.alone = STEP;
        }
    }
}

// The model answers something else.
fn model_answer(call: &mut Call) -> bool {
    call.model = match call.model {
        Ok(_) => Err(99),
        Err(answer) => Err(answer ^ 1),
    };
    true
}

// The model has another number in lent memory.
fn model_memory(call: &mut Call) -> bool {
    let Ok(written) = &mut call.model else {
        return false;
    };
    let Some(number) = written.iter_mut().rev().find_map(|front| front.last_mut()) else {
        return false;
    };
    *number ^= 1;
    true
}

// The Rust says the contrary.
fn rust_opinion(call: &mut Call) -> bool {
    let (Rust::Whole(told) | Rust::ButChecks(told)) = &mut call.rust else {
        return false;
    };
    *told = match told {
        Err(Refusal::Answer(answer)) => Err(Refusal::Answer(*answer ^ 1)),
        Err(Refusal::Error(RustError::InvalidFrame)) => Err(Refusal::Error(RustError::CrcError)),
        _ => Err(Refusal::Error(RustError::InvalidFrame)),
    };
    true
}

// A refused call has written.
fn memory_in_front(call: &mut Call) -> bool {
    call.model.is_err() && spoil_first(call, &|_, count| (count > 0).then_some(0))
}

// An accepted call has written behind what it should.
fn memory_behind(call: &mut Call) -> bool {
    let Ok(written) = &call.model else {
        return false;
    };
    let fronts: Vec<usize> = written.iter().map(|front| front.len()).collect();
    spoil_first(call, &|index, count| {
        (fronts[index] < count).then_some(count - 1)
    })
}

// A call has written beyond the lent memory.
fn guard_word(call: &mut Call) -> bool {
    spoil_first(call, &|_, count| Some(count))
}

// Changes a number of the first lent memory for which a place is chosen.
fn spoil_first(call: &mut Call, choose: &dyn Fn(usize, usize) -> Option<usize>) -> bool {
    for (index, memory) in call.lent.iter_mut().enumerate() {
        if let Some(place) = choose(index, memory.count()) {
            memory.spoil(place);
            return true;
        }
    }
    false
}
