// The padding search in order of arrival: a step, and the padding's length.

use ffi::{lefkanu_padding_length, lefkanu_padding_step, NO_CASE, PADDING_NUMBERS};
use shared::model::padding::{State, LEAST};
use shared::model::questions::MOST;
use shared::octets::hex;
use shared::random::Random;
use shared::rust::analysis::padding;

use crate::call::Call;
use crate::inputs::{any, one_in, states, LONGEST};
use crate::lent::Lent;
use crate::outcome::{model, Rust};
use crate::tally::Tally;
use crate::written::{numbers, Written};

// How many octets with patterns and frames are fed, and after how many the length is asked for; how
// many random states are made by hand.
const FED: usize = 130_000;
const ASKED: usize = 950_000;
const BY_HAND: usize = 200_000;

// The Rust is asked about each front of up to so many octets, about one in two of up to twice as many,
// about one in three of up to three times as many, and so on.
const EACH: usize = 64;

// A state as it is lent.
type Numbers = [usize; PADDING_NUMBERS];

// Compares each step of feeds: of all short words of few values, of octets with patterns and frames,
// of very many equal octets. Then steps from states made by hand and from numbers that are none, with
// the last octet again and with any.
pub fn step(tally: &mut Tally, random: &mut Random) {
    let mut ask = |random: &mut Random, octets: &[u8]| feed(tally, random, octets);
    any::words(random, &mut ask);
    any::patterned().each(FED, random, &mut ask);
    ask(random, &[0x41; LONGEST[3]]);
    states::each(BY_HAND, random, &mut |random, numbers| {
        for octet in [numbers[1] as u8, random.octet()] {
            let after = State::read(numbers).map(|state| state.step(octet));
            step_from(tally, random, numbers, octet, after, Rust::Silent);
        }
    });
}

// Feeds octets one by one, from three zeros. The state after each is compared with the model's after
// the front so far. The Rust is asked about all of the octets, and about those fronts that EACH says,
// where they are at most 65,535.
fn feed(tally: &mut Tally, random: &mut Random, octets: &[u8]) {
    let mut numbers = [0; PADDING_NUMBERS];
    for (index, octet) in octets.iter().enumerate() {
        let front = &octets[..=index];
        let count = front.len();
        let state = State::of(front);
        let chosen = count == octets.len() || one_in(count.div_ceil(EACH), random);
        let rust = match chosen && count <= MOST {
            true => Rust::whole(Ok(rust_state(front, &state))),
            false => Rust::Silent,
        };
        numbers = step_from(tally, random, numbers, *octet, Some(state), rust);
    }
}

// The state after some octets, with the Rust's padding. Where the Rust finds none, all it tells of the
// model's run is that it is too short for one.
fn rust_state(octets: &[u8], model: &State) -> State {
    match padding(octets) {
        Some([_, start, length, octet]) => {
            let count = octets.len();
            assert_eq!(start + length, count, "the padding of {}", hex(octets));
            State::read([1, octet, length]).expect("an octet")
        }
        None => State {
            run: model.run.min(LEAST - 1),
            ..*model
        },
    }
}

// One step, with the state after it by the model, if there is one; gives the numbers that it leaves.
fn step_from(
    tally: &mut Tally,
    random: &mut Random,
    numbers: Numbers,
    octet: u8,
    after: Option<State>,
    rust: Rust,
) -> Numbers {
    let mut memory = Lent::holding(&numbers, random);
    let answer = unsafe { lefkanu_padding_step(memory.array(), octet) };
    let left = memory.after().try_into().expect("a state's numbers");
    if let Some(before) = State::read(numbers) {
        see_step(tally, &before, octet);
    }
    if let Some(after) = &after {
        see_run(tally, after);
    }
    tally.compare(Call {
        answer,
        lent: &mut [&mut memory],
        model: model(after.ok_or(NO_CASE)),
        rust,
        input: &|| format!("state {numbers:x?}, octet {octet:02x}"),
    });
    left
}

// Counts the steps by what becomes of the run.
fn see_step(tally: &mut Tally, before: &State, octet: u8) {
    let kind = match *before {
        State { came: false, .. } => 1,
        State { last, .. } if last != octet => 2,
        State { run: 0, .. } => 3,
        State { run, .. } if run < usize::MAX => 4,
        _ => 5,
    };
    tally.see(('s', kind, 0));
}

// Counts the runs of states by how many octets they have.
fn see_run(tally: &mut Tally, state: &State) {
    tally.see(('c', state.run.min(LEAST + 1), 0));
}

// Compares the length: in the states after all short words of few values and after octets with patterns
// and frames, about which the Rust is asked too where they are at most 65,535; in states made by hand,
// and in numbers that are none.
pub fn length(tally: &mut Tally, random: &mut Random) {
    let mut ask = |random: &mut Random, octets: &[u8]| {
        let rust = match octets.len() {
            0..=MOST => {
                let found = padding(octets).map_or(0, |[_, _, length, _]| length);
                Rust::Whole(Ok(behind_state(found)))
            }
            _ => Rust::Silent,
        };
        length_in(tally, random, State::of(octets).numbers(), rust);
    };
    any::words(random, &mut ask);
    any::patterned().each(ASKED, random, &mut ask);
    states::each(BY_HAND, random, &mut |random, numbers| {
        length_in(tally, random, numbers, Rust::Silent);
    });
}

// One length.
fn length_in(tally: &mut Tally, random: &mut Random, numbers: Numbers, rust: Rust) {
    let mut memory = Lent::holding(&numbers, random);
    let mut length = Lent::<usize>::new(1, random);
    let answer = unsafe { lefkanu_padding_length(memory.array(), length.pointer()) };
    let state = State::read(numbers);
    if let Some(state) = &state {
        see_run(tally, state);
    }
    let told = state.map(|state| behind_state(state.length()));
    tally.compare(Call {
        answer,
        lent: &mut [&mut memory, &mut length],
        model: told.ok_or(NO_CASE),
        rust,
        input: &|| format!("state {numbers:x?}"),
    });
}

// A length in lent memory, behind the state, which stays as it was.
fn behind_state(length: usize) -> Written {
    vec![Vec::new(), numbers(&[length])]
}
