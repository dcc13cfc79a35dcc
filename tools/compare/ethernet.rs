// Ethernet frames: read, validated by the file's own validator, and written; read and written also in
// the form that a number names.

use ffi::{
    lefkanu_ethernet_decode, lefkanu_ethernet_decode_form, lefkanu_ethernet_encode,
    lefkanu_ethernet_encode_form, lefkanu_ethernet_validate, NO_CASE,
};
use shared::model::ethernet::{self, Addresses, Form};
use shared::octets::hex;
use shared::random::Random;
use shared::rust;

use crate::call::Call;
use crate::inputs::{ethernet as inputs, one_of, short, LONGEST};
use crate::lent::Lent;
use crate::outcome::{model, Rust};
use crate::tally::Tally;

// How many frames are read, and how many random ones are written, of each form.
const FRAMES: usize = 1_050_000;
const WRITTEN: usize = 950_000;

// So many frames for one that is read in the other form.
const IN_OTHER: usize = 16;

// The number that a call names a form by. The calls without one (`None`) are in form EtherType.
type Number = Option<u8>;

// The form, if the number names one.
fn form(number: Number) -> Result<Form, u8> {
    match number {
        None | Some(0) => Ok(Form::EtherType),
        Some(1) => Ok(Form::Length),
        Some(_) => Err(NO_CASE),
    }
}

// What the Rust says, which has form EtherType.
fn in_rust(form: Result<Form, u8>, say: impl FnOnce() -> Rust) -> Rust {
    match form {
        Ok(Form::EtherType) => say(),
        Ok(Form::Length) | Err(_) => Rust::Silent,
    }
}

// Compares reading.
pub fn decode(tally: &mut Tally, random: &mut Random) {
    inputs::inputs().each(FRAMES, random, &mut |random, frame| {
        read(tally, random, None, frame);
    });
}

// Compares reading in both forms, and by numbers that name none.
pub fn decode_form(tally: &mut Tally, random: &mut Random) {
    for (form, inputs) in [(0, inputs::inputs()), (1, inputs::length_inputs())] {
        tally.next_form();
        inputs.each(FRAMES, random, &mut |random, frame| {
            read(tally, random, Some(form), frame);
        });
        for _ in 0..FRAMES / IN_OTHER {
            let frame = inputs.one(random);
            read(tally, random, Some(1 - form), &frame);
        }
        inputs.unnamed(random, &mut |random, other, frame| {
            read(tally, random, Some(other), frame);
        });
    }
}

// One frame read.
fn read(tally: &mut Tally, random: &mut Random, number: Number, frame: &[u8]) {
    let mut dest_mac = Lent::<u8>::new(6, random);
    let mut src_mac = Lent::<u8>::new(6, random);
    let mut payload = Lent::<usize>::new(2, random);
    let (octets, size) = (frame.as_ptr(), frame.len());
    let (to, from, part) = (dest_mac.array(), src_mac.array(), payload.array());
    let answer = match number {
        None => unsafe { lefkanu_ethernet_decode(octets, size, to, from, part) },
        Some(form) => unsafe { lefkanu_ethernet_decode_form(form, octets, size, to, from, part) },
    };
    let form = form(number);
    let expected = form.and_then(|form| ethernet::read(form, frame));
    see_form(tally, number, answer);
    if let (Ok(Form::Length), Ok(expected)) = (form, &expected) {
        see_behind(tally, &frame[ethernet::BEFORE + expected.payload.len()..]);
    }
    tally.compare(Call {
        answer,
        lent: &mut [&mut dest_mac, &mut src_mac, &mut payload],
        model: model(expected),
        rust: in_rust(form, || Rust::whole(rust::ethernet::read(frame))),
        input: &|| format!("{}{}", named(number), hex(frame)),
    });
}

// Counts an answer by its form, where a number names one.
fn see_form(tally: &mut Tally, number: Number, answer: u8) {
    if let Some(form @ (0 | 1)) = number {
        tally.see(('f', answer.into(), form.into()));
    }
}

// Counts what is behind the octets that a length counts: nothing, zeros, others.
fn see_behind(tally: &mut Tally, behind: &[u8]) {
    let kind = match behind {
        [] => 1,
        _ if behind.iter().all(|octet| *octet == 0) => 2,
        _ => 3,
    };
    tally.see(('b', kind, 0));
}

// The form in the words of an input.
fn named(number: Number) -> String {
    number.map_or(String::new(), |form| format!("form {form}, "))
}

// Compares the validator of ethernet.rs.
pub fn validate(tally: &mut Tally, random: &mut Random) {
    inputs::inputs().each(FRAMES, random, &mut |_, frame| {
        tally.compare(Call {
            answer: unsafe { lefkanu_ethernet_validate(frame.as_ptr(), frame.len()) },
            lent: &mut [],
            model: model(ethernet::validate(frame)),
            rust: Rust::whole(rust::ethernet::validate(frame)),
            input: &|| hex(frame),
        });
    });
}

// Compares writing.
pub fn encode(tally: &mut Tally, random: &mut Random) {
    writings(tally, random, None);
}

// Compares writing in both forms, and by numbers that name none.
pub fn encode_form(tally: &mut Tally, random: &mut Random) {
    for form in 0..2 {
        tally.next_form();
        writings(tally, random, Some(form));
    }
    for other in 2..=255 {
        for size in [0, 1, 42, 43, 44, 1497, 1498] {
            let payload = random.octets(size);
            for room in rooms(size) {
                let addresses = inputs::addresses(random);
                write(tally, random, Some(other), addresses, &payload, room);
            }
        }
    }
}

// All payloads of two octets and fewer; each value of each octet of the addresses; payloads of every
// size up to 1600 and around the longest, into each output around the fit; random ones.
fn writings(tally: &mut Tally, random: &mut Random, number: Number) {
    short(random, &mut |random, payload| {
        fitting(tally, random, number, payload)
    });
    for place in 0..12 {
        for value in 0..=255 {
            let mut addresses = inputs::addresses(random);
            addresses.as_flattened_mut()[place] = value;
            write(tally, random, number, addresses, &[0x01, 0x20], 60);
        }
    }
    for size in (0..=1600).chain(LONGEST) {
        let payload = random.octets(size);
        for room in rooms(size) {
            let addresses = inputs::addresses(random);
            write(tally, random, number, addresses, &payload, room);
        }
    }
    for _ in 0..WRITTEN {
        let size = match random.below(8) {
            0 => inputs::size(random),
            _ => random.below(60),
        };
        let payload = random.octets(size);
        fitting(tally, random, number, &payload);
    }
}

// Outputs around the fit, and others.
fn rooms(size: usize) -> [usize; 10] {
    let fit = 60.max(17 + size);
    [0, 17, 59, 60, fit - 2, fit - 1, fit, fit + 1, fit + 2, 1514]
}

// Writes into an output around the fit, more often one that is large enough.
fn fitting(tally: &mut Tally, random: &mut Random, number: Number, payload: &[u8]) {
    let room = match random.below(3) {
        0 => one_of(&rooms(payload.len()), random),
        _ => 60.max(17 + payload.len()) + random.below(9),
    };
    let addresses = inputs::addresses(random);
    write(tally, random, number, addresses, payload, room);
}

// One frame written.
fn write(
    tally: &mut Tally,
    random: &mut Random,
    number: Number,
    pair: Addresses,
    payload: &[u8],
    room: usize,
) {
    let [to, from] = &pair;
    let mut out = Lent::<u8>::new(room, random);
    let mut count = Lent::<usize>::new(1, random);
    let (octets, size) = (payload.as_ptr(), payload.len());
    let (list, counted) = (out.pointer(), count.pointer());
    let answer = match number {
        None => unsafe { lefkanu_ethernet_encode(to, from, octets, size, list, room, counted) },
        Some(form) => unsafe {
            lefkanu_ethernet_encode_form(form, to, from, octets, size, list, room, counted)
        },
    };
    let form = form(number);
    see_form(tally, number, answer);
    tally.compare(Call {
        answer,
        lent: &mut [&mut out, &mut count],
        model: model(form.and_then(|form| ethernet::write(form, pair, payload, room))),
        rust: in_rust(form, || {
            Rust::fitting(rust::ethernet::write(pair, payload), room)
        }),
        input: &|| {
            let (form, addresses) = (named(number), hex(&pair.concat()));
            format!("{form}{addresses}, {}, room {room}", hex(payload))
        },
    });
}
