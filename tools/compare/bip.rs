// BVLC messages: headers read and written, and what a message carries.

use ffi::{
    lefkanu_bvlc_decode, lefkanu_bvlc_encode, lefkanu_process_bvlc_message, NO_CASE, NO_NPDU, NPDU,
    TIME_TO_LIVE,
};
use shared::model::bvlc::{self, Carried, Header, LAST_FUNCTION};
use shared::octets::hex;
use shared::random::Random;
use shared::rust;

use crate::call::Call;
use crate::inputs::{bip as inputs, one_of};
use crate::lent::Lent;
use crate::outcome::{model, Refusal, Rust};
use crate::tally::Tally;
use crate::written::{numbers, Written};

// How many messages there are, beside those of every function, size and length.
const MESSAGES: usize = 1_000_000;

// Outputs around the fit.
const ROOMS: [usize; 9] = [0, 1, 2, 3, 4, 5, 6, 7, 20];

// Compares the reading of headers.
pub fn decode(tally: &mut Tally, random: &mut Random) {
    let mut ask = |random: &mut Random, message: &[u8]| header(tally, random, message);
    inputs::headers(random, &mut ask);
    inputs::inputs().each(MESSAGES, random, &mut ask);
}

// One header read.
fn header(tally: &mut Tally, random: &mut Random, message: &[u8]) {
    let mut header = Lent::<usize>::new(2, random);
    let answer = unsafe { lefkanu_bvlc_decode(message.as_ptr(), message.len(), header.array()) };
    tally.compare(Call {
        answer,
        lent: &mut [&mut header],
        model: model(bvlc::read(message)),
        rust: Rust::whole(rust::bvlc::read(message)),
        input: &|| hex(message),
    });
}

// Every function with every length; every number with each output and some lengths.
pub fn encode(tally: &mut Tally, random: &mut Random) {
    for function in 0..=LAST_FUNCTION {
        for length in 0..=0xFFFF {
            let room = match random.below(4) {
                0 => one_of(&ROOMS, random),
                _ => 4 + random.below(8),
            };
            write(tally, random, function, length, room);
        }
    }
    for function in 0..=255 {
        for room in ROOMS {
            for length in [0, 1, 3, 4, 5, 255, 256, 1497, 1498, 0xFFFF] {
                write(tally, random, function, length, room);
            }
            for _ in 0..80 {
                let length = random.below(0x1_0000) as u16;
                write(tally, random, function, length, room);
            }
        }
    }
}

// One header written.
fn write(tally: &mut Tally, random: &mut Random, function: u8, length: u16, room: usize) {
    let header = Header { function, length };
    let mut out = Lent::<u8>::new(room, random);
    let mut count = Lent::<usize>::new(1, random);
    let answer =
        unsafe { lefkanu_bvlc_encode(function, length, out.pointer(), room, count.pointer()) };
    tally.compare(Call {
        answer,
        lent: &mut [&mut out, &mut count],
        model: match function {
            0..=LAST_FUNCTION => model(bvlc::write(&header, room)),
            _ => Err(NO_CASE),
        },
        rust: match rust::bvlc::write(&header) {
            Some(octets) => Rust::fitting(Ok(octets), room),
            None => Rust::answer(NO_CASE),
        },
        input: &|| format!("function {function}, length {length}, room {room}"),
    });
}

// Compares what messages carry.
pub fn process(tally: &mut Tally, random: &mut Random) {
    let mut link = rust::bvlc::Link::new();
    let mut ask = |random: &mut Random, message: &[u8]| {
        let told = match link.process(message) {
            Ok(found) => Ok(carried(message, &found)),
            Err(error) => Err(Refusal::Error(error)),
        };
        message_carries(tally, random, message, Rust::Whole(told));
    };
    inputs::headers(random, &mut ask);
    inputs::inputs().each(MESSAGES, random, &mut ask);
}

// One message.
fn message_carries(tally: &mut Tally, random: &mut Random, message: &[u8], rust: Rust) {
    let mut memory = Lent::<usize>::new(3, random);
    let answer =
        unsafe { lefkanu_process_bvlc_message(message.as_ptr(), message.len(), memory.array()) };
    let model = bvlc::process(message).map(|found| carried(message, &found));
    if let Ok(written) = &model {
        tally.see(('m', written[0][0] as usize, 0));
    }
    tally.compare(Call {
        answer,
        lent: &mut [&mut memory],
        model,
        rust,
        input: &|| hex(message),
    });
}

// What a message carries, as it stands in lent memory. An NPDU goes to the message's end.
fn carried(message: &[u8], found: &Carried) -> Written {
    vec![numbers(&match found {
        Carried::Npdu(npdu) => [NPDU, message.len() - npdu.len(), npdu.len()],
        Carried::TimeToLive(seconds) => [TIME_TO_LIVE, usize::from(*seconds), 0],
        Carried::NoNpdu => [NO_NPDU, 0, 0],
    })]
}
