// The log: a record read, and one appended.

use ffi::{lefkanu_append, lefkanu_read_record, NO_CASE, NO_TIME, RECORD_NUMBERS, SECOND};
use shared::model::log::{self, record, Time};
use shared::octets::hex;
use shared::random::Random;

use crate::call::Call;
use crate::inputs::{changed, logs, one_in, one_of, short, LONGEST};
use crate::lent::Lent;
use crate::outcome::{model, model_or_none, Rust};
use crate::tally::Tally;

// How many random logs are read back, and how many records are appended without a time and with one.
const LOGS: usize = 1_000_000;
const APPENDED: usize = 1_000_000;

// All logs of two octets and fewer, and two records with octets changed, without times and with them,
// from each end; every length of each kind, and of octets beside the kinds, behind many octets; for
// every octet as a kind, lengths at the borders behind just enough, one less and one more, with a time
// and without one; random logs, read back whole and from one more end; long ones.
pub fn read_record(tally: &mut Tally, random: &mut Random) {
    let mut each_end = |random: &mut Random, log: &[u8]| {
        for end in 0..=log.len() + 1 {
            read(tally, random, log, end);
        }
    };
    short(random, &mut each_end);
    for [older, newer] in [[None, None], [Some(0x0102_0304), Some(0)]] {
        let two = [
            record(1, older, &[0x55, 0xFF, 0x01]),
            record(3, newer, &[0x00]),
        ];
        changed(&two.concat(), random, &mut each_end);
    }
    let mut log = random.octets(1600);
    for octet in (0..=4).chain(10..=14) {
        for length in 0..=0xFFFF_u16 {
            let [high, low] = length.to_be_bytes();
            log[1597..].copy_from_slice(&[octet, high, low]);
            read(tally, random, &log, 1600);
        }
    }
    for octet in 0..=255 {
        for length in logs::BORDERS {
            let [high, low] = (length as u16).to_be_bytes();
            for more in [-1, 0, 1, 3, 4, 5] {
                let mut log = random.octets(length.saturating_add_signed(more));
                log.extend([octet, high, low]);
                read(tally, random, &log, log.len());
            }
        }
    }
    for _ in 0..LOGS {
        let log = logs::log(random);
        see_log(tally, &log);
        read_back(tally, random, &log.octets);
        read(tally, random, &log.octets, log.end);
    }
    for length in LONGEST.into_iter().chain([100_000]) {
        for time in [None, Some(1)] {
            let mut log = random.octets(length);
            log.extend(record(1, time, &[0x55; 1514]));
            for end in [0, 1, 3, length, log.len(), log.len() - 1, log.len() + 1] {
                read(tally, random, &log, end);
            }
        }
    }
}

// Counts a random log by what became of it.
fn see_log(tally: &mut Tally, log: &logs::Log) {
    let kind = 1 + usize::from(log.cut) + 2 * usize::from(log.changed);
    tally.see(('g', kind, 0));
}

// Reads a log back from its end, record by record.
fn read_back(tally: &mut Tally, random: &mut Random, log: &[u8]) {
    let mut next = Some(log.len());
    while let Some(end) = next {
        next = read(tally, random, log, end);
    }
}

// One record read; gives its place, if there is one.
fn read(tally: &mut Tally, random: &mut Random, log: &[u8], end: usize) -> Option<usize> {
    let mut memory = Lent::<usize>::new(RECORD_NUMBERS, random);
    let answer = unsafe { lefkanu_read_record(log.as_ptr(), log.len(), end, memory.array()) };
    let expected = log::read(log, end);
    let place = match &expected {
        Ok(Some(record)) => Some(record.place),
        Ok(None) | Err(_) => None,
    };
    see_trailer(tally, log, end, answer);
    tally.compare(Call {
        answer,
        lent: &mut [&mut memory],
        model: model_or_none(expected),
        rust: Rust::Silent,
        input: &|| format!("end {end}, {}", hex(log)),
    });
    place
}

// Counts an answer by what the trailer tells of a time, if there is a trailer.
fn see_trailer(tally: &mut Tally, log: &[u8], end: usize, answer: u8) {
    let Some([before @ .., octet, _, _]) = log.get(..end) else {
        return;
    };
    let reason = match log::timed(*octet) {
        false => 0,
        true if before.len() >= log::SECOND => 1,
        true => 2,
    };
    tally.see(('t', answer.into(), reason));
}

// Compares appending without a time and with one, and by numbers that name neither.
pub fn append(tally: &mut Tally, random: &mut Random) {
    for timed in [NO_TIME, SECOND] {
        tally.next_form();
        appends(tally, random, timed);
    }
    for other in 2..=255 {
        for kind in [0, 1, 3, 11] {
            for length in logs::BORDERS {
                let (buffer, used) = room(random, other, length);
                behind(tally, random, buffer, used, kind, other, length);
            }
        }
    }
}

// All kinds with lengths at the borders, into buffers around the fit; random ones; long buffers.
fn appends(tally: &mut Tally, random: &mut Random, timed: u8) {
    for kind in 0..=255 {
        for length in logs::BORDERS {
            for spare in [-5, -4, -3, -2, -1, 0, 1, 2] {
                let used = random.below(30);
                let buffer = (used + needed(timed, length)).saturating_add_signed(spare);
                behind(tally, random, buffer, used, kind, timed, length);
            }
        }
    }
    for _ in 0..APPENDED {
        let length = logs::length(random);
        let kind = logs::kind(random);
        let (buffer, used) = room(random, timed, length);
        behind(tally, random, buffer, used, kind, timed, length);
    }
    for buffer in LONGEST {
        for length in logs::BORDERS {
            let fit = buffer - needed(timed, length.min(log::MOST));
            for used in [0, fit, fit + 1, buffer - length, buffer] {
                behind(tally, random, buffer, used, 1, timed, length);
            }
        }
    }
    behind(tally, random, 70_000, 0, 1, timed, 65_535);
    behind(tally, random, 140_000, 0, 1, timed, 65_536 + 1);
}

// The time that a number and a second name, if they name one.
fn time(timed: u8, second: u32) -> Result<Time, u8> {
    match timed {
        NO_TIME => Ok(None),
        SECOND => Ok(Some(second)),
        _ => Err(NO_CASE),
    }
}

// How many octets a record needs.
fn needed(timed: u8, length: usize) -> usize {
    log::size(time(timed, 0).unwrap_or(None), length)
}

// A buffer around the fit, more often one that is large enough, and a used count, seldom one that is
// not within it.
fn room(random: &mut Random, timed: u8, length: usize) -> (usize, usize) {
    let used = random.below(60);
    let fit = used + needed(timed, length);
    let buffer = match random.below(4) {
        0 => {
            let less = one_of(&[0, 1, 2, 3, 4, 5, fit - used, fit], random);
            (fit + 1).saturating_sub(less)
        }
        _ => fit + random.below(40),
    };
    let used = match one_in(20, random) {
        true => one_of(
            &[buffer, buffer + 1, 1 << 32, usize::MAX - 2, usize::MAX],
            random,
        ),
        false => used,
    };
    (buffer, used)
}

// Appends so many octets behind those used of a buffer.
fn behind(
    tally: &mut Tally,
    random: &mut Random,
    buffer: usize,
    used: usize,
    kind: u8,
    timed: u8,
    length: usize,
) {
    let second = logs::second(random);
    let payload = random.octets(length);
    let mut memory = Lent::<u8>::new(buffer, random);
    let mut new_used = Lent::<usize>::new(1, random);
    let expected = time(timed, second)
        .and_then(|time| log::append(memory.before(), used, kind, time, &payload));
    let (list, octets, after) = (memory.pointer(), payload.as_ptr(), new_used.pointer());
    let answer = unsafe {
        lefkanu_append(
            list, buffer, used, kind, timed, second, octets, length, after,
        )
    };
    if let NO_TIME | SECOND = timed {
        tally.see(('t', answer.into(), timed.into()));
    }
    let before = memory.before().to_vec();
    tally.compare(Call {
        answer,
        lent: &mut [&mut memory, &mut new_used],
        model: model(expected),
        rust: Rust::Silent,
        input: &|| {
            let (before, payload) = (hex(&before), hex(&payload));
            let time = format!("timed {timed}, second {second}");
            format!("used {used}, kind {kind}, {time}, buffer {before}, payload {payload}")
        },
    });
}
