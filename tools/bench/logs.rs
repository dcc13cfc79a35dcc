// The rows of logs, which the Rust doesn't have.

use ffi::{lefkanu_append, lefkanu_read_record, NO_TIME, RECORD_NUMBERS, SECOND};
use shared::model::log::{record, size as needed, Record, Time, MOST};

use crate::frames::octets;
use crate::row::{front, lent, lent_list, now, pointer, sizes_to, Row};

// A kind.
const BUS: u8 = 1;

// Each without a time and with one.
pub fn rows() -> Vec<Row> {
    let sizes = || sizes_to(MOST);
    let time = Some(1_790_000_065);
    let mut rows: Vec<Row> = Vec::new();
    rows.extend(sizes().map(|size| append("append to a log", None, size)));
    rows.extend(sizes().map(|size| read("read a log's record", None, size)));
    rows.extend(sizes().map(|size| append("append to a log, with a time", time, size)));
    rows.extend(sizes().map(|size| read("read a log's record, with a time", time, size)));
    rows
}

// Appends a record of so many octets to an empty log.
fn append(name: &'static str, time: Time, size: usize) -> Row {
    let payload = octets(size);
    let (timed, second) = match time {
        Some(second) => (SECOND, second),
        None => (NO_TIME, 0),
    };
    let ours = pointer!(lefkanu_append as unsafe extern "C" fn(_, _, _, _, _, _, _, _, _) -> _);
    let (buffer, used) = (lent_list(0, needed(time, MOST)), lent(0));
    let ours = move || unsafe {
        let buffer = &mut *buffer;
        let (list, room, octets) = (buffer.as_mut_ptr(), buffer.len(), payload.as_ptr());
        ours(list, room, 0, BUS, timed, second, octets, size, used)
    };
    let log = record(BUS, time, payload);
    assert_eq!((ours(), now(used)), (0, log.len()), "{name}");
    assert_eq!(front(buffer, log.len()), log, "{name}");
    Row::alone(name, size, ours)
}

// Reads a record of so many octets.
fn read(name: &'static str, time: Time, size: usize) -> Row {
    let log: &[u8] = record(BUS, time, octets(size)).leak();
    let ours = pointer!(lefkanu_read_record as unsafe extern "C" fn(_, _, _, _) -> _);
    let found = lent([0; RECORD_NUMBERS]);
    let ours = move || unsafe { ours(log.as_ptr(), log.len(), log.len(), found) };
    let told = Record {
        kind: BUS,
        time,
        place: 0,
        length: size,
    };
    assert_eq!((ours(), now(found)), (0, told.numbers()), "{name}");
    Row::alone(name, size, ours)
}
