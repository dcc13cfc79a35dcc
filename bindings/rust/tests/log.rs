//! The log.

mod common;

use common::octets;
use lefkanu::datalink::DataLinkError::Refused;
use lefkanu::log::{append, read_record, Record, RecordKind, Records};

#[test]
fn kinds() {
    for number in 0..=0xFF {
        let expected = if (1..=3).contains(&number) {
            Ok(number)
        } else {
            Err(Refused(42))
        };
        assert_eq!(RecordKind::try_from(number).map(|k| k as u8), expected);
    }
    assert_eq!(RecordKind::try_from(1), Ok(RecordKind::Bus));
    assert_eq!(RecordKind::try_from(2), Ok(RecordKind::Ip));
    assert_eq!(RecordKind::try_from(3), Ok(RecordKind::Ethernet));
}

#[test]
fn read_a_record() {
    let log = octets("AA BB 01 00 02 CC 03 00 01");
    let newest = Record {
        kind: RecordKind::Ethernet,
        time: None,
        start: 5,
        payload: &[0xCC],
    };
    let oldest = Record {
        kind: RecordKind::Bus,
        time: None,
        start: 0,
        payload: &[0xAA, 0xBB],
    };
    assert_eq!(read_record(&log, 9), Ok(Some(newest)));
    assert_eq!(read_record(&log, 5), Ok(Some(oldest)));
    assert_eq!(read_record(&log, 0), Ok(None));
    assert_eq!(read_record(&[], 0), Ok(None));
    let records: Vec<_> = Records::new(&log).collect();
    assert_eq!(records, [Ok(newest), Ok(oldest)]);
    let records: Vec<_> = Records::ending_at(&log, 5).collect();
    assert_eq!(records, [Ok(oldest)]);
}

#[test]
fn read_times() {
    for (second, time) in [
        ("00 00 00 00", 0),
        ("00 00 00 01", 1),
        ("01 02 03 04", 0x0102_0304),
        ("FF FF FF FF", 4_294_967_295),
    ] {
        for (octet, kind) in [
            ("0B", RecordKind::Bus),
            ("0C", RecordKind::Ip),
            ("0D", RecordKind::Ethernet),
        ] {
            let log = octets(&format!("AA 01 00 01 BB CC {second} {octet} 00 02"));
            let timed = Record {
                kind,
                time: Some(time),
                start: 4,
                payload: &[0xBB, 0xCC],
            };
            assert_eq!(read_record(&log, 13), Ok(Some(timed)));
            let records: Vec<_> = Records::new(&log).map(Result::unwrap).collect();
            assert_eq!(records[0], timed);
            assert_eq!((records.len(), records[1].time), (2, None));
        }
    }
}

#[test]
fn read_refusals() {
    for (question, log, end) in [
        (47, "", 1),
        (47, "AA 01 00 01", 5),
        (47, "AA 01 00 01", usize::MAX),
        (41, "AA 01 00 01", 1),
        (41, "AA 01 00 01", 2),
        (42, "AA 00 00 01", 4),
        (42, "AA 04 00 01", 4),
        (42, "AA 01 00 01", 3),
        (43, "AA 01 00 00", 4),
        (43, "AA 01 05 EB", 4),
        (44, "AA 01 00 02", 4),
        (44, "01 00 01", 3),
        (44, "AA 01 05 EA", 4),
        // Beside the kinds with a time.
        (42, "AA 00 00 00 00 0A 00 01", 8),
        (42, "AA 00 00 00 00 0E 00 01", 8),
        // The length counts the payload alone, and the time has to be there too.
        (43, "AA 00 00 00 00 0B 00 00", 8),
        (43, "AA 00 00 00 00 0B 05 EB", 8),
        (44, "00 00 00 00 0B 00 01", 7),
        (44, "00 00 0B 00 01", 5),
        (44, "0B 00 01", 3),
        (44, "AA 00 00 00 00 0B 00 02", 8),
        // Where several questions fail the first is answered.
        (42, "AA 00 00 00", 4),
        (43, "00 01 FF FF", 4),
    ] {
        assert_eq!(read_record(&octets(log), end), Err(Refused(question)));
    }
}

#[test]
fn append_writes_the_new_octets_only() {
    let mut buffer = [0xA5; 14];
    let payload = [0x81, 0x06];
    assert_eq!(
        append(&mut buffer, 2, RecordKind::Ip, None, &payload),
        Ok(7)
    );
    assert_eq!(
        buffer.to_vec(),
        octets("A5 A5 81 06 02 00 02 A5 A5 A5 A5 A5 A5 A5")
    );
    let whole = [0xCC; 4];
    assert_eq!(
        append(&mut buffer, 7, RecordKind::Bus, None, &whole),
        Ok(14)
    );
    assert_eq!(
        buffer.to_vec(),
        octets("A5 A5 81 06 02 00 02 CC CC CC CC 01 00 04")
    );
    let second = Some(0x0102_0304);
    assert_eq!(
        append(&mut buffer, 3, RecordKind::Ip, second, &payload),
        Ok(12)
    );
    assert_eq!(
        buffer.to_vec(),
        octets("A5 A5 81 81 06 01 02 03 04 0C 00 02 00 04")
    );
}

#[test]
fn append_refusals() {
    let (none, second) = (None, Some(0x0102_0304));
    for (question, room, used, time, payload) in [
        (47, 10, 11, none, 1),
        (47, 0, 1, none, 1),
        (47, 10, usize::MAX, second, 1),
        (43, 2000, 0, none, 0),
        (43, 2000, 0, second, 0),
        (43, 2000, 0, none, 1515),
        (43, 2000, 0, second, 1515),
        (46, 10, 0, none, 8),
        (46, 10, 10, none, 1),
        (46, 1516, 0, none, 1514),
        (46, 0, 0, none, 1),
        // The four octets of the time count.
        (46, 10, 0, second, 4),
        (46, 10, 0, second, 7),
        (46, 10, 3, second, 1),
        (46, 1520, 0, second, 1514),
        // Where several questions fail the first is answered.
        (47, 10, 11, second, 0),
        (43, 2, 0, second, 1515),
    ] {
        let mut buffer = vec![0xA5; room];
        let payload = vec![0xCC; payload];
        let refused = append(&mut buffer, used, RecordKind::Bus, time, &payload);
        assert_eq!(refused, Err(Refused(question)));
        assert_eq!(buffer, vec![0xA5; room]);
    }
}

#[test]
fn what_is_written_is_read() {
    let payloads = [vec![0x01], vec![0x02; 1514], vec![0x03; 300]];
    let kinds = [RecordKind::Ethernet, RecordKind::Bus, RecordKind::Ip];
    // Each with a time, and without one.
    for times in [
        [None; 3],
        [Some(0), Some(1), Some(4_294_967_295)],
        [None, Some(4_294_967_295), None],
        [Some(0x0102_0304), None, Some(0)],
    ] {
        let seconds = times.iter().flatten().count();
        let mut buffer = vec![0; 1 + 1514 + 300 + 9 + 4 * seconds];
        let (mut used, mut expected) = (0, vec![]);
        for ((kind, time), payload) in kinds.into_iter().zip(times).zip(&payloads) {
            expected.push(Record {
                kind,
                time,
                start: used,
                payload,
            });
            used = append(&mut buffer, used, kind, time, payload).unwrap();
        }
        assert_eq!(used, buffer.len());
        expected.reverse();
        let read: Vec<_> = Records::new(&buffer).map(Result::unwrap).collect();
        assert_eq!(read, expected);
    }
}

#[test]
fn what_is_left_of_a_torn_log_is_read() {
    let mut buffer = [0xA5; 25];
    let (mut borders, mut written) = (vec![0], vec![]);
    for (kind, time, payload) in [
        (RecordKind::Bus, None, &[0x55][..]),
        (RecordKind::Ip, Some(0), &[0x81, 0x0B]),
        (RecordKind::Ethernet, Some(0xFEDC_BA98), &[0x00, 0x10, 0x20]),
    ] {
        let start = borders[borders.len() - 1];
        written.push(Record {
            kind,
            time,
            start,
            payload,
        });
        borders.push(append(&mut buffer, start, kind, time, payload).unwrap());
    }
    assert_eq!(borders, [0, 4, 13, 23]);
    for lost in 0..=23 {
        let whole = written.iter().rev().filter(|record| record.start >= lost);
        let mut expected: Vec<_> = whole
            .map(|record| {
                Ok(Record {
                    start: record.start - lost,
                    ..*record
                })
            })
            .collect();
        let border = borders.iter().find(|border| **border >= lost).unwrap();
        match border - lost {
            0 => (),
            1 | 2 => expected.push(Err(Refused(41))),
            _ => expected.push(Err(Refused(44))),
        }
        let copy = buffer[lost..23].to_vec();
        assert_eq!(Records::new(&copy).collect::<Vec<_>>(), expected);
        let part = Records::ending_at(&buffer[lost..], 23 - lost);
        assert_eq!(part.collect::<Vec<_>>(), expected);
    }
}

#[test]
fn records_end_after_an_error() {
    let log = octets("00 00 00 AA 02 00 01");
    let mut records = Records::new(&log);
    let newest = Record {
        kind: RecordKind::Ip,
        time: None,
        start: 3,
        payload: &[0xAA],
    };
    assert_eq!(records.next(), Some(Ok(newest)));
    assert_eq!(records.next(), Some(Err(Refused(42))));
    assert_eq!(records.next(), None);
    assert_eq!(records.next(), None);
    assert_eq!(
        Records::ending_at(&log, 8).collect::<Vec<_>>(),
        [Err(Refused(47))]
    );
}
