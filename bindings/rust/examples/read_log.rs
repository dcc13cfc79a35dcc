//! read_log LOG [house]: reads a log from its end and prints each record's kind and time, the second or -, and of a bus
//! record's frames the source and the data. Checks are by the Annex G rule, or by the house rule. Last comes what ended
//! the reading.

use lefkanu::datalink::mstp::decode_header;
use lefkanu::datalink::Result;
use lefkanu::finder::Frames;
use lefkanu::log::{Record, RecordKind, Records};
use lefkanu::CheckRule;
use std::ffi::OsString;
use std::io::{self, Write};
use std::path::Path;
use std::{env, fs, process};

fn main() {
    // A file name need not be UTF-8.
    let arguments: Vec<OsString> = env::args_os().skip(1).collect();
    let (name, rule) = match &arguments[..] {
        [name] => (Path::new(name), CheckRule::AnnexG),
        [name, rule] if rule == "house" => (Path::new(name), CheckRule::House),
        _ => fail("usage: read_log LOG [house]"),
    };
    let log = fs::read(name)
        .unwrap_or_else(|error| fail(&format!("{} cannot be read: {error}", name.display())));
    if io::stdout()
        .write_all(listing(rule, &log).as_bytes())
        .is_err()
    {
        fail("standard output cannot be written");
    }
}

fn fail(message: &str) -> ! {
    eprintln!("read_log: {message}");
    process::exit(1)
}

/// The lines for a log.
pub fn listing(rule: CheckRule, log: &[u8]) -> String {
    let mut lines = String::new();
    for record in Records::new(log) {
        if let Err(error) = record.and_then(|record| list_record(rule, &record, &mut lines)) {
            return lines + &format!("question {}\n", error.question());
        }
    }
    lines + "start reached\n"
}

fn list_record(rule: CheckRule, record: &Record, lines: &mut String) -> Result<()> {
    let kind = match record.kind {
        RecordKind::Bus => "bus",
        RecordKind::Ip => "ip",
        RecordKind::Ethernet => "ethernet",
    };
    let second = record.time.map_or("-".into(), |second| second.to_string());
    *lines += &format!("{kind} {second}\n");
    if record.kind == RecordKind::Bus {
        for report in Frames::new(rule, record.payload) {
            let (header, data) = decode_header(rule, &record.payload[report?.range()])?;
            let hex: String = data.iter().map(|octet| format!(" {octet:02X}")).collect();
            *lines += &format!("  source {} data{hex}\n", header.source);
        }
    }
    Ok(())
}
