//! The example that reads a log.

mod common;

#[allow(dead_code)]
#[path = "../examples/read_log.rs"]
mod read_log;

use common::{file, octets, text};
use lefkanu::CheckRule::{AnnexG, House};
use read_log::listing;

#[test]
fn dryer_log() {
    let log = file("samples/dryer.log");
    assert_eq!(listing(AnnexG, &log), text("bindings/read_log.txt"));
}

#[test]
fn the_rule_is_followed() {
    let log = octets("55 FF 00 10 05 00 00 9A 01 00 08");
    assert_eq!(listing(AnnexG, &log), "bus -\nstart reached\n");
    assert_eq!(
        listing(House, &log),
        "bus -\n  source 5 data\nstart reached\n"
    );
}

#[test]
fn what_ends_the_reading() {
    assert_eq!(listing(AnnexG, &[]), "start reached\n");
    assert_eq!(listing(AnnexG, &[0x00]), "question 41\n");
    let log = octets("00 01 81 02 00 01");
    assert_eq!(listing(AnnexG, &log), "ip -\nquestion 41\n");
}

#[test]
fn times_are_shown() {
    let log = octets("AA 00 00 00 00 0D 00 01 BB FF FF FF FF 0C 00 01");
    assert_eq!(
        listing(AnnexG, &log),
        "ip 4294967295\nethernet 0\nstart reached\n"
    );
}
