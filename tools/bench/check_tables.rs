// The rows of the check tables, which the Rust doesn't have. Behind octets that leave the register at
// 0, an octet goes through the eight steps alone: its entry is the complement of the Rust's check.

use std::array::from_fn;

use ffi::{lefkanu_data_table, lefkanu_header_table};
use shared::model::checks::Checks;
use shared::rust::checks::House;

use crate::row::{lent, now, pointer, Row};
use crate::rules::HOUSE;

// Each with the octets that it has.
pub fn rows() -> Vec<Row> {
    vec![header_table(), data_table()]
}

fn header_table() -> Row {
    let ours = pointer!(lefkanu_header_table as unsafe extern "C" fn(_, _) -> _);
    let table = lent([0; 256]);
    let ours = move || unsafe { ours(HOUSE, table) };
    let expected = from_fn(|octet| !House.header_check([0xFF, 0x00, 0x00, 0x00, octet as u8]));
    assert_eq!((ours(), now(table)), (0, expected), "header table");
    Row::alone("header table", size_of_val(&expected), ours)
}

fn data_table() -> Row {
    let ours = pointer!(lefkanu_data_table as unsafe extern "C" fn(_, _) -> _);
    let table = lent([0; 256]);
    let ours = move || unsafe { ours(HOUSE, table) };
    let expected = from_fn(|octet| !House.data_check(&[0xFF, 0xFF, octet as u8]));
    assert_eq!((ours(), now(table)), (0, expected), "data table");
    Row::alone("data table", size_of_val(&expected), ours)
}
