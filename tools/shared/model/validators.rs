// The findings of the four validators, from document 01's lists of tests, with document 02's warning
// about a slave.

use crate::model::checks::Checks;
use crate::model::findings::{Entry, Findings, Link};
use crate::model::mstp::{size as mstp_size, MOST_DATA};
use crate::octets::number;

// The most octets of an IP and of an Ethernet frame.
const IP_MOST: usize = 1497;
const ETHERNET_MOST: usize = 1514;

// What is found in octets of any kind.
pub fn frame(rule: impl Checks, octets: &[u8]) -> Findings {
    match octets {
        [] => alone(Link::None, octets, [1, 0, 1]),
        [0x55, 0xFF, ..] => mstp(rule, octets),
        [0x81, ..] => ip(octets),
        _ if octets.get(12..14) == Some(&[0x82, 0xDC]) => ethernet(octets),
        _ => alone(Link::None, octets, [7, 4, 0]),
    }
}

// What is found in an MS/TP frame.
pub fn mstp(rule: impl Checks, octets: &[u8]) -> Findings {
    let size = octets.len();
    if size < 8 {
        return alone(Link::Mstp, octets, [1, size, 8]);
    }
    let preamble = number(&octets[..2]);
    let [kind, destination, source] = [2, 3, 4].map(|place| usize::from(octets[place]));
    let length = number(&octets[5..7]);
    let total = mstp_size(length);
    let errors = [
        (preamble != 0x55FF).then_some([3, 0x55FF, preamble]),
        (8..=127).contains(&kind).then_some([5, kind, 0]),
        (source == 255).then_some([6, source, 1]),
        (length > MOST_DATA).then_some([7, 1, length]),
        header_error(rule, octets),
        (size != total).then_some([8, total, size]),
        data_error(rule, octets, length),
    ];
    let to_slave = source <= 127 && (128..=254).contains(&destination);
    let unusual = !usual_to_slave(rule).contains(&kind);
    let warnings = [
        (kind >= 128).then_some([3, 1, kind]),
        (to_slave && unusual).then_some([3, 2, 0]),
    ];
    result(Link::Mstp, octets, &errors, &warnings)
}

// The types that a master usually sends to a slave: test requests, under Annex G data frames too.
fn usual_to_slave(rule: impl Checks) -> &'static [usize] {
    match rule.is_annex_g() {
        true => &[3, 5, 6],
        false => &[3],
    }
}

// The error of an MS/TP frame's header check.
fn header_error(rule: impl Checks, octets: &[u8]) -> Option<Entry> {
    let five = std::array::from_fn(|index| octets[2 + index]);
    check_error(octets[7].into(), rule.header_check(five).into())
}

// The error of an MS/TP frame's data check, if there are data and all of the check is there. There
// may be more behind it.
fn data_error(rule: impl Checks, octets: &[u8], length: usize) -> Option<Entry> {
    if length == 0 {
        return None;
    }
    let end = 8 + length;
    let check = octets.get(end..end + 2)?;
    let calculated = rule.data_check(&octets[8..end]);
    check_error(number(&[check[1], check[0]]), calculated.into())
}

// The error of a check that was received as one number and calculated as another.
fn check_error(received: usize, calculated: usize) -> Option<Entry> {
    (received != calculated).then_some([4, received, calculated])
}

// What is found in an IP frame.
pub fn ip(octets: &[u8]) -> Findings {
    let size = octets.len();
    if size < 4 {
        return alone(Link::Ip, octets, [1, size, 4]);
    }
    let [kind, function] = [0, 1].map(|place| usize::from(octets[place]));
    let length = number(&octets[2..4]);
    let errors = [
        (kind != 0x81).then_some([3, 0x81, kind]),
        (function > 0x0D).then_some([5, function, 0]),
        (length != size).then_some([8, length, size]),
        (size > IP_MOST).then_some([2, size, IP_MOST]),
    ];
    let warnings = [
        (function == 0x0C).then_some([4, 1, 0]),
        [0x01, 0x08].contains(&function).then_some([4, 2, 0]),
    ];
    result(Link::Ip, octets, &errors, &warnings)
}

// What is found in an Ethernet frame.
pub fn ethernet(octets: &[u8]) -> Findings {
    let size = octets.len();
    if size < 17 {
        return alone(Link::Ethernet, octets, [1, size, 17]);
    }
    let kind = number(&octets[12..14]);
    let llc = number(&octets[14..17]);
    let errors = [
        (size > ETHERNET_MOST).then_some([2, size, ETHERNET_MOST]),
        (kind != 0x82DC).then_some([7, 2, kind]),
        (llc != 0x828203).then_some([7, 3, llc]),
    ];
    let multicast = octets[0] % 2 == 1 && octets[..6] != [0xFF; 6];
    let warnings = [
        multicast.then_some([3, 3, 0]),
        (size == 60).then_some([1, size, 0]),
    ];
    result(Link::Ethernet, octets, &errors, &warnings)
}

// A result with one error, which stands alone.
fn alone(link: Link, octets: &[u8], error: Entry) -> Findings {
    result(link, octets, &[Some(error)], &[])
}

// A result with the errors and the warnings that there are.
fn result(
    link: Link,
    octets: &[u8],
    errors: &[Option<Entry>],
    warnings: &[Option<Entry>],
) -> Findings {
    let [errors, warnings] = [errors, warnings].map(|entries| entries.iter().copied().flatten());
    let errors: Vec<Entry> = errors.collect();
    Findings {
        valid: errors.is_empty(),
        link,
        size: octets.len(),
        errors,
        warnings: warnings.collect(),
    }
}
