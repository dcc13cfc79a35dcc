// Document 01's trials.

use crate::model::bvlc::{self, Header};
use crate::model::checks::Checks;
use crate::model::patterns::found;
use crate::model::{mstp, validators};

// Panics unless the trials come out under the two rules' checks.
pub fn try_all<C: Checks>(annex_g: C, house: C) {
    assert!(annex_g.is_annex_g() && !house.is_annex_g(), "the rules");
    try_checks(annex_g, house);
    try_patterns();
    let unknown = [0x81, 0x0D, 0x00, 0x04];
    let findings = validators::ip(&unknown);
    assert!(findings.valid && findings.warnings.is_empty(), "trial (i)");
    assert_eq!(bvlc::read(&unknown), Err(13), "trial (i)");
    let (function, length) = (0x0B, 4);
    let empty = bvlc::message(function, &[]);
    assert_eq!(
        bvlc::read(&empty),
        Ok(Header { function, length }),
        "trial (j)"
    );
    assert_eq!(bvlc::process(&empty), Err(15), "trial (j)");
    let write = |count| mstp::write(house, [0x05, 0x10, 0x05], &vec![0x41; count], 512);
    assert_eq!(write(501).map(|frame| frame.len()), Ok(511), "trial (k)");
    assert_eq!(write(502), Err(7), "trial (k)");
}

// Trials a to d.
fn try_checks<C: Checks>(annex_g: C, house: C) {
    let header = [0x00, 0x10, 0x05, 0x00, 0x00];
    let sent = |rule: C| rule.data_check(&[0x01, 0x22, 0x30]).to_le_bytes();
    assert_eq!(annex_g.header_check(header), 0x8C, "trial (a)");
    assert_eq!(house.header_check(header), 0x9A, "trial (b)");
    assert_eq!(sent(annex_g), [0x10, 0xBD], "trial (c)");
    assert_eq!(sent(house), [0xC7, 0x4B], "trial (d)");
    let none = [annex_g, house].map(|rule| rule.data_check(&[]));
    assert_eq!(none, [0, 0], "the check of no octets");
}

// Trials e to h.
fn try_patterns() {
    let five = [[1, 1, 4, 0x41], [2, 0, 5, 0]];
    let eight_and_four = [[0x00; 8].as_slice(), &[0xFF; 4]].concat();
    let padded = [[1, 8, 4, 0xFF], [3, 0, 0, 0]];
    assert_eq!(found(&[0x41; 4]), [[2, 0, 4, 0]], "trial (e)");
    assert_eq!(found(&[0x41; 5]), five, "trial (f)");
    assert_eq!(found(&[0x00; 12]), [[1, 1, 11, 0]], "trial (g)");
    assert_eq!(found(&eight_and_four), padded, "trial (h)");
}
