// A frame under one rule as the other has it, so that the Rust can judge all but the checks under
// Annex G: a check that is right becomes right there, and a wrong one wrong.

use shared::model::checks::Checks;
use shared::octets::number;

use crate::check::Rule;

// A frame under Annex G as the house rule has it.
pub fn as_house(frame: &[u8]) -> Vec<u8> {
    translated(frame, [Rule::AnnexG, Rule::House])
}

// A frame under the house rule as Annex G has it.
pub fn as_annex_g(frame: &[u8]) -> Vec<u8> {
    translated(frame, [Rule::House, Rule::AnnexG])
}

// A frame under the first of two rules as the second has it.
fn translated(frame: &[u8], rules: [Rule; 2]) -> Vec<u8> {
    let mut frame = frame.to_vec();
    let [_, _, a, b, c, high, low, check, ..] = frame[..] else {
        return frame;
    };
    let [from, to] = rules.map(|rule| rule.header_check([a, b, c, high, low]));
    frame[7] = if check == from { to } else { !to };
    let end = 8 + number(&[high, low]);
    if end > 8 && frame.len() >= end + 2 {
        let [from, to] = rules.map(|rule| rule.data_check(&frame[8..end]));
        let sent = &mut frame[end..end + 2];
        let right = sent == from.to_le_bytes();
        sent.copy_from_slice(&if right { to } else { !to }.to_le_bytes());
    }
    frame
}
