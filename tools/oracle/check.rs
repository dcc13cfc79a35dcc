// The check octets under document 01's two rules. Those of the house rule are the Rust's. Those of
// Annex G come from the parallel forms that it prints in C, which share nothing with a loop over bits.

use shared::model::checks::Checks;
use shared::model::trials;
use shared::rust::checks::House;

#[derive(Clone, Copy, PartialEq)]
pub enum Rule {
    House,
    AnnexG,
}

// Both rules.
pub const RULES: [Rule; 2] = [Rule::House, Rule::AnnexG];

impl Rule {
    // The letter that names the rule.
    pub fn letter(self) -> char {
        match self {
            Rule::House => 'h',
            Rule::AnnexG => 'g',
        }
    }

    // The other rule.
    pub fn other(self) -> Rule {
        match self {
            Rule::House => Rule::AnnexG,
            Rule::AnnexG => Rule::House,
        }
    }
}

impl Checks for Rule {
    fn is_annex_g(self) -> bool {
        self == Rule::AnnexG
    }

    fn header_check(self, five: [u8; 5]) -> u8 {
        match self {
            Rule::House => House.header_check(five),
            Rule::AnnexG => !five.into_iter().fold(0xFF, header_step),
        }
    }

    fn data_check(self, data: &[u8]) -> u16 {
        match self {
            Rule::House => House.data_check(data),
            Rule::AnnexG => !data.iter().copied().fold(0xFFFF, data_step),
        }
    }
}

// Annex G's header register after one more octet.
fn header_step(register: u8, octet: u8) -> u8 {
    let x = u16::from(register ^ octet);
    let x = x ^ (x << 1) ^ (x << 2) ^ (x << 3) ^ (x << 4) ^ (x << 5) ^ (x << 6) ^ (x << 7);
    ((x & 0xFE) ^ ((x >> 8) & 1)) as u8
}

// Annex G's data register after one more octet.
fn data_step(register: u16, octet: u8) -> u16 {
    let low = (register & 0xFF) ^ u16::from(octet);
    let high = (low << 8) ^ (low << 3) ^ (low << 12);
    (register >> 8) ^ high ^ (low >> 4) ^ (low & 0x0F) ^ ((low & 0x0F) << 7)
}

// Panics unless Annex G's worked examples come out, each register, and document 01's trials.
pub fn try_examples() {
    let mut register = 0xFF;
    let header = [
        (0x00, 0x55),
        (0x10, 0xC2),
        (0x05, 0xBC),
        (0x00, 0x95),
        (0x00, 0x73),
    ];
    for (octet, expected) in header {
        register = header_step(register, octet);
        assert_eq!(register, expected, "Annex G's header example");
    }
    let mut register = 0xFFFF;
    for (octet, expected) in [(0x01, 0x1E0E), (0x22, 0xEB70), (0x30, 0x42EF)] {
        register = data_step(register, octet);
        assert_eq!(register, expected, "Annex G's data example");
    }
    trials::try_all(Rule::AnnexG, Rule::House);
}
