// The check octets under document 01's two rules, and document 02's tables, by division of polynomials
// over single bits: the octets' bits, least significant first, over a generator. No register is
// shifted.

use std::array::from_fn;

use ffi::{NO_CASE, TABLE_ENTRIES};
use shared::model::checks::Checks;
use shared::model::trials;

#[derive(Clone, Copy, Debug, PartialEq)]
pub enum Rule {
    AnnexG,
    House,
}

// A generator: its degree, and the exponents of its other terms.
struct Generator(usize, &'static [usize]);

// x^8 + x^7 + 1, x^16 + x^12 + x^5 + 1.
const ANNEX_G: [Generator; 2] = [Generator(8, &[7, 0]), Generator(16, &[12, 5, 0])];

// x^8 + x^7 + x^5 + x^3 + x, x^16 + x^15 + x^2 + 1.
const HOUSE: [Generator; 2] = [Generator(8, &[7, 5, 3, 1]), Generator(16, &[15, 2, 0])];

impl Rule {
    pub const ALL: [Rule; 2] = [Rule::AnnexG, Rule::House];

    // The rule that a number names.
    pub fn of(number: u8) -> Result<Rule, u8> {
        let mut rules = Rule::ALL.into_iter();
        rules.find(|rule| *rule as u8 == number).ok_or(NO_CASE)
    }

    // The generators of header check and data check.
    fn generators(self) -> &'static [Generator; 2] {
        match self {
            Rule::AnnexG => &ANNEX_G,
            Rule::House => &HOUSE,
        }
    }

    // The table of the header check.
    pub fn header_table(self) -> [u8; TABLE_ENTRIES] {
        from_fn(|octet| self.generators()[0].entry(octet as u8) as u8)
    }

    // The table of the data check.
    pub fn data_table(self) -> [u16; TABLE_ENTRIES] {
        from_fn(|octet| self.generators()[1].entry(octet as u8))
    }
}

impl Checks for Rule {
    fn is_annex_g(self) -> bool {
        self == Rule::AnnexG
    }

    fn header_check(self, five: [u8; 5]) -> u8 {
        self.generators()[0].check(&five) as u8
    }

    fn data_check(self, data: &[u8]) -> u16 {
        self.generators()[1].check(data)
    }
}

impl Generator {
    // The check: all bits are one at the start, and the remainder is complemented.
    fn check(&self, octets: &[u8]) -> u16 {
        !self.remainder(octets, true)
    }

    // An octet's entry: nothing is added before or complemented after.
    fn entry(&self, octet: u8) -> u16 {
        self.remainder(&[octet], false)
    }

    // The remainder, its highest term as the lowest bit. That all bits are one at the start means that
    // the dividend's first bits are turned.
    fn remainder(&self, octets: &[u8], ones: bool) -> u16 {
        let Generator(degree, terms) = *self;
        let count = 8 * octets.len();
        let mut bits = vec![false; count + degree];
        for (place, bit) in bits[..count].iter_mut().enumerate() {
            *bit = octets[place / 8] >> (place % 8) & 1 == 1;
        }
        for bit in &mut bits[..degree] {
            *bit ^= ones;
        }
        for place in 0..count {
            if bits[place] {
                for term in terms {
                    bits[place + degree - term] ^= true;
                }
            }
        }
        let lower = |number: u16, bit: &bool| 2 * number + u16::from(*bit);
        bits[count..].iter().rev().fold(0, lower)
    }
}

// Panics unless document 01's trials come out; a and c are Annex G's worked examples.
pub fn try_examples() {
    trials::try_all(Rule::AnnexG, Rule::House);
}
