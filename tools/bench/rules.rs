// The rules' numbers.

pub const ANNEX_G: u8 = 0;
pub const HOUSE: u8 = 1;
