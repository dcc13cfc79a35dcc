// A check rule. Each tool works out the check octets in its own way, so the model takes them from
// outside.

pub trait Checks: Copy {
    // Whether it is the Annex G rule; else it is the house rule.
    fn is_annex_g(self) -> bool;

    // The header check of five octets.
    fn header_check(self, five: [u8; 5]) -> u8;

    // The data check of any octets, as a number.
    fn data_check(self, data: &[u8]) -> u16;
}
