// The two check rules.

#[derive(Clone, Copy)]
pub enum Rule {
    AnnexG,
    House,
}

impl Rule {
    pub const ALL: [Rule; 2] = [Rule::AnnexG, Rule::House];

    pub fn name(self) -> &'static str {
        match self {
            Rule::AnnexG => "Annex G",
            Rule::House => "house",
        }
    }

    // The constants of header check and data check.
    fn constants(self) -> [u32; 2] {
        match self {
            Rule::AnnexG => [0x81, 0x8408],
            Rule::House => [0x55, 0xA001],
        }
    }

    // The narrowest changes that header check and data check need not find: 103 and 10811 under Annex G,
    // AB and 14003 under the house rule.
    pub fn unfound(self) -> [u32; 2] {
        self.constants().map(|constant| 2 * constant + 1)
    }
}
