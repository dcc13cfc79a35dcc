// The check tables in lent memory.

use std::array::from_fn;

use ffi::{
    lefkanu_calculate_header_crc, lefkanu_crc16_mstp, lefkanu_data_table, lefkanu_header_table,
    TABLE_ENTRIES,
};
use shared::model::checks::Checks;
use shared::octets::hex;
use shared::random::Random;
use shared::rust::checks::House;

use crate::call::Call;
use crate::check::Rule;
use crate::inputs::one_in;
use crate::lent::{Lent, Word};
use crate::outcome::{model, Rust};
use crate::tally::Tally;
use crate::written::InMemory;

// How many random inputs there are, and how many checks are worked out with the table of each rule.
const RANDOM: usize = 900_000;
const CHECKS: usize = 100_000;

// The most octets that a data check is worked out of.
const DATA: usize = 600;

// The entries of a table.
type Entries<T> = [T; TABLE_ENTRIES];

// A function of the library, what it must write under each rule by the model, and under the house rule
// by the Rust's checks: behind octets that leave the register at 0, an octet goes through the eight
// steps alone, so its entry is the complement of the check.
struct Table<T> {
    ours: unsafe extern "C" fn(u8, *mut Entries<T>) -> u8,
    model: [Entries<T>; 2],
    rust: Entries<T>,
}

// Compares the table of the header check.
pub fn header(tally: &mut Tally, random: &mut Random) {
    let table = Table {
        ours: lefkanu_header_table,
        model: Rule::ALL.map(Rule::header_table),
        rust: from_fn(|octet| !House.header_check([0xFF, 0x00, 0x00, 0x00, octet as u8])),
    };
    table.each(tally, random);
    table.by_use(tally, random, header_crc, |random| random.octets(5));
}

// Compares the table of the data check.
pub fn data(tally: &mut Tally, random: &mut Random) {
    let table = Table {
        ours: lefkanu_data_table,
        model: Rule::ALL.map(Rule::data_table),
        rust: from_fn(|octet| !House.data_check(&[0xFF, 0xFF, octet as u8])),
    };
    table.each(tally, random);
    table.by_use(tally, random, data_crc, |random| random.fewer(1 + DATA));
}

impl<T: Word> Table<T>
where
    Entries<T>: InMemory,
{
    // All numbers, those that name no rule too, with each octet all over the memory, and with each
    // rule's table there, any number at each place of it. Then random numbers in the memory, most often
    // under a rule.
    fn each(&self, tally: &mut Tally, random: &mut Random) {
        for rule in 0..=255 {
            for octet in 0..=255 {
                let same = [T::of(octet << 8 | octet); TABLE_ENTRIES];
                self.ask(tally, rule, Lent::holding(&same, random));
            }
            for table in self.model {
                for place in 0..TABLE_ENTRIES {
                    let mut changed = table;
                    changed[place] = T::of(random.wide());
                    self.ask(tally, rule, Lent::holding(&changed, random));
                }
            }
        }
        for _ in 0..RANDOM {
            let rule = match one_in(4, random) {
                true => random.octet(),
                false => random.below(2) as u8,
            };
            self.ask(tally, rule, Lent::new(TABLE_ENTRIES, random));
        }
    }

    // One table, into some memory.
    fn ask(&self, tally: &mut Tally, rule: u8, mut memory: Lent<T>) {
        let answer = unsafe { (self.ours)(rule, memory.array()) };
        let before = memory.before().to_vec();
        let named = Rule::of(rule);
        tally.compare(Call {
            answer,
            lent: &mut [&mut memory],
            model: model(named.map(|rule| self.model[rule as usize])),
            rust: match named {
                Ok(Rule::House) => Rust::whole(Ok(self.rust)),
                _ => Rust::Silent,
            },
            input: &|| {
                let before: Vec<u64> = before.iter().map(|number| number.wide()).collect();
                format!("rule {rule}, memory {before:x?}")
            },
        });
    }

    // Works out checks with the library's table of each rule, which must be those that the library
    // answers. All entries must be used in it.
    fn by_use(
        &self,
        tally: &mut Tally,
        random: &mut Random,
        crc: fn(u8, &[u8]) -> T,
        make: fn(&mut Random) -> Vec<u8>,
    ) {
        for rule in 0..2 {
            let mut memory = Lent::new(TABLE_ENTRIES, random);
            unsafe { (self.ours)(rule, memory.array()) };
            let mut used = [false; TABLE_ENTRIES];
            for _ in 0..CHECKS {
                let octets = make(random);
                if check(memory.after(), &octets, &mut used) != crc(rule, &octets) {
                    tally.differs(&|| format!("by use, rule {rule}, {}", hex(&octets)));
                }
            }
            let count = used.into_iter().filter(|used| *used).count();
            tally.see(('u', count, 1 + usize::from(rule)));
        }
    }
}

// The check of some octets, octet by octet with a table, whose entries are marked where they are used.
fn check<T: Word>(table: &[T], octets: &[u8], used: &mut [bool]) -> T {
    let mut register = T::of(u64::MAX).wide();
    for octet in octets {
        let place = usize::from(register as u8 ^ octet);
        register = register >> 8 ^ table[place].wide();
        used[place] = true;
    }
    T::of(!register)
}

// The library's header check of five octets.
fn header_crc(rule: u8, octets: &[u8]) -> u8 {
    let header: &[u8; 5] = octets.try_into().expect("a header");
    let mut crc = 0;
    unsafe { lefkanu_calculate_header_crc(rule, header, &mut crc) };
    crc
}

// The library's data check.
fn data_crc(rule: u8, octets: &[u8]) -> u16 {
    let mut crc = 0;
    unsafe { lefkanu_crc16_mstp(rule, octets.as_ptr(), octets.len(), &mut crc) };
    crc
}
