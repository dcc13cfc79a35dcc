// The cases of writing BVLC headers.

use shared::model::bvlc::{Header, LAST_FUNCTION};

use crate::bip_list::writing;
use crate::list::List;

// Adds every function with some lengths, into outputs that have four octets, more and fewer.
pub fn cases(list: &mut List) {
    for function in 0..=LAST_FUNCTION {
        for length in [0, 3, 4, 5, 255, 256, 0x1234, 0xFFFF_u16] {
            let header = Header { function, length };
            for size in [0, 1, 3, 4, 5, 20] {
                writing(list, &header, size);
            }
        }
    }
}
