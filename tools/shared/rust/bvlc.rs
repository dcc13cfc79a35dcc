// BVLC messages, read and written by the Rust.

use std::net::SocketAddr;

use bacnet::datalink::bip::{opened_process, BacnetIpDataLink, BvlcFunction, BvlcHeader};

use crate::model::bvlc::{Carried, Header};
use crate::model::questions::RustError;
use crate::octets::hex;
use crate::rust::errors;

// The header that the Rust reads.
pub fn read(octets: &[u8]) -> Result<Header, RustError> {
    let header = BvlcHeader::decode(octets).map_err(errors::told)?;
    assert_eq!(header.bvlc_type, 0x81, "the type that the Rust read");
    Ok(Header {
        function: header.function as u8,
        length: header.length,
    })
}

// The header that the Rust writes, if it has the function.
pub fn write(header: &Header) -> Option<Vec<u8>> {
    let function = BvlcFunction::try_from(header.function).ok()?;
    Some(BvlcHeader::new(function, header.length).encode())
}

// A link that messages are handed to, as if they came from itself.
pub struct Link {
    link: BacnetIpDataLink,
    source: SocketAddr,
}

impl Link {
    // A link on loopback.
    pub fn new() -> Link {
        let source = SocketAddr::from(([127, 0, 0, 1], 0));
        let link = BacnetIpDataLink::new(source).expect("a socket on loopback");
        Link { link, source }
    }

    // What the Rust finds in a message: the NPDU that it hands out, or the time to live that it
    // stores.
    pub fn process<'a>(&mut self, message: &'a [u8]) -> Result<Carried<'a>, RustError> {
        let (answer, stored) = opened_process(&mut self.link, message, self.source);
        match (answer.map_err(errors::told)?, stored) {
            (Some(npdu), None) => {
                assert!(message.ends_with(&npdu), "the NPDU of {}", hex(message));
                Ok(Carried::Npdu(&message[message.len() - npdu.len()..]))
            }
            (None, Some(seconds)) => Ok(Carried::TimeToLive(seconds)),
            (None, None) => Ok(Carried::NoNpdu),
            (Some(_), Some(_)) => panic!("an NPDU and a time to live in {}", hex(message)),
        }
    }
}
