// Behind the Rust's file: its private function, shown, with the time to live that it stored, if it
// stored one. The table is left empty.
pub fn opened_process(
    link: &mut BacnetIpDataLink,
    data: &[u8],
    source: SocketAddr,
) -> (Result<Option<Vec<u8>>>, Option<u16>) {
    let answer = link.process_bvlc_message(data, source);
    let stored = link.fdt.pop().map(|entry| entry.ttl);
    (answer, stored)
}
