// The runs of bus octets that are measured, each kind by its name and the function that makes one.

use shared::model::mstp::{header, written};
use shared::random::Random;
use shared::rust::checks::House;

// Makes a run of so many octets.
type Make = fn(usize) -> Vec<u8>;

pub const KINDS: [(&str, Make); 7] = [
    ("junk without a head", junk),
    ("tokens with wrong header checks", broken_tokens),
    (
        "headers of 501 data octets with wrong checks",
        broken_headers,
    ),
    (
        "right headers of 501 data octets, data checks wrong",
        broken_data,
    ),
    ("tokens one behind another", tokens),
    ("frames of 501 data octets one behind another", long_frames),
    ("frames among sparks", mixed),
];

// A frame under the house rule: a token, or one with data.
fn frame(destination: u8, source: u8, data: &[u8]) -> Vec<u8> {
    let kind = if data.is_empty() { 0 } else { 6 };
    written(House, [kind, destination, source], data)
}

// The first eight octets of a frame of 501 data octets.
fn long_header() -> Vec<u8> {
    header(House, [6, 16, 5], 501)
}

// Some octets with the last one changed.
fn broken(mut octets: Vec<u8>) -> Vec<u8> {
    *octets.last_mut().expect("an octet") ^= 0x10;
    octets
}

// The octets over and over, cut to so many.
fn over_and_over(octets: Vec<u8>, count: usize) -> Vec<u8> {
    octets.into_iter().cycle().take(count).collect()
}

fn junk(count: usize) -> Vec<u8> {
    Random::new().octets_without_ff(count)
}

fn broken_tokens(count: usize) -> Vec<u8> {
    over_and_over(broken(frame(16, 5, &[])), count)
}

fn broken_headers(count: usize) -> Vec<u8> {
    over_and_over(broken(long_header()), count)
}

fn broken_data(count: usize) -> Vec<u8> {
    over_and_over(long_header(), count)
}

fn tokens(count: usize) -> Vec<u8> {
    over_and_over(frame(16, 5, &[]), count)
}

fn long_frames(count: usize) -> Vec<u8> {
    over_and_over(frame(16, 5, &[0x11; 501]), count)
}

// Noise, tokens, frames of some data, and the same with an octet changed, in a random order.
fn mixed(count: usize) -> Vec<u8> {
    let mut random = Random::new();
    let mut run = Vec::new();
    while run.len() < count {
        let size = [0, 1 + random.below(40), 1 + random.below(501)][random.below(3)];
        let data = random.octets_without_ff(size);
        let good = frame(random.below(128) as u8, random.below(128) as u8, &data);
        run.extend(match random.below(4) {
            0 => random.octets_without_ff(60),
            1 => broken(good),
            _ => good,
        });
    }
    run.truncate(count);
    run
}
