// Octets that look random and are the same in every run: xorshift on 64 bits, from a fixed seed.

const SEED: u64 = 0x9E37_79B9_7F4A_7C15;

pub struct Random(u64);

impl Random {
    // The generator at its start.
    pub fn new() -> Random {
        Random(SEED)
    }

    // The generator at a start of its own for each seed.
    pub fn seeded(seed: u64) -> Random {
        Random(seed.wrapping_mul(SEED) | 1)
    }

    // A number below `n`.
    pub fn below(&mut self, n: usize) -> usize {
        self.0 ^= self.0 << 13;
        self.0 ^= self.0 >> 7;
        self.0 ^= self.0 << 17;
        (self.0 >> 32) as usize % n
    }

    // A number of 64 bits.
    pub fn wide(&mut self) -> u64 {
        let [high, low] = [0; 2].map(|_| self.below(1 << 32) as u64);
        high << 32 | low
    }

    // An octet.
    pub fn octet(&mut self) -> u8 {
        self.below(256) as u8
    }

    // So many octets.
    pub fn octets(&mut self, count: usize) -> Vec<u8> {
        (0..count).map(|_| self.octet()).collect()
    }

    // Fewer than `n` octets.
    pub fn fewer(&mut self, n: usize) -> Vec<u8> {
        let count = self.below(n);
        self.octets(count)
    }

    // So many octets without FF, so that none of them begins a head.
    pub fn octets_without_ff(&mut self, count: usize) -> Vec<u8> {
        (0..count).map(|_| self.below(255) as u8).collect()
    }

    // So many octets; where they are very many, only the first 16 are random and the others 0.
    pub fn long(&mut self, count: usize) -> Vec<u8> {
        if count <= 1024 {
            return self.octets(count);
        }
        let mut octets = self.octets(16);
        octets.resize(count, 0);
        octets
    }

    // Changes one to three octets.
    pub fn damage(&mut self, octets: &mut [u8]) {
        for _ in 0..1 + self.below(3) {
            let place = self.below(octets.len());
            octets[place] ^= 1 + self.below(255) as u8;
        }
    }
}
