//! A small deterministic generator of numbers: xorshift64*.

/// The generator's state.
pub struct Rng(u64);

/// Numbers at the edges of head widths and of the paper's bounds.
const EDGES: [u64; 40] = [
    0,
    1,
    2,
    7,
    8,
    9,
    10,
    11,
    22,
    23,
    24,
    25,
    31,
    32,
    33,
    88,
    89,
    90,
    91,
    92,
    93,
    94,
    126,
    127,
    128,
    182,
    183,
    254,
    255,
    256,
    257,
    65_533,
    65_535,
    65_536,
    1_048_576,
    1_048_577,
    0xFFFF_FFFF,
    0x1_0000_0000,
    0x1_0000_0001,
    u64::MAX,
];

impl Rng {
    /// A generator from a seed and the number of a stream.
    pub fn new(seed: u64, stream: u64) -> Rng {
        let mut rng =
            Rng(seed.wrapping_mul(0x9E37_79B9_7F4A_7C15) ^ stream.wrapping_mul(0xD134_2543_DE82_EF95) | 1);
        for _ in 0..8 {
            rng.next();
        }
        rng
    }

    /// The next 64 bits.
    pub fn next(&mut self) -> u64 {
        self.0 ^= self.0 >> 12;
        self.0 ^= self.0 << 25;
        self.0 ^= self.0 >> 27;
        self.0.wrapping_mul(0x2545_F491_4F6C_DD1D)
    }

    /// A number below a bound, which is not 0.
    pub fn below(&mut self, bound: usize) -> usize {
        (((self.next() >> 32) * bound as u64) >> 32) as usize
    }

    /// A number from a first to a last.
    pub fn range(&mut self, first: usize, last: usize) -> usize {
        first + self.below(last - first + 1)
    }

    /// True once in so many times.
    pub fn once_in(&mut self, times: usize) -> bool {
        self.below(times) == 0
    }

    /// One of some things.
    pub fn pick<T: Clone>(&mut self, things: &[T]) -> T {
        things[self.below(things.len())].clone()
    }

    /// A byte.
    pub fn byte(&mut self) -> u8 {
        (self.next() >> 56) as u8
    }

    /// A word of 32 bits.
    pub fn word(&mut self) -> u32 {
        (self.next() >> 32) as u32
    }

    /// Some bytes: any, or all the same.
    pub fn bytes(&mut self, length: usize) -> Vec<u8> {
        if self.once_in(4) {
            return vec![self.byte(); length];
        }
        let mut bytes = Vec::with_capacity(length + 8);
        while bytes.len() < length {
            bytes.extend_from_slice(&self.next().to_le_bytes());
        }
        bytes.truncate(length);
        bytes
    }

    /// A number at an edge, near one, or of any width.
    pub fn number(&mut self) -> u64 {
        match self.below(4) {
            0 => self.pick(&EDGES),
            1 => self.pick(&EDGES).wrapping_add(self.below(7) as u64).wrapping_sub(3),
            2 => self.below(64) as u64,
            _ => {
                let width = self.below(64);
                self.next() >> width
            }
        }
    }

    /// A tag from a small pool, so that tags meet again.
    pub fn tag(&mut self) -> [u8; 32] {
        match self.below(5) {
            0 => [0; 32],
            1 => [7; 32],
            2 => std::array::from_fn(|i| i as u8),
            // Unlike the one before in the last byte only.
            3 => std::array::from_fn(|i| if i == 31 { 32 } else { i as u8 }),
            _ => {
                let bytes = self.bytes(32);
                bytes.try_into().unwrap()
            }
        }
    }
}
