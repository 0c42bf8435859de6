//! Numbers from a seed: a case has the same bytes on every machine and with any number of threads.

/// The numbers of one case.
pub struct Rng(u64);

impl Rng {
    /// The numbers of the case `index` under a seed.
    pub fn at(seed: u64, index: u64) -> Rng {
        Rng(mixed(seed.wrapping_mul(0x9E37_79B9_7F4A_7C15) ^ mixed(index)))
    }

    /// The next number.
    pub fn number(&mut self) -> u64 {
        self.0 = self.0.wrapping_add(0x9E37_79B9_7F4A_7C15);
        mixed(self.0)
    }

    /// A number below n, which is not 0.
    pub fn below(&mut self, n: usize) -> usize {
        (((self.number() >> 32) * n as u64) >> 32) as usize
    }

    /// A number from a to b.
    pub fn between(&mut self, a: usize, b: usize) -> usize {
        a + self.below(b - a + 1)
    }

    /// True once in n times.
    pub fn one_in(&mut self, n: usize) -> bool {
        self.below(n) == 0
    }

    /// One of these.
    pub fn pick<T: Copy>(&mut self, from: &[T]) -> T {
        from[self.below(from.len())]
    }

    /// A byte, mostly one at which something changes.
    pub fn byte(&mut self) -> u8 {
        const OFTEN: [u8; 14] = [0, 0, 0, 1, 2, 3, 0x41, 0x61, 0x7F, 0x80, 0xE0, 0xFE, 0xFF, 0xFF];
        if self.one_in(3) {
            self.number() as u8
        } else {
            self.pick(&OFTEN)
        }
    }

    /// At most so many bytes.
    pub fn bytes(&mut self, most: usize) -> Vec<u8> {
        let n = self.below(most + 1);
        self.exactly(n)
    }

    /// So many bytes.
    pub fn exactly(&mut self, n: usize) -> Vec<u8> {
        (0..n).map(|_| self.byte()).collect()
    }

    /// So many bytes of mostly one sort, with some FF, 00 and E0 among them.
    pub fn filled(&mut self, n: usize) -> Vec<u8> {
        let fill = self.pick(&[0x41, 0x41, 0xFF, 0x00, 0x7F]);
        let mut out = vec![fill; n];
        for _ in 0..self.below(12) {
            let at = self.below(n.max(1));
            let pair = [self.pick(&[0xFF, 0xFF, 0x00]), self.pick(&[0x00, 0x00, 0xFF, 0xE0, 0x41])];
            out.iter_mut().skip(at).zip(pair).for_each(|(byte, other)| *byte = other);
        }
        out
    }

    /// At most so many bytes without a zero.
    pub fn name(&mut self, most: usize) -> Vec<u8> {
        let n = self.below(most + 1);
        (0..n).map(|_| self.byte().max(1)).collect()
    }
}

// splitmix64
fn mixed(n: u64) -> u64 {
    let n = (n ^ (n >> 30)).wrapping_mul(0xBF58_476D_1CE4_E5B9);
    let n = (n ^ (n >> 27)).wrapping_mul(0x94D0_49BB_1331_11EB);
    n ^ (n >> 31)
}
