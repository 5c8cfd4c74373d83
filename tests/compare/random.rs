//! Random numbers: splitmix64, a stream of its own for each call, and values drawn to boundaries.

pub struct Random {
    state: u64,
}

const GOLDEN: u64 = 0x9E37_79B9_7F4A_7C15;

fn mix(mut z: u64) -> u64 {
    z = (z ^ z >> 30).wrapping_mul(0xBF58_476D_1CE4_E5B9);
    z = (z ^ z >> 27).wrapping_mul(0x94D0_49BB_1331_11EB);
    z ^ z >> 31
}

impl Random {
    /// The stream of one call, or of one use of it: the same whatever was drawn before.
    pub fn of(seed: u64, call: u64, usage: u64) -> Random {
        let call = mix(mix(seed).wrapping_add(call.wrapping_mul(GOLDEN)));
        let state = mix(call ^ mix(usage.wrapping_add(GOLDEN)));
        Random { state }
    }

    pub fn next(&mut self) -> u64 {
        self.state = self.state.wrapping_add(GOLDEN);
        mix(self.state)
    }

    /// A number below `end`, which is not 0.
    pub fn below(&mut self, end: usize) -> usize {
        ((u128::from(self.next()) * end as u128) >> 64) as usize
    }

    /// A number from `first` to `last`, both included.
    pub fn within(&mut self, first: usize, last: usize) -> usize {
        first + self.below(last - first + 1)
    }

    /// True once in `n` times.
    pub fn once_in(&mut self, n: usize) -> bool {
        self.below(n) == 0
    }

    pub fn pick<T: Copy>(&mut self, from: &[T]) -> T {
        from[self.below(from.len())]
    }

    pub fn byte(&mut self) -> u8 {
        self.next() as u8
    }

    /// An 8-bit number, often at a boundary.
    pub fn edgy_byte(&mut self) -> u8 {
        let plain = self.byte();
        self.pick(&[0, 1, 2, 31, 127, 128, 254, 255, plain, plain, plain, plain])
    }

    /// A 16-bit number, often at a boundary.
    pub fn edgy_word(&mut self) -> u16 {
        let plain = self.next() as u16;
        let edges = [0, 1, 255, 256, 32768, 65407, 65534, 65535];
        if self.once_in(2) {
            plain
        } else {
            self.pick(&edges)
        }
    }

    /// A 32-bit number, often at a boundary.
    pub fn edgy_long(&mut self) -> u32 {
        let plain = self.next() as u32;
        let edges = [0, 1, 255, 65535, 65536, 1 << 31, u32::MAX - 1, u32::MAX];
        if self.once_in(2) {
            plain
        } else {
            self.pick(&edges)
        }
    }

    /// A position or length, often far beyond any run of bytes.
    pub fn edgy_size(&mut self) -> usize {
        let plain = self.next() as usize;
        let high = usize::MAX;
        let small = self.below(2600);
        self.pick(&[0, 1, 256, 1 << 32, high >> 1, high - 1, high, plain, small])
    }

    /// The number itself or one beside it, kept in its range.
    pub fn near(&mut self, value: u32, most: u32) -> u32 {
        match self.below(4) {
            0 => value.saturating_sub(1),
            1 => value.saturating_add(1).min(most),
            _ => value,
        }
    }

    /// Fills the bytes at random, sometimes with one value only.
    pub fn fill(&mut self, bytes: &mut [u8]) {
        if self.once_in(4) {
            let value = self.pick(&[0, 1, 2, 255]);
            bytes.fill(value);
            return;
        }
        self.scatter(bytes);
    }

    /// Fills the bytes at random.
    pub fn scatter(&mut self, bytes: &mut [u8]) {
        for some in bytes.chunks_mut(8) {
            some.copy_from_slice(&self.next().to_le_bytes()[..some.len()]);
        }
    }
}
