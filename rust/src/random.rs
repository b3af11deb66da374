//! Random numbers from a seed (splitmix64), and how many cases the environment asks for.

#[derive(Clone)]
pub struct Random {
    state: u64,
}

impl Random {
    /// Each case has its own generator, so that one case can be run again by itself.
    pub fn new(seed: u64, stream: &str, case: u64) -> Random {
        let mut state = seed ^ case.wrapping_mul(0x9E37_79B9_7F4A_7C15);
        for byte in stream.bytes() {
            state = (state ^ u64::from(byte)).wrapping_mul(0x0000_0100_0000_01B3);
        }
        let mut random = Random { state };
        random.draw();
        random
    }

    pub fn draw(&mut self) -> u64 {
        self.state = self.state.wrapping_add(0x9E37_79B9_7F4A_7C15);
        let mut mixed = self.state;
        mixed = (mixed ^ (mixed >> 30)).wrapping_mul(0xBF58_476D_1CE4_E5B9);
        mixed = (mixed ^ (mixed >> 27)).wrapping_mul(0x94D0_49BB_1331_11EB);
        mixed ^ (mixed >> 31)
    }

    /// A number below `bound`, which is not 0.
    pub fn below(&mut self, bound: usize) -> usize {
        (self.draw() % bound as u64) as usize
    }

    /// A number from `low` to `high`, both included.
    pub fn between(&mut self, low: usize, high: usize) -> usize {
        low + self.below(high - low + 1)
    }

    pub fn word(&mut self) -> u32 {
        self.draw() as u32
    }

    /// True in `percent` of a hundred draws.
    pub fn chance(&mut self, percent: usize) -> bool {
        self.below(100) < percent
    }

    pub fn pick<T: Clone>(&mut self, from: &[T]) -> T {
        from[self.below(from.len())].clone()
    }

    /// One of these, if there are any.
    pub fn some<T: Clone>(&mut self, from: &[T]) -> Option<T> {
        (!from.is_empty()).then(|| self.pick(from))
    }

    pub fn shuffle<T>(&mut self, items: &mut [T]) {
        for last in (1..items.len()).rev() {
            items.swap(last, self.below(last + 1));
        }
    }

    pub fn fill(&mut self, bytes: &mut [u8]) {
        for chunk in bytes.chunks_mut(8) {
            let drawn = self.draw().to_le_bytes();
            chunk.copy_from_slice(&drawn[..chunk.len()]);
        }
    }
}

/// Names the case that was being made when a test panicked.
pub struct Naming(pub &'static str, pub u64);

impl Drop for Naming {
    fn drop(&mut self) {
        if std::thread::panicking() {
            eprintln!("{}: case {} of seed {}", self.0, self.1, seed());
        }
    }
}

fn number(name: &str, default: u64) -> u64 {
    match std::env::var(name) {
        Ok(text) => text.parse().unwrap_or_else(|_| panic!("{name} is no number: {text}")),
        Err(_) => default,
    }
}

pub const DEFAULT_CASES: u64 = 15_000;

/// `MOWQACHI_CASES`: random cases of all tests together.
pub fn cases() -> u64 {
    number("MOWQACHI_CASES", DEFAULT_CASES)
}

/// `MOWQACHI_SEED`: another seed gives other cases.
pub fn seed() -> u64 {
    number("MOWQACHI_SEED", 1)
}
