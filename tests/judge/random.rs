//! Random numbers for the generators: splitmix64, a fixed algorithm without
//! any outside source, so that one seed gives the same cases on every machine.

pub struct Random {
    state: u64,
}

impl Random {
    pub fn new(seed: u64) -> Random {
        Random { state: seed }
    }

    /// Each case has its own stream, so that one case can be made again
    /// without making those before it.
    pub fn for_case(seed: u64, stream: u64, number: u64) -> Random {
        let mut first = Random::new(seed);
        let mut second = Random::new(first.draw() ^ stream);
        Random::new(second.draw() ^ number)
    }

    /// The next 64 bits.
    pub fn draw(&mut self) -> u64 {
        self.state = self.state.wrapping_add(0x9E37_79B9_7F4A_7C15);
        let mut z = self.state;
        z = (z ^ (z >> 30)).wrapping_mul(0xBF58_476D_1CE4_E5B9);
        z = (z ^ (z >> 27)).wrapping_mul(0x94D0_49BB_1331_11EB);
        z ^ (z >> 31)
    }

    /// A number from 0 to `end` - 1; `end` is at least 1 and below 2^32.
    pub fn below(&mut self, end: usize) -> usize {
        assert!(end >= 1);
        (((self.draw() >> 32) * end as u64) >> 32) as usize
    }

    /// A number from `low` to `high`, both included.
    pub fn between(&mut self, low: usize, high: usize) -> usize {
        low + self.below(high - low + 1)
    }

    /// True once in `times`, on average.
    pub fn one_in(&mut self, times: usize) -> bool {
        self.below(times) == 0
    }

    pub fn byte(&mut self) -> u8 {
        self.between(0, usize::from(u8::MAX)) as u8
    }

    /// A byte that isn't 0.
    pub fn some_byte(&mut self) -> u8 {
        self.between(1, usize::from(u8::MAX)) as u8
    }

    /// One of the items; there is at least one.
    pub fn pick<T: Copy>(&mut self, items: &[T]) -> T {
        items[self.below(items.len())]
    }

    /// One of the items, or nothing where there are none.
    pub fn pick_any<T: Copy>(&mut self, items: &[T]) -> Option<T> {
        if items.is_empty() {
            None
        } else {
            Some(self.pick(items))
        }
    }

    /// Puts the items into any order.
    pub fn shuffle<T>(&mut self, items: &mut [T]) {
        for end in (1..items.len()).rev() {
            items.swap(end, self.below(end + 1));
        }
    }
}
