//! A small source of numbers, splitmix64. Each case starts one afresh from the seed, its kind and its number, so that any case can be
//! made again alone.

pub struct Random {
    state: u64,
}

impl Random {
    pub fn of(seed: u64, kind: u64, number: u64) -> Random {
        let mut random = Random { state: seed };
        random.state = random.next().wrapping_add(kind);
        random.state = random.next().wrapping_add(number);
        random
    }

    pub fn next(&mut self) -> u64 {
        self.state = self.state.wrapping_add(0x9e37_79b9_7f4a_7c15);
        let mut z = self.state;
        z = (z ^ (z >> 30)).wrapping_mul(0xbf58_476d_1ce4_e5b9);
        z = (z ^ (z >> 27)).wrapping_mul(0x94d0_49bb_1331_11eb);
        z ^ (z >> 31)
    }

    /// A whole number from 0 to `bound` - 1.
    pub fn below(&mut self, bound: u64) -> u64 {
        ((u128::from(self.next()) * u128::from(bound)) >> 64) as u64
    }

    /// A whole number from `least` to `most`, both among them.
    pub fn between(&mut self, least: u64, most: u64) -> u64 {
        least + self.below(most - least + 1)
    }

    pub fn one_in(&mut self, odds: u64) -> bool {
        self.below(odds) == 0
    }

    pub fn pick<T: Copy>(&mut self, from: &[T]) -> T {
        from[self.below(from.len() as u64) as usize]
    }

    /// A float from 0, below 1.
    pub fn unit(&mut self) -> f64 {
        (self.next() >> 11) as f64 / (1u64 << 53) as f64
    }

    pub fn within(&mut self, lo: f64, hi: f64) -> f64 {
        lo + self.unit() * (hi - lo)
    }

    /// A power of two, its exponent from `least` to `most`.
    pub fn power(&mut self, least: i64, most: i64) -> f64 {
        let exponent = least + self.below((most - least + 1) as u64) as i64;
        f64::from_bits(((1023 + exponent) as u64) << 52)
    }

    /// The float itself or one next to it.
    pub fn beside(&mut self, v: f64) -> f64 {
        match self.below(3) {
            0 => v.next_down(),
            1 => v.next_up(),
            _ => v,
        }
    }

    pub fn shuffle<T>(&mut self, items: &mut [T]) {
        for i in (1..items.len()).rev() {
            items.swap(i, self.below(i as u64 + 1) as usize);
        }
    }
}
