//! A small seeded generator, so that every list can be made again.

/// Splitmix64.
#[derive(Clone, Debug)]
pub struct Random(u64);

impl Random {
    pub fn new(seed: u64) -> Random {
        Random(seed)
    }

    pub fn draw(&mut self) -> u64 {
        self.0 = self.0.wrapping_add(0x9E37_79B9_7F4A_7C15);
        let mut z = self.0;
        z = (z ^ (z >> 30)).wrapping_mul(0xBF58_476D_1CE4_E5B9);
        z = (z ^ (z >> 27)).wrapping_mul(0x94D0_49BB_1331_11EB);
        z ^ (z >> 31)
    }

    /// 0 to `bound` minus 1; 0 for a bound of 0.
    pub fn below(&mut self, bound: u64) -> u64 {
        match bound {
            0 => 0,
            _ => self.draw() % bound,
        }
    }

    /// True that many times in a hundred.
    pub fn chance(&mut self, percent: u64) -> bool {
        self.below(100) < percent
    }

    /// A byte from `low` to `high`, both met.
    pub fn byte(&mut self, low: u8, high: u8) -> u8 {
        low + self.below(u64::from(high - low) + 1) as u8
    }

    /// One of the choices, which must not be none.
    pub fn pick<T: Copy>(&mut self, choices: &[T]) -> T {
        choices[self.below(choices.len() as u64) as usize]
    }

    /// One of the choices, each as often as its weight says.
    pub fn weighted<T: Copy>(&mut self, choices: &[(u64, T)]) -> T {
        let total: u64 = choices.iter().map(|choice| choice.0).sum();
        let mut left = self.below(total);
        for &(weight, choice) in choices {
            if left < weight {
                return choice;
            }
            left -= weight;
        }
        choices[0].1
    }

    /// A party number, mostly a small one so that numbers meet again.
    pub fn number(&mut self) -> u16 {
        match self.below(20) {
            0 => u16::MAX,
            1 => 1 + self.below(65_535) as u16,
            _ => 1 + self.below(400) as u16,
        }
    }

    /// A number that may be absent.
    pub fn number_or_none(&mut self) -> u16 {
        match self.chance(40) {
            true => 0,
            false => self.number(),
        }
    }

    /// An option, mostly the one that lets the caller see the number.
    pub fn option(&mut self) -> u8 {
        self.weighted(&[(14, 0), (16, 1), (70, 2)])
    }
}
