//! A small seeded generator of numbers (splitmix64): no clock, no randomness of the system.

use std::collections::HashSet;

pub struct Random {
    state: u64,
}

impl Random {
    pub fn new(seed: u64) -> Random {
        Random { state: seed }
    }

    /// The numbers of one job: any job can be made again from the seed and its number.
    pub fn of_job(seed: u64, number: u64) -> Random {
        let mut random = Random::new(seed);
        let mixed = random.draw() ^ number.wrapping_mul(0xD134_2543_DE82_EF95);
        Random::new(mixed)
    }

    pub fn draw(&mut self) -> u64 {
        self.state = self.state.wrapping_add(0x9E37_79B9_7F4A_7C15);
        let mut z = self.state;
        z = (z ^ (z >> 30)).wrapping_mul(0xBF58_476D_1CE4_E5B9);
        z = (z ^ (z >> 27)).wrapping_mul(0x94D0_49BB_1331_11EB);
        z ^ (z >> 31)
    }

    /// A number below `limit`; 0 if the limit is 0.
    pub fn below(&mut self, limit: usize) -> usize {
        (self.draw() % limit.max(1) as u64) as usize
    }

    pub fn chance(&mut self, percent: usize) -> bool {
        self.below(100) < percent
    }

    pub fn pick<'a, T>(&mut self, choices: &'a [T]) -> &'a T {
        &choices[self.below(choices.len())]
    }

    pub fn letter(&mut self, choices: &[u8]) -> u8 {
        *self.pick(choices)
    }

    /// One of the choices, each with its share of a hundred.
    pub fn by_share<T: Copy>(&mut self, choices: &[T], shares: &[usize]) -> T {
        let mut left = self.below(100);
        for (choice, share) in choices.iter().zip(shares) {
            if left < *share {
                return *choice;
            }
            left -= share;
        }
        panic!("the shares are less than a hundred");
    }

    /// A number up to `most`, often small.
    pub fn number(&mut self, most: u16) -> u16 {
        let number = match self.below(10) {
            0 => 65535,
            1 => self.below(65536),
            _ => self.below(most as usize + 2),
        };
        number as u16
    }

    pub fn shuffle<T>(&mut self, list: &mut [T]) {
        for i in (1..list.len()).rev() {
            list.swap(i, self.below(i + 1));
        }
    }
}

/// Ids that are not used yet in a unit.
#[derive(Default)]
pub struct Ids {
    used: HashSet<u16>,
}

impl Ids {
    pub fn fresh(&mut self, random: &mut Random) -> u16 {
        loop {
            let range = match random.below(20) {
                0 => 65535,
                _ => 20 + 2 * self.used.len(),
            };
            let id = 1 + random.below(range) as u16;
            if self.used.insert(id) {
                return id;
            }
        }
    }

    /// One to five digits, each as often; seldom the greatest.
    pub fn fresh_of_any_width(&mut self, random: &mut Random) -> u16 {
        loop {
            let least = *random.pick(&[1, 10, 100, 1_000, 10_000]);
            let id = match random.below(50) {
                0 => 65_535,
                _ => least + random.below((10 * least).min(65_536) - least),
            };
            if self.used.insert(id as u16) {
                return id as u16;
            }
        }
    }
}
