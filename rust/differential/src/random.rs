//! Random numbers that a seed repeats (splitmix64).

pub struct Random(u64);

impl Random {
    /// The numbers of one list of a run.
    pub fn new(seed: u64, list: u64) -> Random {
        let mut random = Random(seed);
        random.0 = random.next() ^ list.wrapping_mul(0xD1B5_4A32_D192_ED03);
        random
    }

    pub fn next(&mut self) -> u64 {
        self.0 = self.0.wrapping_add(0x9E37_79B9_7F4A_7C15);
        let mut z = self.0;
        z = (z ^ (z >> 30)).wrapping_mul(0xBF58_476D_1CE4_E5B9);
        z = (z ^ (z >> 27)).wrapping_mul(0x94D0_49BB_1331_11EB);
        z ^ (z >> 31)
    }

    pub fn below(&mut self, n: usize) -> usize {
        (((self.next() >> 32) * n as u64) >> 32) as usize
    }

    /// From `least` to `most`, both included.
    pub fn within(&mut self, least: usize, most: usize) -> usize {
        least + self.below(most - least + 1)
    }

    pub fn one_in(&mut self, n: usize) -> bool {
        self.below(n) == 0
    }

    pub fn pick<'a, T>(&mut self, of: &'a [T]) -> &'a T {
        &of[self.below(of.len())]
    }

    pub fn bytes(&mut self, length: usize) -> Vec<u8> {
        (0..length).map(|_| self.next() as u8).collect()
    }

    /// A number at some edge, or anywhere.
    pub fn wild(&mut self) -> u32 {
        const EDGES: [u32; 18] =
            [0, 1, 45, 46, 48, 50, 51, 255, 256, 257, 1439, 1440, 9999, 10_000, 36_524, 36_525, 65_536, u32::MAX];
        match self.below(4) {
            0 => self.next() as u32,
            1 => self.below(70_000) as u32,
            _ => *self.pick(&EDGES),
        }
    }
}
