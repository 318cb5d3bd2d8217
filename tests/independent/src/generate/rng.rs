//! A small random number generator (splitmix64), so that a seed always gives the same log.

/// Numbers at or beside a limit of documents 01 and 02 or of a machine word.
const EDGES: [u32; 41] = [
    0, 1, 2, 3, 4, 5, 7, 8, 9, 11, 12, 13, 15, 16, 17, 23, 24, 25, 27, 28, 29, 127, 128, 129, 255,
    256, 65_535, 65_536, 999_999, 1_000_000, 1_000_001, 100000000, 100000001, 0x3FFFFFFF,
    0x40000000, 0x7FFFFFFF, 0x80000000, 0xFFFFFFF0, 0xFFFFFFF4, 0xFFFFFFFE, 0xFFFFFFFF,
];

pub struct Rng(u64);

impl Rng {
    pub fn new(seed: u64) -> Self {
        Rng(seed)
    }

    fn next(&mut self) -> u64 {
        self.0 = self.0.wrapping_add(0x9E37_79B9_7F4A_7C15);
        let mut z = self.0;
        z = (z ^ (z >> 30)).wrapping_mul(0xBF58_476D_1CE4_E5B9);
        z = (z ^ (z >> 27)).wrapping_mul(0x94D0_49BB_1331_11EB);
        z ^ (z >> 31)
    }

    /// Any word.
    pub fn word(&mut self) -> u32 {
        self.next() as u32
    }

    /// A number below the bound, which isn't 0.
    pub fn below(&mut self, bound: usize) -> usize {
        (self.next() % bound as u64) as usize
    }

    /// True once in so many times.
    pub fn one_in(&mut self, times: usize) -> bool {
        self.below(times) == 0
    }

    pub fn pick<T: Copy>(&mut self, from: &[T]) -> T {
        from[self.below(from.len())]
    }

    /// Any word, most often one at a limit.
    pub fn edge(&mut self) -> u32 {
        match self.below(4) {
            0 => self.word(),
            _ => self.pick(&EDGES),
        }
    }

    /// So many bits of the mask, or fewer where it has fewer or one is picked twice.
    pub fn bits(&mut self, mask: u32, most: usize) -> u32 {
        let bits: Vec<u32> = (0..32)
            .map(|fact| 1 << fact)
            .filter(|bit| mask & bit != 0)
            .collect();
        if bits.is_empty() {
            return 0;
        }
        (0..most).fold(0, |picked, _| picked | self.pick(&bits))
    }

    /// One bit of the mask, or none of an empty one.
    pub fn bit(&mut self, mask: u32) -> u32 {
        self.bits(mask, 1)
    }
}
