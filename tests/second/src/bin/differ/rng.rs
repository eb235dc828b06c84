//! Numbers from a seed.

use second::held::MOST_KEY_NUMBER;
use second::packing::bytes;
use second::planes::words;

pub struct Rng(u64);

impl Rng {
    pub fn new(seed: u64) -> Rng {
        Rng(seed)
    }

    /// splitmix64
    pub fn word(&mut self) -> u64 {
        self.0 = self.0.wrapping_add(0x9E3779B97F4A7C15);
        let mut z = self.0;
        z = (z ^ (z >> 30)).wrapping_mul(0xBF58476D1CE4E5B9);
        z = (z ^ (z >> 27)).wrapping_mul(0x94D049BB133111EB);
        z ^ (z >> 31)
    }

    pub fn below(&mut self, n: usize) -> usize {
        assert!(n > 0);
        (self.word() % n as u64) as usize
    }

    pub fn between(&mut self, low: usize, high: usize) -> usize {
        low + self.below(high - low + 1)
    }

    /// A gap from 0 to the most, often one of the two.
    pub fn gap(&mut self, most: usize) -> usize {
        match self.below(4) {
            0 => 0,
            1 => most,
            _ => self.between(0, most),
        }
    }

    pub fn one_in(&mut self, n: usize) -> bool {
        self.below(n) == 0
    }

    pub fn pick<T: Copy>(&mut self, from: &[T]) -> T {
        from[self.below(from.len())]
    }

    pub fn words(&mut self, count: usize) -> Vec<u64> {
        (0..count).map(|_| self.word()).collect()
    }

    /// A key number: small, at an edge, or anywhere in its range.
    pub fn key_number(&mut self) -> u64 {
        match self.below(4) {
            0 => self.below(256) as u64,
            1 => self.pick(&[0, 255, 256, 65535, 65536, MOST_KEY_NUMBER - 1, MOST_KEY_NUMBER]),
            _ => self.word() % (MOST_KEY_NUMBER + 1),
        }
    }

    /// Bytes of a text, a salt or a message: all 0, all 255, or mixed.
    pub fn text(&mut self, count: usize) -> Vec<u8> {
        match self.below(8) {
            0 => vec![0; count],
            1 => vec![255; count],
            _ => (0..count).map(|_| self.word() as u8).collect(),
        }
    }

    pub fn order(&mut self, places: usize) -> Vec<u16> {
        let mut out: Vec<u16> = (0..places).map(|q| q as u16).collect();
        for i in (1..places).rev() {
            out.swap(i, self.below(i + 1));
        }
        out
    }

    /// Planes of rows of m trits: mixed, thin, full of one trit, or with no 0.
    pub fn planes(&mut self, rows: usize, m: usize) -> (Vec<u64>, Vec<u64>) {
        match self.below(12) {
            0 => self.planes_by(rows, m, |_| (0, 0)),
            1 => self.planes_by(rows, m, |_| (!0, 0)),
            2 => self.planes_by(rows, m, |_| (0, !0)),
            3 => self.planes_by(rows, m, |r| {
                let (a, thin) = (r.word(), r.word() & r.word() & r.word());
                (a & thin, !a & thin)
            }),
            4 => self.full_planes(rows, m),
            _ => self.mixed_planes(rows, m),
        }
    }

    /// Each trit 0 with chance 1/2, 1 and 2 with 1/4.
    pub fn mixed_planes(&mut self, rows: usize, m: usize) -> (Vec<u64>, Vec<u64>) {
        self.planes_by(rows, m, |r| {
            let (a, b) = (r.word(), r.word());
            (a & !b, b & !a)
        })
    }

    /// No trit is 0.
    pub fn full_planes(&mut self, rows: usize, m: usize) -> (Vec<u64>, Vec<u64>) {
        self.planes_by(rows, m, |r| {
            let a = r.word();
            (a, !a)
        })
    }

    fn planes_by(&mut self, rows: usize, m: usize, pair: impl Fn(&mut Rng) -> (u64, u64)) -> (Vec<u64>, Vec<u64>) {
        let (mut ones, mut twos) = (vec![], vec![]);
        for _ in 0..rows {
            for i in 0..words(m) {
                let used = m - 64 * i;
                let mask = if used >= 64 { !0 } else { (1u64 << used) - 1 };
                let (a, b) = pair(self);
                ones.push(a & mask);
                twos.push(b & mask);
            }
        }
        (ones, twos)
    }

    /// A packed row of m trits, those past the length 0.
    pub fn packed(&mut self, m: usize) -> Vec<u8> {
        let count = bytes(m);
        let mut row = match self.below(8) {
            0 => vec![0; count],
            1 => vec![242; count],
            _ => (0..count).map(|_| self.below(243) as u8).collect(),
        };
        if m % 5 != 0 {
            row[count - 1] %= 3u8.pow(m as u32 % 5);
        }
        row
    }
}
