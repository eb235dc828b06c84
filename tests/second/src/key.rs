//! The secret pairs and the build of a key.

use crate::algebra::{clear_column, negative, plus, rank, times};
use crate::planes::{fault, read, read_row, words, write};

/// Rows of working space for tables, by the header; nothing here uses them.
const TABLE_ROWS: usize = 3 * 81;

/// The sizes, as the C header has them.
#[repr(C)]
#[derive(Clone, Copy, Debug, PartialEq, Eq)]
pub struct Sizes {
    pub n: u64,
    pub ku: u64,
    pub kv: u64,
    pub gv: u64,
    pub gu: u64,
    pub w: u64,
}

impl Sizes {
    pub fn in_range(&self) -> bool {
        if !(4..=16384).contains(&self.n) || self.n % 2 != 0 {
            return false;
        }
        let most = self.n / 2 - 1;
        let dimensions = (1..=most).contains(&self.ku) && (1..=most).contains(&self.kv);
        dimensions && self.gv <= self.kv && self.gu <= self.ku && (1..=self.n).contains(&self.w)
    }

    pub fn n(&self) -> usize {
        self.n as usize
    }

    /// N, the length of a half.
    pub fn half(&self) -> usize {
        self.n() / 2
    }

    pub fn ku(&self) -> usize {
        self.ku as usize
    }

    pub fn kv(&self) -> usize {
        self.kv as usize
    }

    pub fn k(&self) -> usize {
        self.ku() + self.kv()
    }

    pub fn ru(&self) -> usize {
        self.half() - self.ku()
    }

    pub fn rv(&self) -> usize {
        self.half() - self.kv()
    }

    pub fn gv(&self) -> usize {
        self.gv as usize
    }

    pub fn gu(&self) -> usize {
        self.gu as usize
    }

    /// Words of one working plane of a build, by the header.
    pub fn build_work(&self) -> usize {
        (self.n() - self.k() + TABLE_ROWS) * 2 * words(self.half())
    }

    /// Words of one working plane of a draw, by the header.
    pub fn draw_work(&self) -> usize {
        (self.ru().max(self.rv()) + TABLE_ROWS + 5) * words(self.half())
    }
}

#[derive(Clone, Debug)]
pub struct Secret {
    pub hu: Vec<Vec<u8>>,
    pub hv: Vec<Vec<u8>>,
    pub b: Vec<u8>,
    pub c: Vec<u8>,
}

impl Secret {
    /// d = 1 + b·c, place by place.
    pub fn d(&self) -> Vec<u8> {
        plus(&vec![1; self.b.len()], &times(&self.b, &self.c))
    }
}

/// Rows (d·H_U | -b·H_U), then (-c·H_V | H_V).
pub fn secret_matrix(secret: &Secret) -> Vec<Vec<u8>> {
    let (d, minus_b, minus_c) = (secret.d(), negative(&secret.b), negative(&secret.c));
    let upper = secret.hu.iter().map(|h| [times(&d, h), times(&minus_b, h)].concat());
    let lower = secret.hv.iter().map(|h| [times(&minus_c, h), h.clone()].concat());
    upper.chain(lower).collect()
}

/// The column rule on an arranged matrix, its columns named by the order: the reduced matrix and the final order. Columns are moved for good. The rank is full.
pub fn column_rule(mut matrix: Vec<Vec<u8>>, mut order: Vec<usize>) -> (Vec<Vec<u8>>, Vec<usize>) {
    let (mut j, mut l) = (0, order.len() - 1);
    while j < matrix.len() {
        if clear_column(&mut matrix, j, j) {
            j += 1;
        } else {
            for row in matrix.iter_mut() {
                row.swap(j, l);
            }
            order.swap(j, l);
            l -= 1;
        }
    }
    (matrix, order)
}

/// A released key: the final order p, and the k rows, row i being column i of R.
#[derive(Clone, Debug, PartialEq, Eq)]
pub struct Key {
    pub p: Vec<usize>,
    pub rows: Vec<Vec<u8>>,
}

/// The key, or 9 or 10.
pub fn build_key(secret: &Secret, start: &[usize]) -> Result<Key, u64> {
    if rank(&secret.hu) != secret.hu.len() {
        return Err(9);
    }
    if rank(&secret.hv) != secret.hv.len() {
        return Err(10);
    }
    let arranged: Vec<Vec<u8>> = secret_matrix(secret).iter().map(|row| start.iter().map(|q| row[*q]).collect()).collect();
    let (reduced, p) = column_rule(arranged, start.to_vec());
    let kept = reduced.len();
    let rows = (kept..p.len()).map(|i| reduced.iter().map(|row| row[i]).collect()).collect();
    Ok(Key { p, rows })
}

/// Whether the numbers are each of 0 to places - 1, once.
pub fn is_permutation(order: &[u16], places: usize) -> bool {
    let mut sorted: Vec<usize> = order.iter().map(|q| *q as usize).collect();
    sorted.sort();
    sorted == (0..places).collect::<Vec<usize>>()
}

pub fn places(order: &[u16]) -> Vec<usize> {
    order.iter().map(|q| *q as usize).collect()
}

/// The words of a secret as they are lent: ones, then twos.
#[derive(Clone, Copy)]
pub struct SecretWords<'a> {
    pub hu: [&'a [u64]; 2],
    pub hv: [&'a [u64]; 2],
    pub b: [&'a [u64]; 2],
    pub c: [&'a [u64]; 2],
}

impl SecretWords<'_> {
    pub fn lengths_right(&self, z: &Sizes) -> bool {
        let h = words(z.half());
        let each = |planes: [&[u64]; 2], count: usize| planes[0].len() == count && planes[1].len() == count;
        each(self.hu, z.ru() * h) && each(self.hv, z.rv() * h) && each(self.b, h) && each(self.c, h)
    }

    /// The secret, or the refusal of its contents, buffer after buffer.
    pub fn read(&self, z: &Sizes) -> Result<Secret, u64> {
        for (planes, rows) in [(self.hu, z.ru()), (self.hv, z.rv()), (self.b, 1), (self.c, 1)] {
            let found = fault(planes[0], planes[1], rows, z.half());
            if found != 0 {
                return Err(found);
            }
        }
        let secret = Secret {
            hu: read(self.hu[0], self.hu[1], z.ru(), z.half()),
            hv: read(self.hv[0], self.hv[1], z.rv(), z.half()),
            b: read_row(self.b[0], self.b[1], z.half()),
            c: read_row(self.c[0], self.c[1], z.half()),
        };
        if secret.c.contains(&0) {
            return Err(8);
        }
        Ok(secret)
    }
}

pub fn build(z: Sizes, secret: SecretWords, start: &[u16], p: &mut [u16], key: [&mut [u64]; 2], work: [&mut [u64]; 2]) -> u64 {
    if !z.in_range() {
        return 1;
    }
    let key_words = z.k() * words(z.n() - z.k());
    if !secret.lengths_right(&z) || start.len() != z.n() || p.len() != z.n() {
        return 2;
    }
    if key.iter().any(|plane| plane.len() != key_words) || work.iter().any(|plane| plane.len() != z.build_work()) {
        return 2;
    }
    let secret = match secret.read(&z) {
        Ok(secret) => secret,
        Err(found) => return found,
    };
    if !is_permutation(start, z.n()) {
        return 7;
    }
    for plane in work {
        plane.fill(0);
    }
    match build_key(&secret, &places(start)) {
        Err(found) => found,
        Ok(built) => {
            for (to, from) in p.iter_mut().zip(built.p) {
                *to = from as u16;
            }
            let [ones, twos] = key;
            write(&built.rows, ones, twos);
            0
        }
    }
}
