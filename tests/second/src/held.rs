//! The module's half: the held key, its rows, and the verdict.

use crate::algebra::{ones_and_twos, take_out};
use crate::packing::{bytes, packed_fault, syndrome_by, unpacked, Hash, SALT};
use crate::planes::{fault, read, read_row, words, write_row};
use crate::shake::shake256;

/// The state, as the C header has it.
#[repr(C)]
#[derive(Clone, Copy, Debug, PartialEq, Eq, Default)]
pub struct Held {
    pub begun: u64,
    pub number: u64,
    pub n: u64,
    pub k: u64,
    pub w: u64,
    pub rows: u64,
}

#[repr(C)]
#[derive(Clone, Copy, Debug, PartialEq, Eq)]
pub struct Stored {
    pub refusal: u64,
    pub held: Held,
}

#[repr(C)]
#[derive(Clone, Copy, Debug, PartialEq, Eq)]
pub struct Checked {
    pub refusal: u64,
    pub yes: u64,
    pub ones: u64,
    pub twos: u64,
}

/// The largest key number.
pub const MOST_KEY_NUMBER: u64 = 4_294_967_295;

/// What the checker knows of the sizes, and the key number: each in its range.
pub fn in_range(number: u64, n: u64, k: u64, w: u64) -> bool {
    number <= MOST_KEY_NUMBER && (4..=16384).contains(&n) && n % 2 == 0 && (2..=n - 2).contains(&k) && (1..=n).contains(&w)
}

pub fn begin(held: Held, number: u64, n: u64, k: u64, w: u64) -> Stored {
    if !in_range(number, n, k, w) {
        return Stored { refusal: 1, held };
    }
    Stored { refusal: 0, held: Held { begun: 1, number, n, k, w, rows: 0 } }
}

/// 20 for no key begun, 1 for a begun state out of its ranges, else 0.
fn state_refusal(held: &Held) -> u64 {
    if held.begun == 0 {
        20
    } else if held.begun != 1 || !in_range(held.number, held.n, held.k, held.w) || held.rows > held.k {
        1
    } else {
        0
    }
}

pub fn store_row(held: Held, ones: &mut [u64], twos: &mut [u64], row: &[u8]) -> Stored {
    let refused = |refusal| Stored { refusal, held };
    let found = state_refusal(&held);
    if found != 0 {
        return refused(found);
    }
    if held.rows == held.k {
        return refused(21);
    }
    let (k, m) = (held.k as usize, (held.n - held.k) as usize);
    if ones.len() != k * words(m) || twos.len() != k * words(m) || row.len() != bytes(m) {
        return refused(2);
    }
    let found = packed_fault(row, m);
    if found != 0 {
        return refused(found);
    }
    let (from, to) = (held.rows as usize * words(m), (held.rows as usize + 1) * words(m));
    write_row(&unpacked(row, m), &mut ones[from..to], &mut twos[from..to]);
    Stored { refusal: 0, held: Held { rows: held.rows + 1, ..held } }
}

/// The full word of y and s: (y - s·R-transposed, s). Row i of the key is column i of R.
pub fn full_word(rows: &[Vec<u8>], y: &[u8], s: &[u8]) -> Vec<u8> {
    assert_eq!(rows.len(), s.len());
    let mut word = y.to_vec();
    for (row, t) in rows.iter().zip(s) {
        if *t != 0 {
            take_out(&mut word, *t, row);
        }
    }
    word.extend(s);
    word
}

/// What a check is asked about: a packed syndrome, or a salt and a text of which a hash makes one.
#[derive(Clone, Copy)]
pub enum Asked<'a> {
    Syndrome(&'a [u8]),
    Text { hash: Hash, salt: &'a [u8], text: &'a [u8] },
}

impl Asked<'_> {
    fn length_right(&self, m: usize) -> bool {
        match self {
            Asked::Syndrome(y) => y.len() == bytes(m),
            Asked::Text { salt, .. } => salt.len() == SALT,
        }
    }

    /// The refusal of its contents: a salt and a text may hold anything.
    fn fault(&self, m: usize) -> u64 {
        match self {
            Asked::Syndrome(y) => packed_fault(y, m),
            Asked::Text { .. } => 0,
        }
    }

    /// The m trits of y, or 6.
    fn trits(&self, m: usize) -> Result<Vec<u8>, u64> {
        match *self {
            Asked::Syndrome(y) => Ok(unpacked(y, m)),
            Asked::Text { hash, salt, text } => {
                let (mut ones, mut twos) = (vec![0; words(m)], vec![0; words(m)]);
                match syndrome_by(hash, m as u64, salt, text, &mut ones, &mut twos) {
                    0 => Ok(read_row(&ones, &twos, m)),
                    found => Err(found),
                }
            }
        }
    }
}

/// A check of either kind; planes are ones, then twos. The working space is 0 after 6 and after a verdict.
pub fn check_on(held: Held, number: u64, key: [&[u64]; 2], asked: Asked, s: &[u8], work: [&mut [u64]; 2]) -> Checked {
    let refused = |refusal| Checked { refusal, yes: 0, ones: 0, twos: 0 };
    let found = state_refusal(&held);
    if found != 0 {
        return refused(found);
    }
    if held.rows < held.k {
        return refused(20);
    }
    if number != held.number {
        return refused(22);
    }
    let (k, m) = (held.k as usize, (held.n - held.k) as usize);
    if key.iter().any(|plane| plane.len() != k * words(m)) || work.iter().any(|plane| plane.len() != words(m)) {
        return refused(2);
    }
    if !asked.length_right(m) || s.len() != bytes(k) {
        return refused(2);
    }
    for found in [fault(key[0], key[1], k, m), asked.fault(m), packed_fault(s, k)] {
        if found != 0 {
            return refused(found);
        }
    }
    for plane in work {
        plane.fill(0);
    }
    let y = match asked.trits(m) {
        Ok(y) => y,
        Err(found) => return refused(found),
    };
    let word = full_word(&read(key[0], key[1], k, m), &y, &unpacked(s, k));
    let (ones, twos) = ones_and_twos(&word);
    Checked { refusal: 0, yes: ((ones + twos) as u64 == held.w) as u64, ones: ones as u64, twos: twos as u64 }
}

#[allow(clippy::too_many_arguments)]
pub fn check(held: Held, number: u64, ones: &[u64], twos: &[u64], y: &[u8], s: &[u8], work_ones: &mut [u64], work_twos: &mut [u64]) -> Checked {
    check_on(held, number, [ones, twos], Asked::Syndrome(y), s, [work_ones, work_twos])
}

#[allow(clippy::too_many_arguments)]
pub fn check_text(
    held: Held,
    number: u64,
    ones: &[u64],
    twos: &[u64],
    salt: &[u8],
    text: &[u8],
    s: &[u8],
    work_ones: &mut [u64],
    work_twos: &mut [u64],
) -> Checked {
    check_on(held, number, [ones, twos], Asked::Text { hash: shake256, salt, text }, s, [work_ones, work_twos])
}
