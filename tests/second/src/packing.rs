//! Five trits to a byte, trits of a byte stream, and the syndrome of a text.

use crate::planes::{fault, read_row, words, write_row};
use crate::shake::shake256;

pub fn bytes(m: usize) -> usize {
    m.div_ceil(5)
}

/// The five trits of a byte from 0 to 242, the first times 1, then 3, 9, 27, 81.
pub fn trits_of(byte: u8) -> [u8; 5] {
    assert!(byte <= 242);
    [byte % 3, byte / 3 % 3, byte / 9 % 3, byte / 27 % 3, byte / 81]
}

/// A row packed; trits past the end are 0.
pub fn packed(row: &[u8]) -> Vec<u8> {
    row.chunks(5).map(|five| five.iter().rev().fold(0, |b, t| 3 * b + t)).collect()
}

/// 5 for a byte above 242, anywhere; then 15 for a trit past the length that is not 0; else 0. The length is right.
pub fn packed_fault(bytes: &[u8], m: usize) -> u64 {
    if bytes.iter().any(|b| *b > 242) {
        return 5;
    }
    let trits: Vec<u8> = bytes.iter().flat_map(|b| trits_of(*b)).collect();
    if trits[m..].iter().any(|t| *t != 0) {
        return 15;
    }
    0
}

/// The m trits of packed bytes that have no fault.
pub fn unpacked(bytes: &[u8], m: usize) -> Vec<u8> {
    assert_eq!(packed_fault(bytes, m), 0);
    let mut row: Vec<u8> = bytes.iter().flat_map(|b| trits_of(*b)).collect();
    row.truncate(m);
    assert_eq!(row.len(), m);
    row
}

/// The number of trits in a call is 0 to 16,384.
fn too_many(m: u64) -> bool {
    m > 16384
}

pub fn pack(m: u64, ones: &[u64], twos: &[u64], out: &mut [u8]) -> u64 {
    if too_many(m) {
        return 1;
    }
    let m = m as usize;
    if ones.len() != words(m) || twos.len() != words(m) || out.len() != bytes(m) {
        return 2;
    }
    let found = fault(ones, twos, 1, m);
    if found != 0 {
        return found;
    }
    out.copy_from_slice(&packed(&read_row(ones, twos, m)));
    0
}

pub fn unpack(m: u64, row: &[u8], ones: &mut [u64], twos: &mut [u64]) -> u64 {
    if too_many(m) {
        return 1;
    }
    let m = m as usize;
    if row.len() != bytes(m) || ones.len() != words(m) || twos.len() != words(m) {
        return 2;
    }
    let found = packed_fault(row, m);
    if found != 0 {
        return found;
    }
    write_row(&unpacked(row, m), ones, twos);
    0
}

pub fn from_stream(m: u64, stream: &[u8], ones: &mut [u64], twos: &mut [u64]) -> u64 {
    if too_many(m) {
        return 1;
    }
    let m = m as usize;
    if ones.len() != words(m) || twos.len() != words(m) {
        return 2;
    }
    let mut row = Vec::new();
    for b in stream {
        if row.len() < m && *b < 243 {
            for t in trits_of(*b) {
                if row.len() < m {
                    row.push(t);
                }
            }
        }
    }
    if row.len() < m {
        return 6;
    }
    write_row(&row, ones, twos);
    0
}

/// Bytes of a salt.
pub const SALT: usize = 32;

/// How many bytes of a hash are read for m trits, skipped ones counted: so many more than m.
const SPARE: usize = 136;

/// Fills an output of any length with the hash of a message.
pub type Hash = fn(message: &[u8], output: &mut [u8]);

/// The syndrome of a salt and a text by any hash, so that a stream can be had that no text is known for.
pub fn syndrome_by(hash: Hash, m: u64, salt: &[u8], text: &[u8], ones: &mut [u64], twos: &mut [u64]) -> u64 {
    if too_many(m) {
        return 1;
    }
    if salt.len() != SALT {
        return 2;
    }
    let mut stream = vec![0; m as usize + SPARE];
    hash(&[salt, text].concat(), &mut stream);
    from_stream(m, &stream, ones, twos)
}

pub fn syndrome(m: u64, salt: &[u8], text: &[u8], ones: &mut [u64], twos: &mut [u64]) -> u64 {
    syndrome_by(shake256, m, salt, text, ones, twos)
}
