//! The line program: text in, text out.

use crate::algebra::ones_and_twos;
use crate::held::{full_word, in_range, MOST_KEY_NUMBER};

struct Key {
    number: u64,
    n: u64,
    k: u64,
    w: u64,
    rows: Vec<Vec<u8>>,
}

/// A number in decimal without leading zeros; one too large for the word is the largest.
fn number(field: &[u8]) -> Option<u64> {
    if field.is_empty() || !field.iter().all(u8::is_ascii_digit) || (field.len() > 1 && field[0] == b'0') {
        return None;
    }
    Some(field.iter().fold(0u64, |v, b| v.saturating_mul(10).saturating_add((b - b'0') as u64)))
}

/// A number from 0 to `most`.
fn number_to(most: u64, field: &[u8]) -> Option<u64> {
    number(field).filter(|v| *v <= most)
}

/// A digit field: one or more of 0, 1, 2.
fn digits(field: &[u8]) -> Option<Vec<u8>> {
    if field.is_empty() || !field.iter().all(|b| (b'0'..=b'2').contains(b)) {
        return None;
    }
    Some(field.iter().map(|b| b - b'0').collect())
}

enum Line {
    P(u64, u64, u64, u64),
    K(Vec<u8>),
    S(u64, u64, Vec<u8>, Vec<u8>),
}

/// The line, if it is one of the three forms.
fn form(line: &[u8]) -> Option<Line> {
    if line.len() > 1024 {
        return None;
    }
    let fields: Vec<&[u8]> = line.split(|b| *b == b'\t').collect();
    match fields[..] {
        [b"P", key, n, k, w] => Some(Line::P(number_to(MOST_KEY_NUMBER, key)?, number(n)?, number(k)?, number(w)?)),
        [b"K", row] => Some(Line::K(digits(row)?)),
        [b"S", key, formula, y, s] => Some(Line::S(number_to(MOST_KEY_NUMBER, key)?, number_to(65535, formula)?, digits(y)?, digits(s)?)),
        _ => None,
    }
}

/// A K line's refusal, or the row is stored.
fn store(held: &mut Option<Key>, row: Vec<u8>) -> Result<(), u64> {
    let key = held.as_mut().ok_or(20u64)?;
    if key.rows.len() as u64 == key.k {
        return Err(21);
    }
    if row.len() as u64 != key.n - key.k {
        return Err(2);
    }
    key.rows.push(row);
    Ok(())
}

/// An S line's ones and twos and its verdict, or its refusal.
fn verdict(held: &Option<Key>, number: u64, y: &[u8], s: &[u8]) -> Result<(usize, usize, bool), u64> {
    let key = held.as_ref().ok_or(20u64)?;
    if (key.rows.len() as u64) < key.k {
        return Err(20);
    }
    if number != key.number {
        return Err(22);
    }
    if y.len() as u64 != key.n - key.k || s.len() as u64 != key.k {
        return Err(2);
    }
    let (ones, twos) = ones_and_twos(&full_word(&key.rows, y, s));
    Ok((ones, twos, (ones + twos) as u64 == key.w))
}

/// What the program prints for this input.
pub fn run(input: &[u8]) -> Vec<u8> {
    let mut out = String::from("key\tformula\tweight\tverdict\n");
    let mut held = None;
    let mut lines: Vec<&[u8]> = input.split(|b| *b == b'\n').collect();
    if lines.last().is_some_and(|l| l.is_empty()) {
        lines.pop();
    }
    for line in lines {
        let refused = match form(line) {
            None => Some(11),
            Some(Line::P(number, n, k, w)) => {
                if n > 256 || !in_range(number, n, k, w) {
                    Some(1)
                } else {
                    held = Some(Key { number, n, k, w, rows: Vec::new() });
                    None
                }
            }
            Some(Line::K(row)) => store(&mut held, row).err(),
            Some(Line::S(number, formula, y, s)) => {
                match verdict(&held, number, &y, &s) {
                    Ok((ones, twos, yes)) => out.push_str(&format!("{number}\t{formula}\t{ones}+{twos}\t{}\n", if yes { "yes" } else { "no" })),
                    Err(refusal) => out.push_str(&format!("{number}\t{formula}\t-\tr{refusal}\n")),
                }
                None
            }
        };
        if let Some(refusal) = refused {
            out.push_str(&format!("-\t-\t-\tr{refusal}\n"));
        }
    }
    out.into_bytes()
}
