//! One draw.

use crate::algebra::{apply, first_independent, minus, plus, solve, times, weight};
use crate::key::{is_permutation, places, Secret, SecretWords, Sizes};
use crate::planes::{fault, read_row, words, write_row};

/// What is supplied to a draw.
#[derive(Clone, Debug)]
pub struct Choices {
    pub v_order: Vec<usize>,
    pub v_trits: Vec<u8>,
    pub u_order: Vec<usize>,
    pub u_values: Vec<u8>,
}

/// x_U and x_V of the word (y, 0...0) in public places.
pub fn split(secret: &Secret, p: &[usize], y: &[u8]) -> (Vec<u8>, Vec<u8>) {
    let half = p.len() / 2;
    let mut word = vec![0; p.len()];
    for (i, t) in y.iter().enumerate() {
        word[p[i]] = *t;
    }
    let (left, right) = word.split_at(half);
    let x_v = minus(right, &times(&secret.c, left));
    let x_u = minus(&times(&secret.d(), left), &times(&secret.b, right));
    (x_u, x_v)
}

/// The word that a draw at gaps g_V and g_U makes, in public places, whatever its weight; or 12 or 13.
pub fn drawn_word(gv: usize, gu: usize, secret: &Secret, p: &[usize], y: &[u8], choices: &Choices) -> Result<Vec<u8>, u64> {
    let half = p.len() / 2;
    let (x_u, x_v) = split(secret, p, y);

    let rv = secret.hv.len();
    let pivots = first_independent(&secret.hv, &choices.v_order[..rv + gv]);
    if pivots.len() != rv {
        return Err(12);
    }
    let mut known = vec![0; half];
    let others = choices.v_order.iter().filter(|q| !pivots.contains(q));
    for (q, t) in others.zip(&choices.v_trits) {
        known[*q] = *t;
    }
    let e_v = solve(&secret.hv, &pivots, &known, &apply(&secret.hv, &x_v));

    let ru = secret.hu.len();
    let (first, last) = choices.u_order.split_at(ru + gu);
    let pivots = first_independent(&secret.hu, first);
    if pivots.len() != ru {
        return Err(13);
    }
    let (free, others) = choices.u_values.split_at(gu);
    let mut known = vec![0; half];
    for (q, t) in first.iter().filter(|q| !pivots.contains(q)).zip(free) {
        known[*q] = *t;
    }
    let forced = times(&minus(&secret.c, &secret.b), &e_v);
    for (q, t) in last.iter().zip(others) {
        known[*q] = if e_v[*q] != 0 { forced[*q] } else { *t };
    }
    let e_u = solve(&secret.hu, &pivots, &known, &apply(&secret.hu, &x_u));

    let left = plus(&e_u, &times(&secret.b, &e_v));
    let right = plus(&times(&secret.c, &left), &e_v);
    let whole = [left, right].concat();
    Ok(p.iter().map(|q| whole[*q]).collect())
}

/// The word released, or 12, 13 or 14.
pub fn draw_word(gv: usize, gu: usize, w: usize, secret: &Secret, p: &[usize], y: &[u8], choices: &Choices) -> Result<Vec<u8>, u64> {
    let word = drawn_word(gv, gu, secret, p, y, choices)?;
    if weight(&word) == w {
        Ok(word)
    } else {
        Err(14)
    }
}

/// What is lent to a draw besides the secret; planes are ones, then twos.
pub struct DrawWords<'a> {
    pub p: &'a [u16],
    pub y: [&'a [u64]; 2],
    pub v_order: &'a [u16],
    pub v_trits: [&'a [u64]; 2],
    pub u_order: &'a [u16],
    pub u_values: [&'a [u64]; 2],
}

pub fn draw(z: Sizes, secret: SecretWords, given: DrawWords, word: [&mut [u64]; 2], s: [&mut [u64]; 2], work: [&mut [u64]; 2]) -> u64 {
    if !z.in_range() {
        return 1;
    }
    let (n, half, m) = (z.n(), z.half(), z.n() - z.k());
    if !secret.lengths_right(&z) || given.p.len() != n || given.v_order.len() != half || given.u_order.len() != half {
        return 2;
    }
    for (planes, length) in [(given.y, m), (given.v_trits, z.kv()), (given.u_values, z.ku())] {
        if planes.iter().any(|plane| plane.len() != words(length)) {
            return 2;
        }
    }
    for (planes, count) in [(&word, words(n)), (&s, words(z.k())), (&work, z.draw_work())] {
        if planes.iter().any(|plane| plane.len() != count) {
            return 2;
        }
    }
    let secret = match secret.read(&z) {
        Ok(secret) => secret,
        Err(found) => return found,
    };
    if !is_permutation(given.p, n) {
        return 7;
    }
    let found = fault(given.y[0], given.y[1], 1, m);
    if found != 0 {
        return found;
    }
    if !is_permutation(given.v_order, half) {
        return 7;
    }
    let found = fault(given.v_trits[0], given.v_trits[1], 1, z.kv());
    if found != 0 {
        return found;
    }
    if !is_permutation(given.u_order, half) {
        return 7;
    }
    let found = fault(given.u_values[0], given.u_values[1], 1, z.ku());
    if found != 0 {
        return found;
    }
    let choices = Choices {
        v_order: places(given.v_order),
        v_trits: read_row(given.v_trits[0], given.v_trits[1], z.kv()),
        u_order: places(given.u_order),
        u_values: read_row(given.u_values[0], given.u_values[1], z.ku()),
    };
    if choices.u_values[z.gu()..].contains(&0) {
        return 8;
    }
    for plane in work {
        plane.fill(0);
    }
    let y = read_row(given.y[0], given.y[1], m);
    match draw_word(z.gv(), z.gu(), z.w as usize, &secret, &places(given.p), &y, &choices) {
        Err(found) => found,
        Ok(drawn) => {
            let [ones, twos] = word;
            write_row(&drawn, ones, twos);
            let [ones, twos] = s;
            write_row(&drawn[m..], ones, twos);
            0
        }
    }
}
