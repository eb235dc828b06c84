//! SHAKE256 in the words of FIPS 202: the five steps of a round over 25 lanes of 64 bits, and a sponge over strings of
//! bits. Bit z of the lane at (x, y) is bit 64(5y + x) + z of the state. Offsets and constants come from their rules.

use std::array::from_fn;

/// Bits of a block: 1600 less twice 256.
const RATE: usize = 1088;
const ROUNDS: usize = 24;

type State = [u64; 25];

/// Where the lane at (x, y) stands, both modulo 5.
const fn at(x: usize, y: usize) -> usize {
    x % 5 + 5 * (y % 5)
}

/// The state with the lane that a rule gives at each (x, y).
fn lanes(rule: impl Fn(usize, usize) -> u64) -> State {
    from_fn(|i| rule(i % 5, i / 5))
}

/// Adds to each bit the parities of two columns: of the sheet before, and of the sheet after at the bit before.
fn theta(a: &State) -> State {
    let parity: [u64; 5] = from_fn(|x| (0..5).fold(0, |sum, y| sum ^ a[at(x, y)]));
    lanes(|x, y| a[at(x, y)] ^ parity[(x + 4) % 5] ^ parity[(x + 1) % 5].rotate_left(1))
}

/// By how much rho turns each lane: from (1, 0) by (x, y) -> (y, 2x + 3y), lane t of the walk by 1 + 2 + .. + (t + 1).
const fn offsets() -> [u32; 25] {
    let mut out = [0; 25];
    let (mut x, mut y, mut t) = (1, 0, 0);
    while t < 24 {
        out[at(x, y)] = (t + 1) * (t + 2) / 2 % 64;
        (x, y) = (y, (2 * x + 3 * y) % 5);
        t += 1;
    }
    out
}

const OFFSETS: [u32; 25] = offsets();

fn rho(a: &State) -> State {
    from_fn(|i| a[i].rotate_left(OFFSETS[i]))
}

/// The lanes change places.
fn pi(a: &State) -> State {
    lanes(|x, y| a[at(x + 3 * y, x)])
}

/// Adds to each bit the product of the two after it in its row, the first of them turned over.
fn chi(a: &State) -> State {
    lanes(|x, y| a[at(x, y)] ^ (!a[at(x + 1, y)] & a[at(x + 2, y)]))
}

/// The constants of iota: a register of 8 bits, fed back by x^8 + x^6 + x^5 + x^4 + 1, gives the bits 2^j - 1 of each
/// round in turn.
const fn constants() -> [u64; ROUNDS] {
    let mut out = [0; ROUNDS];
    let (mut register, mut t) = (1u16, 0);
    while t < 7 * ROUNDS {
        out[t / 7] |= ((register & 1) as u64) << ((1 << (t % 7)) - 1);
        register <<= 1;
        if register >> 8 == 1 {
            register ^= 0b1_0111_0001;
        }
        t += 1;
    }
    out
}

const CONSTANTS: [u64; ROUNDS] = constants();

fn iota(mut a: State, constant: u64) -> State {
    a[at(0, 0)] ^= constant;
    a
}

/// Keccak-f[1600].
fn permuted(state: State) -> State {
    CONSTANTS.iter().fold(state, |a, constant| iota(chi(&pi(&rho(&theta(&a)))), *constant))
}

/// The bits of the message, each byte from its lowest; then 1111 of SHAKE; then a 1, zeros, and a 1 that ends a block.
pub fn padded(message: &[u8]) -> Vec<bool> {
    let mut bits: Vec<bool> = message.iter().flat_map(|byte| (0..8).map(move |z| byte >> z & 1 == 1)).collect();
    bits.extend([true; 4]);
    bits.push(true);
    while bits.len() % RATE != RATE - 1 {
        bits.push(false);
    }
    bits.push(true);
    bits
}

/// Fills the output with SHAKE256 of the message.
pub fn shake256(message: &[u8], output: &mut [u8]) {
    let mut state = [0; 25];
    for block in padded(message).chunks(RATE) {
        for (i, bit) in block.iter().enumerate() {
            state[i / 64] ^= (*bit as u64) << (i % 64);
        }
        state = permuted(state);
    }
    for block in output.chunks_mut(RATE / 8) {
        for (i, byte) in block.iter_mut().enumerate() {
            *byte = (state[i / 8] >> (8 * (i % 8))) as u8;
        }
        state = permuted(state);
    }
}
