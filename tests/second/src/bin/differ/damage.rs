//! Faults: each changes a sound case in one thing, and is known by the refusal that it alone makes.

use crate::case::{Buffer, Call, Case, Role};
use crate::rng::Rng;
use second::packing::{packed, trits_of};
use second::planes::words;

#[derive(Clone, Copy, Debug)]
pub enum Fault {
    Number {
        at: usize,
        value: u64,
    },
    Shorter {
        at: usize,
    },
    Longer {
        at: usize,
    },
    Empty {
        at: usize,
    },
    Both {
        at: usize,
        rows: usize,
        m: usize,
        past: bool,
    },
    Past {
        at: usize,
        rows: usize,
        m: usize,
    },
    Zero {
        at: usize,
        place: usize,
    },
    Repeat {
        at: usize,
    },
    Beyond {
        at: usize,
        value: u16,
    },
    Big {
        at: usize,
        value: u8,
        last: bool,
    },
    /// A trit of the last byte, past the length.
    PackedPast {
        at: usize,
        place: usize,
        trit: u8,
    },
    Cut {
        at: usize,
        to: usize,
    },
    /// One row of the matrix becomes 0, at the first places of an order or everywhere.
    ZeroRow {
        at: usize,
        rows: usize,
        m: usize,
        order: Option<(usize, usize)>,
    },
    /// One row becomes another one's double.
    SameRow {
        at: usize,
        rows: usize,
        m: usize,
    },
    /// One bit of one buffer is turned: no refusal may come of it, or any.
    Turn {
        at: usize,
    },
}

impl Fault {
    pub fn name(&self, call: Call) -> String {
        let b = |at: usize| call.buffers()[at];
        match *self {
            Fault::Number { at, value } => format!("{} = {value}", call.numbers()[at]),
            Fault::Shorter { at } => format!("{} one less", b(at)),
            Fault::Longer { at } => format!("{} one more", b(at)),
            Fault::Empty { at } => format!("{} empty", b(at)),
            Fault::Both { at, past, .. } => format!("{} in both planes{}", b(at), if past { " past the length" } else { "" }),
            Fault::Past { at, .. } => format!("{} past the length", b(at)),
            Fault::Zero { at, place } => format!("{} zero at {place}", b(at)),
            Fault::Repeat { at } => format!("{} repeats", b(at)),
            Fault::Beyond { at, value } => format!("{} has {value}", b(at)),
            Fault::Big { at, value, last } => format!("{} has byte {value}{}", b(at), if last { " at its end" } else { "" }),
            Fault::PackedPast { at, place, trit } => format!("{} has a trit past its length: {trit} at place {place} of its last byte", b(at)),
            Fault::Cut { at, to } => format!("{} cut to {to}", b(at)),
            Fault::ZeroRow { at, order, .. } => format!("{} has a zero row{}", b(at), if order.is_some() { " in the first part" } else { "" }),
            Fault::SameRow { at, .. } => format!("{} has a row twice", b(at)),
            Fault::Turn { at } => format!("{} one bit turned", b(at)),
        }
    }

    /// Puts the fault in, at a place by chance. A buffer that another fault has emptied stays.
    pub fn put(&self, case: &mut Case, rng: &mut Rng) {
        match *self {
            Fault::Number { at, value } => case.numbers[at] = value,
            Fault::Shorter { at } => match &mut case.buffers[at] {
                Buffer::Words(v) => drop(v.pop()),
                Buffer::Bytes(v) => drop(v.pop()),
                Buffer::Order(v) => drop(v.pop()),
            },
            Fault::Longer { at } => match &mut case.buffers[at] {
                Buffer::Words(v) => v.push(rng.pick(&[0, 0, 1, u64::MAX])),
                Buffer::Bytes(v) => v.push(rng.pick(&[0, 0, 1, 255])),
                Buffer::Order(v) => v.push(rng.pick(&[0, v.len() as u16])),
            },
            Fault::Empty { at } => match &mut case.buffers[at] {
                Buffer::Words(v) => v.clear(),
                Buffer::Bytes(v) => v.clear(),
                Buffer::Order(v) => v.clear(),
            },
            Fault::Both { at, rows, m, past } => {
                let (word, bit) = place(rng, rows, m, past);
                for plane in [at, at + 1] {
                    set(&mut case.buffers[plane], word, bit);
                }
            }
            Fault::Past { at, rows, m } => {
                let (word, bit) = place(rng, rows, m, true);
                set(&mut case.buffers[at], word, bit);
            }
            Fault::Zero { at, place } => {
                for plane in [at, at + 1] {
                    clear(&mut case.buffers[plane], place / 64, place % 64);
                }
            }
            Fault::Repeat { at } => {
                let order = case.buffers[at].order_mut();
                if order.len() > 1 {
                    let i = rng.below(order.len());
                    let j = (i + rng.between(1, order.len() - 1)) % order.len();
                    order[i] = order[j];
                }
            }
            Fault::Beyond { at, value } => {
                let order = case.buffers[at].order_mut();
                if !order.is_empty() {
                    let i = rng.below(order.len());
                    order[i] = value;
                }
            }
            Fault::Big { at, value, last } => {
                let bytes = case.buffers[at].bytes_mut();
                if !bytes.is_empty() {
                    let i = if last { bytes.len() - 1 } else { rng.below(bytes.len()) };
                    bytes[i] = value;
                }
            }
            Fault::PackedPast { at, place, trit } => {
                if let Some(last) = case.buffers[at].bytes_mut().last_mut().filter(|b| **b <= 242) {
                    let mut five = trits_of(*last);
                    five[place] = trit;
                    *last = packed(&five)[0];
                }
            }
            Fault::Cut { at, to } => case.buffers[at].bytes_mut().truncate(to),
            Fault::ZeroRow { at, rows, m, order } => {
                let row = rng.below(rows);
                let places: Vec<usize> = match order {
                    None => (0..m).collect(),
                    Some((o, count)) => case.buffers[o].order().iter().take(count).map(|q| *q as usize).filter(|q| *q < m).collect(),
                };
                for q in places {
                    for plane in [at, at + 1] {
                        clear(&mut case.buffers[plane], row * words(m) + q / 64, q % 64);
                    }
                }
            }
            Fault::SameRow { at, rows, m } => {
                let to = rng.below(rows);
                let from = (to + rng.between(1, rows - 1)) % rows;
                for i in 0..words(m) {
                    let (a, b) = (to * words(m) + i, from * words(m) + i);
                    if a.max(b) < case.buffers[at].len().min(case.buffers[at + 1].len()) {
                        let (ones, twos) = (case.buffers[at].words()[b], case.buffers[at + 1].words()[b]);
                        case.buffers[at].words_mut()[a] = twos;
                        case.buffers[at + 1].words_mut()[a] = ones;
                    }
                }
            }
            Fault::Turn { at } => match &mut case.buffers[at] {
                Buffer::Words(v) if !v.is_empty() => {
                    let i = rng.below(v.len());
                    v[i] ^= 1 << rng.below(64);
                }
                Buffer::Bytes(v) if !v.is_empty() => {
                    let i = rng.below(v.len());
                    v[i] ^= 1 << rng.below(8);
                }
                Buffer::Order(v) if !v.is_empty() => {
                    let i = rng.below(v.len());
                    v[i] ^= 1 << rng.below(16);
                }
                _ => {}
            },
        }
    }
}

/// A word and a bit of a row by chance, within its length or past it.
fn place(rng: &mut Rng, rows: usize, m: usize, past: bool) -> (usize, usize) {
    let any = rng.below(rows);
    let row = rng.pick(&[0, rows - 1, any]);
    let place = if past { rng.between(m, 64 * words(m) - 1) } else { rng.below(m) };
    (row * words(m) + place / 64, place % 64)
}

fn set(plane: &mut Buffer, word: usize, bit: usize) {
    if let Some(w) = plane.words_mut().get_mut(word) {
        *w |= 1 << bit;
    }
}

fn clear(plane: &mut Buffer, word: usize, bit: usize) {
    if let Some(w) = plane.words_mut().get_mut(word) {
        *w &= !(1 << bit);
    }
}

/// Every fault of a case, each with the refusal that it alone makes.
pub fn faults(case: &Case) -> Vec<(Fault, u64)> {
    let mut out: Vec<(Fault, u64)> = case.edges.iter().map(|e| (Fault::Number { at: e.at, value: e.value }, e.refusal)).collect();
    for at in 0..case.buffers.len() {
        if case.call.any_length(at) {
            continue;
        }
        out.push((Fault::Longer { at }, 2));
        if case.buffers[at].len() > 0 {
            out.push((Fault::Shorter { at }, 2));
            out.push((Fault::Empty { at }, 2));
        }
    }
    for role in &case.roles {
        match *role {
            Role::Planes { at, rows, m } => {
                if m > 0 && rows > 0 {
                    out.push((Fault::Both { at, rows, m, past: false }, 3));
                    if m % 64 != 0 {
                        out.push((Fault::Both { at, rows, m, past: true }, 4));
                        out.push((Fault::Past { at, rows, m }, 4));
                        out.push((Fault::Past { at: at + 1, rows, m }, 4));
                    }
                }
            }
            Role::NonZero { at, from, m } => {
                if from < m {
                    out.push((Fault::Zero { at, place: from }, 8));
                    out.push((Fault::Zero { at, place: m - 1 }, 8));
                }
            }
            Role::Order { at } => {
                out.push((Fault::Repeat { at }, 7));
                for value in [case.buffers[at].len() as u16, 16384, u16::MAX] {
                    out.push((Fault::Beyond { at, value }, 7));
                }
            }
            Role::Packed { at, m } => {
                if m % 5 != 0 {
                    for trit in [1, 2] {
                        out.push((Fault::PackedPast { at, place: m % 5, trit }, 15));
                        out.push((Fault::PackedPast { at, place: 4, trit }, 15));
                    }
                }
                if case.buffers[at].len() > 0 {
                    out.push((Fault::Big { at, value: 243, last: false }, 5));
                    out.push((Fault::Big { at, value: 255, last: false }, 5));
                    out.push((Fault::Big { at, value: 243, last: true }, 5));
                }
            }
            Role::Stream { at, need } => {
                if need > 0 {
                    out.push((Fault::Cut { at, to: need - 1 }, 6));
                    out.push((Fault::Cut { at, to: 0 }, 6));
                }
            }
            Role::Rank { at, rows, m, order, refusal } => {
                out.push((Fault::ZeroRow { at, rows, m, order }, refusal));
                if rows > 1 {
                    out.push((Fault::SameRow { at, rows, m }, refusal));
                }
            }
        }
    }
    out
}
