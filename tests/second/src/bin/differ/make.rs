//! Sound cases of each call at given sizes. Outputs and working space hold anything at entry.

use crate::case::{Buffer, Call, Case, Edge, Role, GAP_U, GAP_V, WEIGHT};
use crate::rng::Rng;
use second::algebra::weight;
use second::draw::{drawn_word, Choices};
use second::held::MOST_KEY_NUMBER;
use second::key::{build_key, places, Secret, Sizes};
use second::packing::{bytes, SALT};
use second::planes::{planes, read, read_row, words};
use Buffer::{Bytes, Order, Words};

/// Values of a number that are far out of every range, some of them right in their low 32 bits.
fn far(at: usize, value: u64, refusal: u64) -> Vec<Edge> {
    [u64::MAX, value + (1 << 32), value + (1 << 63)].iter().map(|v| Edge { at, value: *v, refusal }).collect()
}

fn edges(at: usize, refusal: u64, values: &[u64]) -> Vec<Edge> {
    values.iter().map(|v| Edge { at, value: *v, refusal }).collect()
}

pub fn garbage_bytes(rng: &mut Rng, count: usize) -> Vec<u8> {
    (0..count).map(|_| rng.word() as u8).collect()
}

// ---- the packing calls

fn of_trits(mut case: Case, m: u64) -> Case {
    case.edges = [edges(0, 1, &[16385, 16389, 65536 + m]), far(0, m, 1)].concat();
    case
}

pub fn pack(rng: &mut Rng, m: usize) -> Case {
    let (ones, twos) = rng.planes(1, m);
    let out = garbage_bytes(rng, bytes(m));
    let mut case = Case::new(Call::Pack, vec![m as u64], vec![Words(ones), Words(twos), Bytes(out)]);
    case.roles = vec![Role::Planes { at: 0, rows: 1, m }];
    of_trits(case, m as u64)
}

pub fn unpack(rng: &mut Rng, m: usize) -> Case {
    let (row, ones, twos) = (rng.packed(m), rng.words(words(m)), rng.words(words(m)));
    let mut case = Case::new(Call::Unpack, vec![m as u64], vec![Bytes(row), Words(ones), Words(twos)]);
    case.roles = vec![Role::Packed { at: 0, m }];
    of_trits(case, m as u64)
}

pub fn stream(rng: &mut Rng, m: usize) -> Case {
    let skipped = rng.pick(&[0, 13, 200]); // of 256: chance of a byte to be skipped
    let (mut row, mut trits) = (vec![], 0);
    while trits < m {
        if rng.below(256) < skipped {
            row.push(rng.between(243, 255) as u8);
        } else {
            row.push(rng.below(243) as u8);
            trits += 5;
        }
    }
    let need = row.len();
    for _ in 0..rng.below(4) {
        row.push(rng.word() as u8);
    }
    let (ones, twos) = (rng.words(words(m)), rng.words(words(m)));
    let mut case = Case::new(Call::Stream, vec![m as u64], vec![Bytes(row), Words(ones), Words(twos)]);
    case.roles = vec![Role::Stream { at: 0, need }];
    of_trits(case, m as u64)
}

// ---- hashes and syndromes

pub fn shake(rng: &mut Rng, message: usize, output: usize) -> Case {
    let (message, output) = (rng.text(message), garbage_bytes(rng, output));
    Case::new(Call::Shake, vec![], vec![Bytes(message), Bytes(output)])
}

/// The syndrome of a salt and a text.
pub fn syndrome_of(rng: &mut Rng, m: usize, salt: Vec<u8>, text: Vec<u8>) -> Case {
    let (ones, twos) = (rng.words(words(m)), rng.words(words(m)));
    let buffers = vec![Bytes(salt), Bytes(text), Words(ones), Words(twos)];
    of_trits(Case::new(Call::Syndrome, vec![m as u64], buffers), m as u64)
}

pub fn syndrome(rng: &mut Rng, m: usize, text: usize) -> Case {
    let (salt, text) = (rng.text(SALT), rng.text(text));
    syndrome_of(rng, m, salt, text)
}

// ---- the held key

/// What makes a begun state leave its ranges.
fn state_edges(n: u64, k: u64, number: u64, w: u64) -> Vec<Edge> {
    let mut out = edges(0, 20, &[0]);
    out.extend(edges(0, 1, &[2, 3, 256, 1 << 32, u64::MAX]));
    out.extend([edges(1, 1, &[MOST_KEY_NUMBER + 1]), far(1, number, 1)].concat());
    out.extend([edges(2, 1, &[0, 1, 2, 3, n + 1, 16385, 16386]), far(2, n, 1)].concat());
    out.extend([edges(3, 1, &[0, 1, n - 1, n, 16384]), far(3, k, 1)].concat());
    out.extend([edges(4, 1, &[0, n + 1, 16385]), far(4, w, 1)].concat());
    out.extend([edges(5, 1, &[k + 1, k + 2]), far(5, k, 1)].concat());
    out
}

pub fn store(rng: &mut Rng, n: usize, k: usize, stored: usize) -> Case {
    let m = n - k;
    let (number, w) = (rng.key_number(), rng.between(1, n) as u64);
    let (ones, twos) = (rng.words(k * words(m)), rng.words(k * words(m)));
    let row = rng.packed(m);
    let mut case = Case::new(Call::Store, vec![1, number, n as u64, k as u64, w, stored as u64], vec![Words(ones), Words(twos), Bytes(row)]);
    case.roles = vec![Role::Packed { at: 2, m }];
    case.edges = state_edges(n as u64, k as u64, number, w);
    case.edges.push(Edge { at: 5, value: k as u64, refusal: 21 });
    case
}

pub fn check(rng: &mut Rng, n: usize, k: usize) -> Case {
    let m = n - k;
    let (number, w) = (rng.key_number(), rng.between(1, n) as u64);
    let (ones, twos) = rng.planes(k, m);
    let (y, s) = (rng.packed(m), rng.packed(k));
    let (w1, w2) = (rng.words(words(m)), rng.words(words(m)));
    let mut case = Case::new(
        Call::Check,
        vec![1, number, n as u64, k as u64, w, k as u64, number],
        vec![Words(ones), Words(twos), Bytes(y), Bytes(s), Words(w1), Words(w2)],
    );
    case.roles = vec![Role::Planes { at: 0, rows: k, m }, Role::Packed { at: 2, m }, Role::Packed { at: 3, m: k }];
    case.edges = state_edges(n as u64, k as u64, number, w);
    case.edges.extend(edges(5, 20, &[0, k as u64 - 1]));
    // another number: one bit changed, 256 or 2^32 more, out of its range
    case.edges.extend(edges(6, 22, &[number ^ 1, number ^ 128, number ^ (1 << 16), number ^ (1 << 31), number + 256, number + (1 << 32), u64::MAX]));
    case
}

/// The same check of a text: its salt and itself in place of y.
pub fn about_text(mut case: Case, salt: Vec<u8>, text: Vec<u8>) -> Case {
    let (n, k) = (case.numbers[2] as usize, case.numbers[3] as usize);
    case.call = Call::CheckText;
    case.buffers.splice(2..3, [Bytes(salt), Bytes(text)]);
    case.roles = vec![Role::Planes { at: 0, rows: k, m: n - k }, Role::Packed { at: 4, m: k }];
    case
}

/// The same check of a packed y, in place of the text and its salt.
pub fn about_syndrome(mut case: Case, y: Vec<u8>) -> Case {
    case.buffers.splice(2..4, [Bytes(y)]);
    Case::new(Call::Check, case.numbers, case.buffers)
}

pub fn check_text(rng: &mut Rng, n: usize, k: usize, text: usize) -> Case {
    let (case, salt, text) = (check(rng, n, k), rng.text(SALT), rng.text(text));
    about_text(case, salt, text)
}

// ---- the editor's half

/// Sizes of a secret; the weight comes later.
#[derive(Clone, Copy, Debug)]
pub struct Shape {
    pub n: usize,
    pub ku: usize,
    pub kv: usize,
    pub gv: usize,
    pub gu: usize,
}

impl Shape {
    pub fn sizes(&self, w: usize) -> Sizes {
        Sizes { n: self.n as u64, ku: self.ku as u64, kv: self.kv as u64, gv: self.gv as u64, gu: self.gu as u64, w: w as u64 }
    }

    /// Gaps of their own for V and U; of four shapes one has the same gap for both.
    fn with_gaps(rng: &mut Rng, n: usize, ku: usize, kv: usize) -> Shape {
        if rng.one_in(4) {
            let g = rng.gap(ku.min(kv));
            return Shape { n, ku, kv, gv: g, gu: g };
        }
        let (gv, gu) = (rng.gap(kv), rng.gap(ku));
        Shape { n, ku, kv, gv, gu }
    }

    pub fn random(rng: &mut Rng, n: usize) -> Shape {
        let half = n / 2;
        let (ku, kv) = (rng.between(1, half - 1), rng.between(1, half - 1));
        Shape::with_gaps(rng, n, ku, kv)
    }

    /// Few rows of many words.
    pub fn wide(rng: &mut Rng, half: usize) -> Shape {
        let (ku, kv) = (half - rng.between(1, 8), half - rng.between(1, 8));
        Shape::with_gaps(rng, 2 * half, ku, kv)
    }

    fn numbers(&self, w: usize) -> Vec<u64> {
        vec![self.n as u64, self.ku as u64, self.kv as u64, self.gv as u64, self.gu as u64, w as u64]
    }

    fn edges(&self, w: usize) -> Vec<Edge> {
        let [n, ku, kv, gv, gu] = [self.n, self.ku, self.kv, self.gv, self.gu].map(|x| x as u64);
        let half = n / 2;
        let mut out = [edges(0, 1, &[0, 2, n - 1, n + 1, 16385, 16386]), far(0, n, 1)].concat();
        out.extend([edges(1, 1, &[0, half, n]), far(1, ku, 1)].concat());
        out.extend([edges(2, 1, &[0, half, n]), far(2, kv, 1)].concat());
        out.extend([edges(GAP_V, 1, &[kv + 1, n]), far(GAP_V, gv, 1)].concat());
        out.extend([edges(GAP_U, 1, &[ku + 1, n]), far(GAP_U, gu, 1)].concat());
        out.extend([edges(WEIGHT, 1, &[0, n + 1]), far(WEIGHT, w as u64, 1)].concat());
        // k_U below g_U, k_V below g_V
        if gu > 1 {
            out.extend(edges(1, 1, &[gu - 1]));
        }
        if gv > 1 {
            out.extend(edges(2, 1, &[gv - 1]));
        }
        // other sizes that are in their ranges: the buffers do not fit them
        if n < 16384 {
            out.extend(edges(0, 2, &[n + 2]));
        }
        if ku + 1 < half {
            out.extend(edges(1, 2, &[ku + 1]));
        }
        if kv + 1 < half {
            out.extend(edges(2, 2, &[kv + 1]));
        }
        out
    }
}

type Pair = (Vec<u64>, Vec<u64>);

/// H_U, H_V, b, c in planes.
pub struct SecretPlanes {
    hu: Pair,
    hv: Pair,
    b: Pair,
    c: Pair,
}

impl SecretPlanes {
    pub fn random(rng: &mut Rng, shape: &Shape) -> SecretPlanes {
        let half = shape.n / 2;
        SecretPlanes {
            hu: rng.mixed_planes(half - shape.ku, half),
            hv: rng.mixed_planes(half - shape.kv, half),
            b: rng.planes(1, half),
            c: rng.full_planes(1, half),
        }
    }

    /// Columns of H_U and H_V that are 0 or earlier ones again, and b all 0 or any.
    pub fn poor(rng: &mut Rng, shape: &Shape) -> SecretPlanes {
        let half = shape.n / 2;
        SecretPlanes {
            hu: poor_planes(rng, half - shape.ku, half),
            hv: poor_planes(rng, half - shape.kv, half),
            b: if rng.one_in(2) { (vec![0; words(half)], vec![0; words(half)]) } else { rng.planes(1, half) },
            c: rng.full_planes(1, half),
        }
    }

    /// H_U and H_V are 0 in their first columns, so many in each.
    pub fn late(rng: &mut Rng, shape: &Shape, first: usize) -> SecretPlanes {
        let half = shape.n / 2;
        SecretPlanes {
            hu: late_planes(rng, half - shape.ku, half, first),
            hv: late_planes(rng, half - shape.kv, half, first),
            b: rng.planes(1, half),
            c: rng.full_planes(1, half),
        }
    }

    pub fn secret(&self, shape: &Shape) -> Secret {
        let half = shape.n / 2;
        Secret {
            hu: read(&self.hu.0, &self.hu.1, half - shape.ku, half),
            hv: read(&self.hv.0, &self.hv.1, half - shape.kv, half),
            b: read_row(&self.b.0, &self.b.1, half),
            c: read_row(&self.c.0, &self.c.1, half),
        }
    }

    fn buffers(&self) -> Vec<Buffer> {
        [&self.hu, &self.hv, &self.b, &self.c].iter().flat_map(|(ones, twos)| [Words(ones.clone()), Words(twos.clone())]).collect()
    }
}

/// Rows of m trits; of four columns one is an earlier one, taken 0, 1 or 2 times.
fn poor_planes(rng: &mut Rng, rows: usize, m: usize) -> Pair {
    let (ones, twos) = rng.mixed_planes(rows, m);
    let mut trits = read(&ones, &twos, rows, m);
    for q in 1..m {
        if rng.one_in(4) {
            let (from, times) = (rng.below(q), rng.below(3) as u8);
            for row in &mut trits {
                row[q] = times * row[from] % 3;
            }
        }
    }
    planes(&trits)
}

fn late_planes(rng: &mut Rng, rows: usize, m: usize, first: usize) -> Pair {
    let (ones, twos) = rng.mixed_planes(rows, m);
    let mut trits = read(&ones, &twos, rows, m);
    for row in &mut trits {
        row[..first].fill(0);
    }
    planes(&trits)
}

fn secret_roles(shape: &Shape) -> Vec<Role> {
    let half = shape.n / 2;
    vec![
        Role::Planes { at: 0, rows: half - shape.ku, m: half },
        Role::Planes { at: 2, rows: half - shape.kv, m: half },
        Role::Planes { at: 4, rows: 1, m: half },
        Role::Planes { at: 6, rows: 1, m: half },
        Role::NonZero { at: 6, from: 0, m: half },
    ]
}

/// A build of this secret; it is released where the ranks are full.
pub fn build_of(rng: &mut Rng, shape: &Shape, secret: &SecretPlanes, w: usize) -> Case {
    let half = shape.n / 2;
    let (k, m) = (shape.ku + shape.kv, shape.n - shape.ku - shape.kv);
    let mut buffers = secret.buffers();
    let start = if rng.one_in(6) { (0..shape.n as u16).collect() } else { rng.order(shape.n) };
    buffers.push(Order(start));
    buffers.push(Order((0..shape.n).map(|_| rng.word() as u16).collect()));
    for count in [k * words(m), k * words(m), shape.sizes(w).build_work(), shape.sizes(w).build_work()] {
        buffers.push(Words(rng.words(count)));
    }
    let mut case = Case::new(Call::Build, shape.numbers(w), buffers);
    case.roles = secret_roles(shape);
    case.roles.push(Role::Order { at: 8 });
    case.roles.push(Role::Rank { at: 0, rows: half - shape.ku, m: half, order: None, refusal: 9 });
    case.roles.push(Role::Rank { at: 2, rows: half - shape.kv, m: half, order: None, refusal: 10 });
    case.edges = shape.edges(w);
    case
}

/// A build that is released.
pub fn build(rng: &mut Rng, shape: &Shape) -> Case {
    loop {
        let secret = SecretPlanes::random(rng, shape);
        let w = rng.between(1, shape.n);
        let s = secret.secret(shape);
        if second::algebra::rank(&s.hu) == s.hu.len() && second::algebra::rank(&s.hv) == s.hv.len() {
            return build_of(rng, shape, &secret, w);
        }
    }
}

/// A build whose secret may lack rank.
pub fn any_build(rng: &mut Rng, shape: &Shape) -> Case {
    let mut secret = SecretPlanes::random(rng, shape);
    match rng.below(6) {
        0 | 1 => {
            secret.hu = rng.planes(shape.n / 2 - shape.ku, shape.n / 2);
            secret.hv = rng.planes(shape.n / 2 - shape.kv, shape.n / 2);
        }
        2 => secret = SecretPlanes::poor(rng, shape),
        _ => {}
    }
    let w = rng.between(1, shape.n);
    build_of(rng, shape, &secret, w)
}

/// One draw of this secret, with random choices.
pub fn draw_of(rng: &mut Rng, shape: &Shape, secret: &SecretPlanes, p: &[u16], y: &Pair, w: usize) -> Case {
    let half = shape.n / 2;
    let (k, m) = (shape.ku + shape.kv, shape.n - shape.ku - shape.kv);
    let mut buffers = secret.buffers();
    buffers.push(Order(p.to_vec()));
    buffers.extend([Words(y.0.clone()), Words(y.1.clone())]);
    buffers.push(Order(rng.order(half)));
    let (ones, twos) = rng.planes(1, shape.kv);
    buffers.extend([Words(ones), Words(twos)]);
    buffers.push(Order(rng.order(half)));
    // the first g_U values are any trits, the others are not 0
    let (mut ones, mut twos) = rng.full_planes(1, shape.ku);
    for place in 0..shape.gu {
        if rng.one_in(3) {
            ones[place / 64] &= !(1 << (place % 64));
            twos[place / 64] &= !(1 << (place % 64));
        }
    }
    buffers.extend([Words(ones), Words(twos)]);
    let work = shape.sizes(w).draw_work();
    for count in [words(shape.n), words(shape.n), words(k), words(k), work, work] {
        buffers.push(Words(rng.words(count)));
    }
    let mut case = Case::new(Call::Draw, shape.numbers(w), buffers);
    case.roles = secret_roles(shape);
    case.roles.extend([
        Role::Order { at: 8 },
        Role::Planes { at: 9, rows: 1, m },
        Role::Order { at: 11 },
        Role::Planes { at: 12, rows: 1, m: shape.kv },
        Role::Order { at: 14 },
        Role::Planes { at: 15, rows: 1, m: shape.ku },
        Role::NonZero { at: 15, from: shape.gu, m: shape.ku },
        Role::Rank { at: 2, rows: half - shape.kv, m: half, order: Some((11, half - shape.kv + shape.gv)), refusal: 12 },
        Role::Rank { at: 0, rows: half - shape.ku, m: half, order: Some((14, half - shape.ku + shape.gu)), refusal: 13 },
    ]);
    case.edges = shape.edges(w);
    case
}

/// The word that a case of a draw makes, whatever its weight.
pub fn word_of(case: &Case, shape: &Shape) -> Result<Vec<u8>, u64> {
    let b = &case.buffers;
    let half = shape.n / 2;
    let row = |at: usize, m: usize| read_row(b[at].words(), b[at + 1].words(), m);
    let secret = Secret {
        hu: read(b[0].words(), b[1].words(), half - shape.ku, half),
        hv: read(b[2].words(), b[3].words(), half - shape.kv, half),
        b: row(4, half),
        c: row(6, half),
    };
    let choices = Choices { v_order: places(b[11].order()), v_trits: row(12, shape.kv), u_order: places(b[14].order()), u_values: row(15, shape.ku) };
    drawn_word(shape.gv, shape.gu, &secret, &places(b[8].order()), &row(9, shape.n - shape.ku - shape.kv), &choices)
}

/// A draw of this secret, with its weight as it comes where that may be; the order p is that of a built key or any other.
pub fn weighed_draw(rng: &mut Rng, shape: &Shape, secret: &SecretPlanes) -> Case {
    let start = rng.order(shape.n);
    let mut p = start.clone();
    if rng.one_in(4) {
        if let Ok(key) = build_key(&secret.secret(shape), &places(&start)) {
            p = key.p.iter().map(|q| *q as u16).collect();
        }
    }
    let y = rng.planes(1, shape.n - shape.ku - shape.kv);
    let mut case = draw_of(rng, shape, secret, &p, &y, 1);
    if rng.one_in(20) {
        case.numbers[WEIGHT] = rng.between(1, shape.n) as u64;
    } else if let Ok(word) = word_of(&case, shape) {
        case.numbers[WEIGHT] = (weight(&word) as u64).max(1);
    }
    // the weight is out of its range at other numbers now; and any other in range is refused 14
    case.edges = shape.edges(case.numbers[WEIGHT] as usize);
    for other in [case.numbers[WEIGHT] - 1, case.numbers[WEIGHT] + 1, 1, shape.n as u64] {
        if other != case.numbers[WEIGHT] && (1..=shape.n as u64).contains(&other) {
            case.edges.push(Edge { at: WEIGHT, value: other, refusal: 14 });
        }
    }
    case
}

pub fn any_draw(rng: &mut Rng, shape: &Shape) -> Case {
    let secret = SecretPlanes::random(rng, shape);
    weighed_draw(rng, shape, &secret)
}

/// A draw that is released.
pub fn draw(rng: &mut Rng, shape: &Shape) -> Case {
    loop {
        let case = any_draw(rng, shape);
        if word_of(&case, shape).is_ok_and(|word| weight(&word) as u64 == case.numbers[WEIGHT]) {
            return case;
        }
    }
}
