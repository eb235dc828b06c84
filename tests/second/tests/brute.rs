//! The three demands by brute force over all words, at n = 4 and for some keys at n = 6. Span, rank and solving are by trying every word.

use second::draw::{draw_word, Choices};
use second::held::{check, Held};
use second::key::{build_key, Key, Secret};
use second::packing::packed;
use second::planes::planes;
use std::collections::HashSet;

// ---- the paper's definitions, by trying everything

/// All vectors of m trits.
fn all(m: usize) -> Vec<Vec<u8>> {
    let mut out = vec![vec![]];
    for _ in 0..m {
        out = out.iter().flat_map(|v: &Vec<u8>| (0..3).map(move |t| [v.clone(), vec![t]].concat())).collect();
    }
    out
}

/// All orders of these places.
fn orders(places: usize) -> Vec<Vec<usize>> {
    let mut out: Vec<Vec<usize>> = vec![vec![]];
    for _ in 0..places {
        out = out.iter().flat_map(|o| (0..places).filter(|q| !o.contains(q)).map(|q| [o.clone(), vec![q]].concat()).collect::<Vec<_>>()).collect();
    }
    out
}

fn product(row: &[u8], word: &[u8]) -> u32 {
    row.iter().zip(word).map(|(a, b)| *a as u32 * *b as u32).sum::<u32>() % 3
}

fn syndrome(rows: &[Vec<u8>], word: &[u8]) -> Vec<u32> {
    rows.iter().map(|r| product(r, word)).collect()
}

fn nonzero(word: &[u8]) -> usize {
    word.iter().filter(|t| **t != 0).count()
}

/// How many trits are this one.
fn held_by(word: &[u8], trit: u8) -> u64 {
    word.iter().filter(|t| **t == trit).count() as u64
}

fn column(rows: &[Vec<u8>], q: usize) -> Vec<u8> {
    rows.iter().map(|r| r[q]).collect()
}

/// All sums of multiples of these vectors, each of the length m.
fn span(vectors: &[Vec<u8>], m: usize) -> HashSet<Vec<u8>> {
    all(vectors.len()).iter().map(|f| (0..m).map(|j| (vectors.iter().zip(f).map(|(v, t)| v[j] as u32 * *t as u32).sum::<u32>() % 3) as u8).collect()).collect()
}

/// The rank of these columns: their span has 3 to that power.
fn rank_on(rows: &[Vec<u8>], columns: &[usize]) -> usize {
    let vectors: Vec<Vec<u8>> = columns.iter().map(|q| column(rows, *q)).collect();
    let mut size = span(&vectors, rows.len()).len();
    let mut rank = 0;
    while size > 1 {
        assert_eq!(size % 3, 0);
        size /= 3;
        rank += 1;
    }
    rank
}

/// The places of this list whose column is in the span of no earlier ones.
fn first_ones(rows: &[Vec<u8>], columns: &[usize]) -> Vec<usize> {
    let mut kept: Vec<Vec<u8>> = vec![];
    let mut out = vec![];
    for q in columns {
        if !span(&kept, rows.len()).contains(&column(rows, *q)) {
            kept.push(column(rows, *q));
            out.push(*q);
        }
    }
    out
}

fn m3(x: i32) -> u8 {
    x.rem_euclid(3) as u8
}

/// The secret matrix, trit by trit.
fn secret_rows(s: &Secret) -> Vec<Vec<u8>> {
    let half = s.b.len();
    let (b, c) = (|q: usize| s.b[q] as i32, |q: usize| s.c[q] as i32);
    let mut out = vec![];
    for h in &s.hu {
        let h = |q: usize| h[q] as i32;
        out.push((0..2 * half).map(|q| if q < half { m3((1 + b(q) * c(q)) * h(q)) } else { m3(-b(q - half) * h(q - half)) }).collect());
    }
    for h in &s.hv {
        let h = |q: usize| h[q] as i32;
        out.push((0..2 * half).map(|q| if q < half { m3(-c(q) * h(q)) } else { h(q - half) as u8 }).collect());
    }
    out
}

/// e_U and e_V of a word in secret places.
fn parts(s: &Secret, word: &[u8]) -> (Vec<u8>, Vec<u8>) {
    let half = s.b.len();
    let (mut u, mut v) = (vec![], vec![]);
    for q in 0..half {
        let (b, c, l, r) = (s.b[q] as i32, s.c[q] as i32, word[q] as i32, word[q + half] as i32);
        u.push(m3((1 + b * c) * l - b * r));
        v.push(m3(r - c * l));
    }
    (u, v)
}

/// A public word in secret places: public place i is secret place p(i).
fn in_secret_places(p: &[usize], public: &[u8]) -> Vec<u8> {
    let mut out = vec![0; p.len()];
    for (i, t) in public.iter().enumerate() {
        out[p[i]] = *t;
    }
    out
}

/// Syndrome of a word in public places under (identity | R): its first n-k trits plus t·R-transposed.
fn public_syndrome(key: &Key, word: &[u8]) -> Vec<u8> {
    let m = word.len() - key.rows.len();
    (0..m).map(|j| m3(word[j] as i32 + (0..key.rows.len()).map(|i| word[m + i] as i32 * key.rows[i][j] as i32).sum::<i32>())).collect()
}

// ---- what is tried

struct Rng(u64);

impl Rng {
    fn below(&mut self, n: usize) -> usize {
        self.0 = self.0.wrapping_mul(6364136223846793005).wrapping_add(1442695040888963407);
        ((self.0 >> 33) % n as u64) as usize
    }

    fn trits(&mut self, m: usize) -> Vec<u8> {
        (0..m).map(|_| self.below(3) as u8).collect()
    }

    fn secret(&mut self, half: usize, ku: usize, kv: usize) -> Secret {
        Secret {
            hu: (0..half - ku).map(|_| self.trits(half)).collect(),
            hv: (0..half - kv).map(|_| self.trits(half)).collect(),
            b: self.trits(half),
            c: (0..half).map(|_| 1 + self.below(2) as u8).collect(),
        }
    }

    fn order(&mut self, n: usize) -> Vec<usize> {
        let mut left: Vec<usize> = (0..n).collect();
        (0..n).map(|_| left.remove(self.below(left.len()))).collect()
    }
}

/// A build against the paper: the ranks, the column rule with span by trying, and R by its meaning: the public words of syndrome 0 are those of the secret matrix.
fn build_is_right(s: &Secret, start: &[usize]) -> Option<Key> {
    let half = s.b.len();
    let every: Vec<usize> = (0..half).collect();
    let built = build_key(s, start);
    if rank_on(&s.hu, &every) != s.hu.len() {
        assert_eq!(built, Err(9));
        return None;
    }
    if rank_on(&s.hv, &every) != s.hv.len() {
        assert_eq!(built, Err(10));
        return None;
    }
    let key = built.expect("a build that must not be refused");
    let rows = secret_rows(s);
    let (mut order, mut j, mut l) = (start.to_vec(), 0, start.len());
    while j < rows.len() {
        let kept: Vec<Vec<u8>> = order[..j].iter().map(|q| column(&rows, *q)).collect();
        if span(&kept, rows.len()).contains(&column(&rows, order[j])) {
            l -= 1;
            order.swap(j, l);
        } else {
            j += 1;
        }
    }
    assert_eq!(key.p, order);
    assert_eq!(key.rows.len(), start.len() - rows.len());
    assert!(key.rows.iter().all(|r| r.len() == rows.len() && r.iter().all(|t| *t < 3)));
    for word in all(start.len()) {
        let zero_under_key = public_syndrome(&key, &word).iter().all(|t| *t == 0);
        let zero_under_secret = syndrome(&rows, &in_secret_places(&key.p, &word)).iter().all(|t| *t == 0);
        assert_eq!(zero_under_key, zero_under_secret);
    }
    Some(key)
}

/// One draw by the paper's words, trying every e_V and every e_U: the public word, or 12 or 13.
fn draw_by_definition(gv: usize, gu: usize, s: &Secret, key: &Key, y: &[u8], c: &Choices) -> Result<Vec<u8>, u64> {
    let half = s.b.len();
    let mut public = y.to_vec();
    public.resize(2 * half, 0);
    let (x_u, x_v) = parts(s, &in_secret_places(&key.p, &public));

    let first = &c.v_order[..s.hv.len() + gv];
    if rank_on(&s.hv, first) != s.hv.len() {
        return Err(12);
    }
    let pivots = first_ones(&s.hv, first);
    let others: Vec<usize> = c.v_order.iter().copied().filter(|q| !pivots.contains(q)).collect();
    let found: Vec<Vec<u8>> =
        all(half).into_iter().filter(|e| syndrome(&s.hv, e) == syndrome(&s.hv, &x_v) && others.iter().zip(&c.v_trits).all(|(q, t)| e[*q] == *t)).collect();
    assert_eq!((found.len(), others.len()), (1, c.v_trits.len()));
    let e_v = &found[0];

    let (first, last) = c.u_order.split_at(s.hu.len() + gu);
    if rank_on(&s.hu, first) != s.hu.len() {
        return Err(13);
    }
    let pivots = first_ones(&s.hu, first);
    let free: Vec<usize> = first.iter().copied().filter(|q| !pivots.contains(q)).collect();
    assert_eq!((free.len(), last.len()), (gu, c.u_values.len() - gu));
    let value = |i: usize| {
        let q = last[i];
        if e_v[q] != 0 {
            m3((s.c[q] as i32 - s.b[q] as i32) * e_v[q] as i32)
        } else {
            c.u_values[gu + i]
        }
    };
    let found: Vec<Vec<u8>> = all(half)
        .into_iter()
        .filter(|e| {
            syndrome(&s.hu, e) == syndrome(&s.hu, &x_u)
                && free.iter().zip(&c.u_values).all(|(q, t)| e[*q] == *t)
                && (0..last.len()).all(|i| e[last[i]] == value(i))
        })
        .collect();
    assert_eq!(found.len(), 1);

    // the one word whose parts these are
    let words: Vec<Vec<u8>> = all(2 * half).into_iter().filter(|word| parts(s, word) == (found[0].clone(), e_v.clone())).collect();
    assert_eq!(words.len(), 1);
    Ok(key.p.iter().map(|q| words[0][*q]).collect())
}

/// Whether some k_U - g_U distinct pairs have both trits nonzero, and the columns of H_U off them have rank r_U.
fn pairs_stand(gu: usize, s: &Secret, key: &Key, word: &[u8]) -> bool {
    let half = s.b.len();
    let secret = in_secret_places(&key.p, word);
    let wanted = half - s.hu.len() - gu;
    (0..1usize << half).any(|set| {
        let chosen = |q: usize| set >> q & 1 == 1;
        let off: Vec<usize> = (0..half).filter(|q| !chosen(*q)).collect();
        half - off.len() == wanted && (0..half).all(|q| !chosen(q) || (secret[q] != 0 && secret[q + half] != 0)) && rank_on(&s.hu, &off) == s.hu.len()
    })
}

/// All choices at this gap of U.
fn all_choices(half: usize, ku: usize, kv: usize, gu: usize) -> Vec<Choices> {
    let mut out = vec![];
    for v_order in orders(half) {
        for u_order in orders(half) {
            for v_trits in all(kv) {
                for u_values in all(ku).into_iter().filter(|v| v[gu..].iter().all(|t| *t != 0)) {
                    out.push(Choices { v_order: v_order.clone(), v_trits: v_trits.clone(), u_order: u_order.clone(), u_values });
                }
            }
        }
    }
    out
}

/// For this key and every g_U, w and y: the words that meet the terms are those released by any draw, whatever g_V is. `sampled`: of how many draws one is held
/// to the definition.
fn releases_are_right(s: &Secret, key: &Key, sampled: usize, rng: &mut Rng) -> usize {
    let half = s.b.len();
    let (ku, kv) = (half - s.hu.len(), half - s.hv.len());
    let mut draws = 0;
    for gu in 0..=ku {
        let choices = all_choices(half, ku, kv, gu);
        for y in all(2 * half - ku - kv) {
            let with_syndrome: Vec<Vec<u8>> = all(2 * half).into_iter().filter(|e| public_syndrome(key, e) == y).collect();
            assert_eq!(with_syndrome.len(), 3usize.pow((ku + kv) as u32));
            let meets: Vec<Vec<u8>> = with_syndrome.into_iter().filter(|e| pairs_stand(gu, s, key, e)).collect();
            for (gv, w) in (0..=kv).flat_map(|gv| (1..=2 * half).map(move |w| (gv, w))) {
                let mut released = HashSet::new();
                for c in &choices {
                    let made = draw_word(gv, gu, w, s, &key.p, &y, c);
                    draws += 1;
                    if rng.below(sampled) == 0 {
                        let defined = draw_by_definition(gv, gu, s, key, &y, c).and_then(|e| if nonzero(&e) == w { Ok(e) } else { Err(14) });
                        assert_eq!(made, defined);
                    }
                    if let Ok(word) = made {
                        released.insert(word);
                    }
                }
                let wanted: HashSet<Vec<u8>> = meets.iter().filter(|e| nonzero(e) == w).cloned().collect();
                assert_eq!(released, wanted, "g_V = {gv}, g_U = {gu}, w = {w}, y = {y:?}, {s:?}, {key:?}");
            }
        }
    }
    draws
}

/// For every y, s and w: the check says yes exactly when some word of weight w with that syndrome extends s, and there is at most one such word, whose ones
/// and twos it answers.
fn verdicts_are_right(key: &Key, n: usize) {
    let k = key.rows.len();
    let (ones, twos) = planes(&key.rows);
    let words: Vec<(Vec<u8>, Vec<u8>)> = all(n).into_iter().map(|e| (public_syndrome(key, &e), e)).collect();
    for y in all(n - k) {
        let here: Vec<&Vec<u8>> = words.iter().filter(|(found, _)| *found == y).map(|(_, e)| e).collect();
        for s in all(k) {
            let extends: Vec<&&Vec<u8>> = here.iter().filter(|e| e[n - k..] == s).collect();
            assert!(extends.len() <= 1);
            for w in 1..=n {
                let held = Held { begun: 1, number: 3, n: n as u64, k: k as u64, w: w as u64, rows: k as u64 };
                let answer = check(held, 3, &ones, &twos, &packed(&y), &packed(&s), &mut [9], &mut [9]);
                assert_eq!(answer.refusal, 0);
                assert_eq!(answer.yes == 1, extends.iter().any(|e| nonzero(e) == w));
                assert!(answer.yes <= 1);
                assert_eq!((answer.ones, answer.twos), (held_by(extends[0], 1), held_by(extends[0], 2)));
            }
        }
    }
}

/// Every secret is built; one key of four is drawn under, by every draw there is.
#[test]
fn every_secret_of_four_places() {
    let mut rng = Rng(1);
    let (mut keys, mut draws) = (0, 0);
    for hu in all(2) {
        for hv in all(2) {
            for b in all(2) {
                for c in all(2).into_iter().filter(|c| !c.contains(&0)) {
                    let s = Secret { hu: vec![hu.clone()], hv: vec![hv.clone()], b: b.clone(), c };
                    let start = rng.order(4);
                    if let Some(key) = build_is_right(&s, &start) {
                        keys += 1;
                        if keys % 4 == 0 {
                            draws += releases_are_right(&s, &key, 97, &mut rng);
                        }
                    }
                }
            }
        }
    }
    println!("n = 4: {keys} keys, {draws} draws");
    assert_eq!(keys, 8 * 8 * 9 * 4);
}

#[test]
fn every_order_of_four_places() {
    let s = Secret { hu: vec![vec![1, 1]], hv: vec![vec![1, 2]], b: vec![0, 1], c: vec![1, 2] };
    let t = Secret { hu: vec![vec![0, 2]], hv: vec![vec![1, 0]], b: vec![2, 1], c: vec![2, 1] };
    for start in orders(4) {
        for secret in [&s, &t] {
            let key = build_is_right(secret, &start).unwrap();
            releases_are_right(secret, &key, 7, &mut Rng(2));
            verdicts_are_right(&key, 4);
        }
    }
}

#[test]
fn some_keys_of_six_places() {
    let mut rng = Rng(6);
    for (ku, kv) in [(1, 1), (1, 2), (2, 1), (2, 2)] {
        let mut keys = 0;
        while keys < 2 {
            let (s, start) = (rng.secret(3, ku, kv), rng.order(6));
            if let Some(key) = build_is_right(&s, &start) {
                releases_are_right(&s, &key, 499, &mut rng);
                verdicts_are_right(&key, 6);
                keys += 1;
            }
        }
    }
}

/// Ranks and orders at n = 6 and 8, without draws: more builds, refused ones among them.
#[test]
fn more_builds() {
    let (mut rng, mut released) = (Rng(8), 0);
    for _ in 0..300 {
        let half = 3 + rng.below(2);
        let (ku, kv) = (1 + rng.below(half - 1), 1 + rng.below(half - 1));
        let (s, start) = (rng.secret(half, ku, kv), rng.order(2 * half));
        released += build_is_right(&s, &start).is_some() as u32;
    }
    assert!(released > 50 && released < 300);
}

/// Every whole key of four places, from our builder or not; y and s of every kind.
#[test]
fn every_whole_key_of_four_places() {
    for first in all(2) {
        for second in all(2) {
            verdicts_are_right(&Key { p: vec![], rows: vec![first.clone(), second] }, 4);
        }
    }
    let mut rng = Rng(4);
    for k in 2..=4 {
        for _ in 0..2 {
            let rows = (0..k).map(|_| rng.trits(6 - k)).collect();
            verdicts_are_right(&Key { p: vec![], rows }, 6);
        }
    }
}
